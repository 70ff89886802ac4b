//! The build script says why the library cannot be linked.
#[path = "../build.rs"]
#[allow(dead_code)]
mod build;

use std::path::Path;

const HERE: [&str; 3] = ["x86_64", "linux", "64"];

#[test]
fn a_missing_archive_is_named_with_how_to_build_it() {
    let message = build::trouble(HERE, Path::new("/nowhere/libfilbozseg.a")).unwrap();
    assert!(message.starts_with("the proved library /nowhere/libfilbozseg.a is not there"), "{message}");
    assert!(message.contains("`tools/make library`") && message.contains("FILBOZSEG_LIB_DIR"), "{message}");
    assert!(build::trouble(HERE, Path::new(env!("CARGO_MANIFEST_DIR"))).is_some(), "a folder is no archive");
    assert_eq!(build::trouble(HERE, Path::new("Cargo.toml")), None, "any file is one, for the linker to judge");
}

#[test]
fn another_target_is_named() {
    for target in [["aarch64", "linux", "64"], ["x86_64", "windows", "64"], ["x86_64", "linux", "32"]] {
        let message = build::trouble(target, Path::new("Cargo.toml")).unwrap();
        assert!(
            message.contains("x86_64 Linux") && message.contains(target[0]) && message.contains(target[1]),
            "{message}"
        );
    }
}
