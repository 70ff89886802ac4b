//! Links the static library that `tools/make library` writes. It takes the library from the folder that FILBOZSEG_LIB_DIR names, or from
//! ../target/staticlib. If the library cannot be linked, the build ends here with a message that says why.
use std::env;
use std::path::{Path, PathBuf};

/// Why the library cannot be linked for a target, given as its architecture, operating system and width of pointers.
pub fn trouble(target: [&str; 3], archive: &Path) -> Option<String> {
    let [architecture, system, width] = target;
    if target != ["x86_64", "linux", "64"] {
        return Some(format!(
            "the proved library is machine code for x86_64 Linux with 64-bit pointers, and the target is {architecture} {system} with \
             {width}-bit pointers: build with `--target x86_64-unknown-linux-gnu`"
        ));
    }
    if !archive.is_file() {
        return Some(format!(
            "the proved library {} is not there: run `tools/make library` at the top of the repository, which writes \
             target/staticlib/libfilbozseg.a, or set FILBOZSEG_LIB_DIR to the folder that holds libfilbozseg.a",
            archive.display()
        ));
    }
    None
}

fn main() {
    let folder = match env::var_os("FILBOZSEG_LIB_DIR") {
        Some(folder) => PathBuf::from(folder),
        None => PathBuf::from(env::var_os("CARGO_MANIFEST_DIR").unwrap()).join("../target/staticlib"),
    };
    let archive = folder.join("libfilbozseg.a");
    println!("cargo::rerun-if-env-changed=FILBOZSEG_LIB_DIR");
    println!("cargo::rerun-if-changed={}", archive.display());
    let target = ["ARCH", "OS", "POINTER_WIDTH"].map(|what| env::var(format!("CARGO_CFG_TARGET_{what}")).unwrap());
    match trouble([&target[0], &target[1], &target[2]], &archive) {
        Some(trouble) => println!("cargo::error={trouble}"),
        None => {
            println!("cargo::rustc-link-search=native={}", folder.display());
            println!("cargo::rustc-link-lib=static=filbozseg");
        }
    }
}
