//! What the header's own functions return, in C and in C++: version and texts of the refusals.
use filbozseg::{Refusal, BOOK};
use std::path::{Path, PathBuf};
use std::process::Command;

/// Compiles the program `header.c` with every warning as an error, runs it, and returns what it prints.
fn printed(compiler: &str, how: &[&str]) -> String {
    let folder = Path::new(env!("CARGO_MANIFEST_DIR"));
    let program = PathBuf::from(env!("CARGO_TARGET_TMPDIR")).join(format!("header-{compiler}-{}", std::process::id()));
    let compiled = Command::new(compiler)
        .args(how)
        .args(["-Wall", "-Wextra", "-Werror", "-pedantic", "-O2", "-I"])
        .arg(folder.join("../include"))
        .arg(folder.join("tests/header.c"))
        .arg("-o")
        .arg(&program)
        .output()
        .expect("a compiler");
    assert!(compiled.status.success(), "{}", String::from_utf8_lossy(&compiled.stderr));
    let output = Command::new(&program).output().expect("the program runs");
    std::fs::remove_file(&program).expect("the program is there");
    String::from_utf8(output.stdout).expect("UTF-8")
}

/// What is due: the version of this crate, and the sentence of each refusal without its number.
fn due() -> String {
    let version = env!("CARGO_PKG_VERSION");
    let number = version.split('.').fold(0, |number, part| 1000 * number + part.parse::<u32>().expect("a number"));
    let mut lines = vec![format!("{number} {version} {BOOK}"), "0 no refusal".to_string()];
    let sentence = |refusal: Refusal| refusal.to_string().split_once(" (refusal").expect("its number").0.to_string();
    let unknown = "a refusal that this version does not know".to_string();
    for number in 1..=300 {
        let known = u8::try_from(number).ok().and_then(Refusal::of_number);
        lines.push(format!("{number} {}", known.map_or(unknown.clone(), sentence)));
    }
    lines.push(unknown);
    lines.iter().map(|line| format!("{line}\n")).collect()
}

#[test]
fn version_and_texts_in_c() {
    assert_eq!(printed("gcc", &["-std=c99"]), due());
}

#[test]
fn version_and_texts_in_c_plus_plus() {
    assert_eq!(printed("g++", &["-std=c++11", "-x", "c++"]), due());
}
