//! The C header and the wrapper have the same version, sizes, refusals and functions.
use filbozseg::{Refusal, BOOK, BYTES, CELLS, HAND, OUTPUT, POINTS, ROW, STACK, TEXT};
use std::path::{Path, PathBuf};
use std::process::Command;

const HEADER: &str = include_str!("../../include/filbozseg.h");

/// The value of a macro that is defined as a number.
fn defined(name: &str) -> usize {
    let line = HEADER.lines().find_map(|line| line.strip_prefix(&format!("#define FILBOZSEG_{name} ")));
    line.and_then(|number| number.parse().ok()).unwrap_or_else(|| panic!("{name} is not defined as a number"))
}

#[test]
fn the_version_is_that_of_the_crate() {
    let version = ["MAJOR", "MINOR", "PATCH"].map(|part| defined(&format!("VERSION_{part}")).to_string());
    assert_eq!(version.join("."), env!("CARGO_PKG_VERSION"));
}

#[test]
fn the_sizes_are_those_of_the_crate() {
    let sizes = ["ROW", "HAND", "POINTS", "CELLS", "BYTES", "OUTPUT", "TEXT", "BOOK"].map(defined);
    assert_eq!(sizes, [ROW, HAND, POINTS, CELLS, BYTES, OUTPUT, TEXT, BOOK]);
}

#[test]
fn the_stack_is_that_of_the_crate() {
    for call in ["FIRST", "NEXT", "COUNT"] {
        assert!(HEADER.contains(&format!("#define FILBOZSEG_{call}_STACK ({} * 1024)\n", STACK / 1024)), "{call}");
    }
}

/// The archive that this test is linked with needs no more from outside than the header says.
#[test]
fn the_archive_needs_only_memcpy_and_memset() {
    assert!(HEADER.contains(" Of the C library they need only memcpy and memset. "));
    let folder = std::env::var_os("FILBOZSEG_LIB_DIR").map(PathBuf::from);
    let folder = folder.unwrap_or_else(|| Path::new(env!("CARGO_MANIFEST_DIR")).join("../target/staticlib"));
    let output = Command::new("nm").args(["-u", "-j"]).arg(folder.join("libfilbozseg.a")).output().expect("nm");
    assert!(output.status.success(), "{}", String::from_utf8_lossy(&output.stderr));
    let text = String::from_utf8(output.stdout).expect("UTF-8");
    let mut needed: Vec<_> = text.lines().filter(|line| !line.is_empty() && !line.ends_with(':')).collect();
    needed.sort();
    assert_eq!(needed, ["memcpy", "memset"]);
}

/// `UnexpectedEnd` as C writes it: `UNEXPECTED_END`.
fn in_c(name: &str) -> String {
    let apart = name.chars().enumerate().flat_map(|(at, c)| [(at > 0 && c.is_uppercase()).then_some('_'), Some(c)]);
    apart.flatten().collect::<String>().to_uppercase()
}

#[test]
fn the_refusals_are_those_of_the_crate() {
    let values: Vec<_> =
        HEADER.lines().filter_map(|line| line.trim().strip_prefix("FILBOZSEG_REFUSAL_")?.split_once(" = ")).collect();
    assert_eq!(values.len(), Refusal::ALL.len());
    for (refusal, (name, rest)) in Refusal::ALL.iter().zip(values) {
        let value = rest.trim_end_matches(',');
        assert_eq!((name.to_string(), value), (in_c(&format!("{refusal:?}")), refusal.number().to_string().as_str()));
    }
    let (last, base) = (Refusal::ALL.len(), Refusal::ALL[0].code() - 1);
    assert!(HEADER.contains(&format!("{base} + n    refusal n, 1 <= n <= {last}: ")));
    assert!(HEADER.contains(&format!("return code > {base} ? code - {base} : 0;")));
}

/// The text of each refusal in the header is the wrapper's, which adds the number.
#[test]
fn the_texts_are_those_of_the_crate() {
    let texts: Vec<_> = HEADER.split("    case FILBOZSEG_REFUSAL_").skip(1).collect();
    assert_eq!(texts.len(), Refusal::ALL.len());
    for (refusal, text) in Refusal::ALL.iter().zip(texts) {
        let (name, rest) = text.split_once(":\n        return \"").unwrap();
        let due = format!("{} (refusal {})", rest.split_once("\";\n").unwrap().0, refusal.number());
        assert_eq!((name, due), (&in_c(&format!("{refusal:?}"))[..], refusal.to_string()));
    }
}

/// The functions that a text declares after each `before`: the name, and what is between the brackets, with single spaces.
fn functions(text: &str, before: &str) -> Vec<(String, String)> {
    let declared = text.split(before).skip(1).filter_map(|rest| rest.split_once('('));
    let declared =
        declared.map(|(name, rest)| (name, rest.split_once(')').unwrap().0.trim_end_matches([',', '\n', ' '])));
    declared.map(|(name, rest)| (name.into(), rest.split_whitespace().collect::<Vec<_>>().join(" "))).collect()
}

/// A C parameter as Rust writes it.
fn in_rust(parameter: &str) -> String {
    let (constant, rest) = match parameter.strip_prefix("const ") {
        Some(rest) => ("*const ", rest),
        None => ("*mut ", parameter),
    };
    let (kind, name) = rest.split_once(' ').unwrap();
    let kind = kind.replace("size_t", "usize").replace("uint", "u").replace("int", "i").replace("_t", "");
    match (name.strip_prefix('*'), name.split_once('[')) {
        (Some(name), _) => format!("{name}: {constant}{kind}"),
        (_, Some((name, size))) => format!("{name}: {constant}[{kind}; {}", size.replace("FILBOZSEG_", "")),
        _ => format!("{name}: {kind}"),
    }
}

#[test]
fn the_functions_are_those_of_the_crate() {
    let header = functions(HEADER, "\nuint32_t filbozseg_");
    let wrapper = functions(include_str!("../src/sys.rs"), "pub fn filbozseg_");
    assert_eq!(header.len(), 14);
    let header: Vec<_> = header
        .into_iter()
        .map(|(name, list)| (name, list.split(", ").map(in_rust).collect::<Vec<_>>().join(", ")))
        .collect();
    assert_eq!(header, wrapper);
}

/// README's program is the one that the doc tests run.
#[test]
fn readme_has_the_tested_program() {
    assert!(include_str!("../../README.md").contains(include_str!("../README-snippet.md")));
}
