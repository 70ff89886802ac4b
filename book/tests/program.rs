//! The program on the command line.

use std::path::PathBuf;
use std::process::{Command, Output};

fn run(arguments: &[&str]) -> Output {
    Command::new(env!("CARGO_BIN_EXE_book")).args(arguments).output().expect("the program runs")
}

/// A file of this run with these bytes.
fn file(name: &str, held: &[u8]) -> PathBuf {
    let file = PathBuf::from(env!("CARGO_TARGET_TMPDIR")).join(name);
    std::fs::write(&file, held).expect("the file is written");
    file
}

/// What the program prints, without an error.
fn printed(verb: &str, name: &str, held: &[u8]) -> Vec<u8> {
    let output = run(&[verb, file(name, held).to_str().expect("UTF-8")]);
    assert_eq!((output.status.code(), &output.stderr[..]), (Some(0), &b""[..]));
    output.stdout
}

/// The program's message about a bad file, after the file's name. It prints nothing else.
fn said(verb: &str, name: &str, held: &[u8]) -> String {
    let file = file(name, held);
    let output = run(&[verb, file.to_str().expect("UTF-8")]);
    assert_eq!((output.status.code(), &output.stdout[..]), (Some(1), &b""[..]));
    let said = String::from_utf8(output.stderr).expect("UTF-8");
    said.strip_prefix(&format!("book: {}: ", file.display())).expect("the file is named").to_string()
}

#[test]
fn writes_and_reads() {
    let text = b"start 0\n0 -> 1 1 : 46.00\n1 -> - : 0.00\n1 -> 'A' : 0.25\n";
    let bytes = b"\x10\x00\x20\x00\xF8\x11\x30\x01\x30\x01\x20\x01\x00\x00\x20\x01\x19\x00\x40\x41\x50";
    assert_eq!(printed("write", "t.txt", text), bytes);
    assert_eq!(printed("read", "t.bin", bytes), text);
    assert_eq!(printed("write", "comment.txt", "start 0 # \u{e9}\r\n".as_bytes()), b"\x10\x00\x50");
}

/// A file that begins with the byte 10 is a book already, whether it loads or not.
#[test]
fn writes_bytes_as_they_are() {
    for bytes in [&b"\x10\x00\x50"[..], b"\x10", b"\x10\x00\x50\x00\xFF", b"\x10start 0\n"] {
        assert_eq!(printed("write", "bytes.txt", bytes), bytes);
    }
    assert_eq!(
        said("write", "late.bin", b"\n\x10\x00\x50"),
        "line 2: `\\u{10}\\u{0}P`: the first statement has to be `start KIND`\n"
    );
}

#[test]
fn prints_a_summary() {
    let listing = b"1: 1.0 0.1 1.2 = 462\n2: 1.0 1.2 0.1 = 462\nREADINGS 2\n";
    let due = b"summary: 2 readings, 1 build\n46.2 mm: 2 readings, 1 build\n";
    assert_eq!(printed("summary", "t.listing", listing), due);
    assert_eq!(said("summary", "cut.listing", &listing[..21]), "line 1: not a line of a listing\n");
}

#[test]
fn says_what_is_wrong() {
    assert_eq!(said("write", "kind.txt", b"start 0\n32 -> - : 0\n"), "line 2: `32`: a kind over 31\n");
    assert_eq!(said("write", "empty.txt", b""), "line 1: there is no `start KIND`\n");
    assert_eq!(said("write", "latin.txt", b"start 0\n\n# caf\xE9 'A'\r\n"), "line 3: `caf\\xe9`: not UTF-8\n");
    assert_eq!(said("write", "utf16.txt", b"\xFF\xFEs\0t\0"), "line 1: `\\xff\\xfes\\x00t\\x00`: not UTF-8\n");
    let due = "refusal 1 at offset 0: the book ends inside a command, or where one is due\n";
    assert_eq!(said("read", "empty.bin", b""), due);
    let output = run(&["write", "no such file"]);
    assert_eq!((output.status.code(), &output.stdout[..]), (Some(1), &b""[..]));
    assert!(output.stderr.starts_with(b"book: no such file: "));
}

#[test]
fn says_how_it_is_called() {
    for arguments in [&[][..], &["write"], &["read", "a", "b"], &["turn", "a"], &["--help"]] {
        let output = run(arguments);
        assert_eq!((output.status.code(), &output.stdout[..]), (Some(2), &b""[..]));
        assert!(output.stderr.starts_with(b"usage: book write FILE.txt > book.bin\n"));
    }
}
