//! The option --words of `tools/list`: what it adds, and what is built for it.

mod checkout;

use checkout::Checkout;
use std::process::Output;

const LISTING: &str = "1: 1.0 = 10\nREADINGS 1\n";

/// A checkout with the book `start 0` and a program that prints the same listing always.
fn checkout() -> Checkout {
    let checkout = Checkout::new();
    checkout.put("b.txt", "start 0\n");
    checkout.script("lister", &format!("#!/bin/sh\nprintf '{LISTING}'\n"));
    checkout
}

/// The command has printed this and ended with status 0.
fn prints(output: &Output, due: &str) {
    let said = String::from_utf8_lossy(&output.stderr);
    assert_eq!((output.status.code(), &*String::from_utf8_lossy(&output.stdout)), (Some(0), due), "{said}");
}

/// The program `words` gets book, plate, year and listing, and what it prints is printed.
#[test]
fn words_are_added() {
    let checkout = checkout();
    for (arguments, due) in [
        (&["--words", "b.txt", "A"][..], "100050 41 0"),
        (&["b.txt", "A", "2008", "--words"], "100050 41 2008"),
        (&["b.txt", "--words", ""], "100050  0"),
    ] {
        prints(&checkout.list(arguments), &format!("{LISTING}words of {due}\n"));
    }
    prints(&checkout.list(&["b.txt", "A"]), LISTING);
    prints(&checkout.list(&["--", "b.txt", "--words"]), LISTING);
}

/// The summary is that of the list, and comes on standard error.
#[test]
fn words_and_a_summary() {
    let checkout = checkout();
    prints(&checkout.list(&["--words", "b.txt", "A"]), &format!("{LISTING}words of 100050 41 0\n"));
    let output = checkout.list(&["--words", "--summary", "b.txt", "A"]);
    prints(&output, &format!("{LISTING}words of 100050 41 0\n"));
    assert_eq!(String::from_utf8_lossy(&output.stderr), "summary: 1 reading, 1 build\n1.0 mm: 1 reading, 1 build\n");
}

/// The library is proved and its program built for this option only, and again only if its own sources change.
#[test]
fn the_library_is_proved_for_it_once() {
    let checkout = checkout();
    checkout.list(&["b.txt", "A"]);
    assert_eq!(checkout.held("calls"), "cargo build\nrt run\n");
    for (name, call) in [
        ("README.md", "rt lib\ncargo build\n"),
        ("README.md", ""),
        ("crates/other/src/lib.rt", ""),
        ("crates/only/must-fail/a.edit", ""),
        ("rust/tests/new.rs", ""),
        ("crates/only/src/lib.rt", "rt lib\ncargo build\n"),
        ("crates/list/src/lib.rt", "rt run\n"),
        ("crates/sizes/src/lib.rt", "rt run\nrt lib\ncargo build\n"),
        ("rust/src/lib.rs", "cargo build\n"),
        ("rust/examples/words.rs", "cargo build\n"),
        ("book/src/lib.rs", "cargo build\n"),
    ] {
        checkout.put("calls", "");
        checkout.put(name, "changed");
        let output = checkout.list(&["--words", "b.txt", "A"]);
        prints(&output, &format!("{LISTING}words of 100050 41 0\n"));
        assert_eq!(checkout.held("calls"), call, "{name}");
    }
}

/// Where the texts cannot be written, the command fails.
#[test]
fn a_failure_is_passed_on() {
    let checkout = checkout();
    checkout.script("writer", "#!/bin/sh\necho 'words: no' >&2\nexit 1\n");
    let output = checkout.list(&["--words", "b.txt", "A"]);
    assert_eq!((output.status.code(), &output.stdout[..]), (Some(1), &b""[..]));
    assert!(String::from_utf8_lossy(&output.stderr).ends_with("words: no\n"));
}
