//! How `tools/list` is called: its help, its words, and what it says where something is wrong.

mod checkout;

use checkout::Checkout;
use std::fs::File;
use std::path::PathBuf;
use std::process::Output;

/// What the command needs besides rt and cargo.
const TOOLS: &str =
    "awk bash cat cp cut env find flock grep head mkdir mktemp mv od readlink rm sed sh sha256sum sort tail tee tr wc xargs";

/// A checkout with the book `start 0` in two files.
fn checkout() -> Checkout {
    let checkout = Checkout::new();
    for name in ["b.txt", "-x.txt"] {
        checkout.put(name, "start 0\n");
    }
    checkout
}

/// The command ends with this status and says this, besides its progress; it prints nothing.
fn says(checkout: &Checkout, arguments: &[&str], status: i32, due: &str) {
    let output = checkout.list(arguments);
    assert_eq!((output.status.code(), &output.stdout[..]), (Some(status), &b""[..]), "{arguments:?}");
    assert_eq!(String::from_utf8_lossy(&output.stderr), due, "{arguments:?}");
}

/// The plate that the program is given, in hexadecimal.
fn plate(checkout: &Checkout, arguments: &[&str]) -> String {
    plate_of(checkout.list(arguments), arguments)
}

/// The same from what the command printed.
fn plate_of(output: Output, arguments: &[&str]) -> String {
    let printed = String::from_utf8(output.stdout).expect("ASCII");
    assert_eq!(output.status.code(), Some(0), "{arguments:?}: {}", String::from_utf8_lossy(&output.stderr));
    let plate = printed.strip_prefix("book 100050\nplate ").and_then(|rest| rest.strip_suffix('\n'));
    plate.unwrap_or_else(|| panic!("{arguments:?}: {printed:?}")).to_string()
}

#[test]
fn help_is_printed() {
    let checkout = checkout();
    for arguments in [&["--help"][..], &["b.txt", "--help"], &["b.txt", "A", "--help"], &["--help", "b.txt"]] {
        let output = checkout.list(arguments);
        assert_eq!((output.status.code(), &output.stderr[..]), (Some(0), &b""[..]), "{arguments:?}");
        let printed = String::from_utf8(output.stdout).expect("UTF-8");
        assert!(printed.starts_with("usage: tools/list ") && printed.lines().count() > 10, "{printed}");
    }
    assert_eq!(checkout.held("calls"), "", "nothing is built for it");
}

#[test]
fn a_wrong_call_is_named() {
    let checkout = checkout();
    let help = checkout.list(&["--help"]).stdout;
    let usage = String::from_utf8(help).expect("UTF-8").lines().next().expect("a line").to_string();
    let no_option = |word: &str| format!("{word}: no option; for a file of this name write ./{word}, or -- before it");
    let no_year = |word: &str| format!("{word}: not a year, which is a number from 0 to 65535");
    for (arguments, due) in [
        (&[][..], "BOOK and PLATE are missing".to_string()),
        (&["--"], "BOOK and PLATE are missing".to_string()),
        (&["b.txt"], "PLATE is missing".to_string()),
        (&["b.txt", "--"], "PLATE is missing".to_string()),
        (&["b.txt", "A", "2008", "B"], "B: a word too many".to_string()),
        (&["b.txt", "A", "B"], no_year("B")),
        (&["b.txt", "A", ""], no_year("")),
        (&["b.txt", "A", "65536"], no_year("65536")),
        (&["b.txt", "A", "02008"], no_year("02008")),
        (&["-x.txt", "A"], no_option("-x.txt")),
        (&["--sumary", "b.txt", "A"], no_option("--sumary")),
        (&["b.txt", "A", "-s"], no_option("-s")),
    ] {
        says(&checkout, arguments, 2, &format!("list: {due}\n{usage}\ntools/list --help says more\n"));
    }
    assert_eq!(checkout.held("calls"), "", "nothing is built for it");
}

#[test]
fn a_year_is_two_bytes_with_the_low_one_first() {
    let checkout = checkout();
    for (year, due) in [("0", "0000"), ("255", "ff00"), ("256", "0001"), ("2008", "d807"), ("65535", "ffff")] {
        let output = checkout.list(&["b.txt", "A", year]);
        assert!(String::from_utf8_lossy(&output.stdout).ends_with(&format!("plate 41\nyear {due}\n")), "{output:?}");
    }
    let output = checkout.list(&["b.txt", "A"]);
    assert!(output.stdout.ends_with(b"plate 41\n"), "no year.bin without a year: {output:?}");
}

#[test]
fn words_that_begin_with_a_dash() {
    let checkout = checkout();
    for (arguments, due) in [
        (&["b.txt", "A"][..], "41"),
        (&["--", "-x.txt", "A"], "41"),
        (&["./-x.txt", "A"], "41"),
        (&["b.txt", "-5"], "2d35"),
        (&["b.txt", "--", "-5"], "2d35"),
        (&["--", "b.txt", "--"], "2d2d"),
        (&["--", "b.txt", "--help"], "2d2d68656c70"),
        (&["b.txt", ""], ""),
        (&["b.txt", "%s\\n *\n"], "25735c6e202a0a"),
    ] {
        assert_eq!(plate(&checkout, arguments), due, "{arguments:?}");
    }
}

/// The book is named as it was given, from any folder, and nothing is proved for a bad one.
#[test]
fn a_bad_book_is_named() {
    let checkout = checkout();
    checkout.put("sub/bad.txt", "start 32\n");
    let missing = "No such file or directory (os error 2)";
    says(&checkout, &["nofolder/x.txt", "A"], 1, &format!("book: nofolder/x.txt: {missing}\n"));
    says(&checkout, &["--", "-y.txt", "A"], 1, &format!("book: -y.txt: {missing}\n"));
    says(&checkout, &["", "A"], 1, &format!("book: : {missing}\n"));
    says(&checkout, &["sub", "A"], 1, "book: sub: Is a directory (os error 21)\n");
    says(&checkout, &["sub/bad.txt", "A"], 1, "book: sub/bad.txt: line 1: `32`: a kind over 31\n");
    let mut command = checkout.command("tools/list");
    let output = command.args(["bad.txt", "A"]).current_dir(checkout.path("sub")).output().expect("tools/list runs");
    assert_eq!(String::from_utf8_lossy(&output.stderr), "book: bad.txt: line 1: `32`: a kind over 31\n");
    assert_eq!(checkout.held("calls"), "cargo build\n");
}

/// Bytes are known by their first one, whatever the file is called. Whether they load is the program's to say.
#[test]
fn a_book_may_be_bytes() {
    let checkout = checkout();
    for (bytes, due) in [(&b"\x10\x00\x50"[..], "100050"), (b"\x10", "10"), (b"\x10\x00\n\xFF\n", "10000aff0a")] {
        for name in ["book.bin", "bytes.txt"] {
            checkout.put(name, bytes);
            let output = checkout.list(&[name, "A"]);
            assert_eq!(output.status.code(), Some(0), "{}", String::from_utf8_lossy(&output.stderr));
            assert_eq!(String::from_utf8_lossy(&output.stdout), format!("book {due}\nplate 41\n"));
        }
    }
}

/// The marks of a file, and of standard input: each byte is a mark.
#[test]
fn a_plate_may_be_a_file() {
    let checkout = checkout();
    let all: Vec<u8> = (0..=255).collect();
    for marks in [&b""[..], b"A\0", &all, &[b'\n'; 1000]] {
        checkout.put("sub/plate", marks);
        let due: String = marks.iter().map(|byte| format!("{byte:02x}")).collect();
        assert_eq!(plate(&checkout, &["--file", "b.txt", "sub/plate"]), due);
        for arguments in [&["../b.txt", "-"][..], &["../b.txt", "-", "--file"]] {
            let mut command = checkout.command("tools/list");
            command.current_dir(checkout.path("sub")).stdin(File::open(checkout.path("sub/plate")).expect("a file"));
            let output = command.args(arguments).output().expect("tools/list runs");
            assert_eq!(output.stderr, b"", "no note");
            assert_eq!(plate_of(output, arguments), due);
        }
    }
    checkout.put("-", "B");
    assert_eq!(plate(&checkout, &["--file", "b.txt", "./-"]), "42");
}

/// More marks than any plate has are not read to their end.
#[test]
fn an_endless_plate_ends() {
    let checkout = checkout();
    assert_eq!(plate(&checkout, &["--file", "b.txt", "/dev/zero"]), "00".repeat(1000));
}

#[test]
fn a_newline_at_the_end_is_noted() {
    let checkout = checkout();
    let note = "list: note: the plate ends in a newline, which is listed as a mark\n";
    assert_eq!(plate(&checkout, &["b.txt", "A"]), "41"); // what is built is built
    for (marks, due) in [("A\n", "410a"), ("\n", "0a"), ("A\r\n\n", "410d0a0a")] {
        checkout.put("plate", marks);
        for arguments in [["--file", "b.txt", "plate"], ["--", "b.txt", marks]] {
            let output = checkout.list(&arguments);
            assert_eq!(String::from_utf8_lossy(&output.stderr), note);
            assert_eq!(plate_of(output, &arguments), due);
        }
    }
}

/// A plate that cannot be read is named, and nothing is proved for it.
#[test]
fn a_bad_plate_is_named() {
    let checkout = checkout();
    std::fs::create_dir(checkout.path("sub")).expect("a folder");
    says(&checkout, &["--file", "b.txt", "sub/none"], 1, "list: sub/none: No such file or directory\n");
    says(&checkout, &["--file", "b.txt", "--", "-n: o"], 1, "list: -n: o: No such file or directory\n");
    says(&checkout, &["--file", "b.txt", "sub"], 1, "list: sub: Is a directory\n");
    let mut closed = checkout.command("bin/closed");
    checkout.script("bin/closed", "#!/bin/sh\nexec tools/list b.txt - <&-\n");
    let output = closed.output().expect("a shell");
    assert_eq!((output.status.code(), &output.stdout[..]), (Some(1), &b""[..]));
    assert_eq!(String::from_utf8_lossy(&output.stderr), "list: standard input: it is closed\n");
    assert_eq!(checkout.held("calls"), "cargo build\n");
}

/// The list goes to standard output as without the summary, which comes on standard error.
#[test]
fn a_summary_is_added() {
    let checkout = checkout();
    let listing = "1: 1.0 0.1 1.2 = 462\n2: 1.0 1.2 0.1 = 462\nREADINGS 2\n";
    checkout.script("lister", &format!("#!/bin/sh\nprintf '{listing}'\n"));
    assert_eq!(checkout.list(&["b.txt", "A"]).stdout, listing.as_bytes());
    for arguments in [["--summary", "b.txt", "A"], ["b.txt", "A", "--summary"]] {
        let output = checkout.list(&arguments);
        assert_eq!((output.status.code(), &*String::from_utf8_lossy(&output.stdout)), (Some(0), listing));
        let due = "summary: 2 readings, 1 build\n46.2 mm: 2 readings, 1 build\n";
        assert_eq!(String::from_utf8_lossy(&output.stderr), due);
    }
}

/// Where nothing else is installed than the command needs: what is missing is named, and once both programs are
/// built, nothing is missing.
#[test]
fn a_missing_tool_is_named() {
    let checkout = checkout();
    let few = checkout.path("few");
    std::fs::create_dir(&few).expect("a folder");
    let path = std::env::var_os("PATH").expect("a path");
    for tool in TOOLS.split(' ') {
        let found = std::env::split_paths(&path).map(|folder| folder.join(tool)).find(|file: &PathBuf| file.is_file());
        let file = found.unwrap_or_else(|| panic!("there is no {tool}"));
        std::os::unix::fs::symlink(file, few.join(tool)).expect("a link");
    }
    let list = || {
        let mut command = checkout.command("tools/list");
        let output = command.env("PATH", &few).args(["b.txt", "A"]).output().expect("tools/list runs");
        (output.status.code(), String::from_utf8(output.stderr).expect("UTF-8"))
    };
    let missing = |tool: &str, program: &str| {
        (
            Some(1),
            format!("list: {tool} is not installed, and target/list/ has no program {program} of these sources\n"),
        )
    };
    assert_eq!(list(), missing("cargo", "book"));
    assert_eq!(plate(&checkout, &["b.txt", "A"]), "41");
    assert_eq!(list(), (Some(0), String::new()));
    checkout.put("crates/list/src/lib.rt", "changed");
    assert_eq!(list(), missing("rt", "list"));
}
