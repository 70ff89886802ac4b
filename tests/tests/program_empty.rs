//! The built listing program on a plate of no marks (request U2 of document 02): the cases of its table, and what is no
//! empty plate.
#![cfg(feature = "library")]

#[allow(dead_code)] // not all of it is called from here
mod calls;
#[allow(dead_code)] // not all of it is called from here
mod process;

use calls::{blank_boundary, blank_bush, book, T};
use outside_tests::books::{Draft, Sym};
use outside_tests::text::text;
use process::{prints, Folder};

#[test]
fn the_table_of_the_request() {
    prints(&T, b"", "1: 0.0 0.1 0.1 = 460\nREADINGS 1\n");
    prints(&book(0, &["0: 0", "0:"]), b"", "1: 0.1 = 0\nREADINGS 1\n");
    prints(&book(0, &["0: 0 0", "0:"]), b"", "1: 0.1 = 0\nREADINGS 1\n");
    let twins = "1: 0.0 0.1 0.1 = 0\n2: 0.0 0.1 0.2 = 0\n3: 0.0 0.2 0.1 = 0\n4: 0.0 0.2 0.2 = 0\nREADINGS 4\n";
    prints(&book(0, &["0: 1 1", "1:", "1:"]), b"", twins);
    prints(&book(0, &["0: A"]), b"", "NO READING\n");
    prints(&[0x10, 0x00, 0x50], b"", "NO READING\n");
}

/// 512 parts, all of them empty, and 513.
#[test]
fn the_limit_of_512() {
    let parts = ["0.0", &format!(" 0.1{}", format!(" 0.2{}", " 0.3".repeat(8)).repeat(8)).repeat(7)].concat();
    prints(&blank_bush(0), b"", &format!("1: {parts} = 0\nREADINGS 1\n"));
    prints(&blank_bush(4), b"", "REFUSED 13\n");
}

#[test]
fn exactly_4096_and_one_more() {
    for (more, last) in [(false, "READINGS 4096"), (true, "READINGS more")] {
        let book = blank_boundary(more);
        let due = text(&book, b"", 0).expect("small enough");
        let lines: Vec<&str> = std::str::from_utf8(&due).expect("ASCII").lines().collect();
        assert_eq!((lines.len(), lines[4096]), (4097, last));
        Folder::with(&book).prints(b"", &due).expect("no difference");
    }
}

/// A newline is a mark, so a plate of one newline is not empty. The book is judged before the plate.
#[test]
fn what_is_no_empty_plate() {
    let (none, mut newline) = (book(0, &["0:"]), Draft::new(0));
    newline.rule(0, &[Sym::T(b'\n')]);
    prints(&none, b"", "1: 0.0 = 0\nREADINGS 1\n");
    prints(&none, b"\n", "NO READING\n");
    prints(&newline.bytes(), b"", "NO READING\n");
    prints(&newline.bytes(), b"\n", "1: 1.0 = 0\nREADINGS 1\n");
    prints(&T, b"\n", "NO READING\n");
    prints(&T[..20], b"", "REFUSED 1\n");
}

/// The longest plate that is read, and the shortest that is not.
#[test]
fn plates_of_64_and_65_marks() {
    let line = book(0, &["0: 1 1 1 1", "1: 2 2 2 2", "2: A A A A", "2:"]);
    let fours = format!(" 16.1{}", " 4.2".repeat(4)).repeat(4);
    prints(&line, &[b'A'; 64], &format!("1: 64.0{fours} = 0\nREADINGS 1\n"));
    prints(&line, &[b'A'; 65], "REFUSED 9\n");
    let empty = format!(" 0.1{}", " 0.3".repeat(4)).repeat(4);
    prints(&line, b"", &format!("1: 0.0{empty} = 0\nREADINGS 1\n"));
}
