//! The built listing program and its file for the year (request U9 of document 02): files of every length, no file, what
//! cannot be read, and the table of the request.
#![cfg(feature = "library")]

#[allow(dead_code)] // not all of it is called from here
mod calls;
#[allow(dead_code)] // not all of it is called from here
mod process;

use calls::{book, SEAL, T};
use outside_tests::books::{Draft, Sym};
use outside_tests::compare::{compare_year_files, YEAR_FILES};
use outside_tests::lister::year::of_file;
use outside_tests::text::text;
use process::Folder;
use std::fs;

/// What the program prints for the book, the plate and the file for the year.
fn printed(book: &[u8], plate: &[u8], file: Option<&[u8]>) -> String {
    let folder = Folder::with(book);
    folder.put_year(file);
    let (stdout, stderr, status) = folder.ran(plate);
    assert_eq!((&stderr[..], status.code()), (&b""[..], Some(0)));
    assert_eq!(stdout, text(book, plate, of_file(file)).expect("small enough"));
    String::from_utf8(stdout).expect("ASCII")
}

/// 0 -> A, once for each of these years and in force in it alone: the rule's number says which year the program went by.
fn steps(years: &[u16]) -> Vec<u8> {
    let mut draft = Draft::new(0);
    for (number, year) in years.iter().enumerate() {
        draft.rules.push((0, number as i16, vec![Sym::T(b'A')]));
        draft.years.insert(number, (*year, *year));
    }
    draft.bytes()
}

#[test]
fn files_of_every_length() {
    let mut years: Vec<u16> = YEAR_FILES.iter().map(|(_, year)| *year).chain([0xCE, 0x0707]).collect();
    years.sort();
    years.dedup();
    let book = steps(&years);
    let said = |file: Option<&[u8]>| {
        let line = printed(&book, b"A", file);
        let rule: usize =
            line.strip_prefix("1: 1.").and_then(|rest| rest.split_once(' ')?.0.parse().ok()).expect("a rule");
        years[rule]
    };
    compare_year_files(said).expect("no difference");
    for length in [3, 4, 255, 4096, 100_000] {
        assert_eq!(said(Some(&vec![7; length])), 0, "{length} bytes");
    }
}

#[test]
fn the_table_of_the_request() {
    for (year, due) in [
        (1997_u16, "NO READING\n"),
        (1998, "1: 1.0 = 10\nREADINGS 1\n"),
        (2007, "1: 1.0 = 10\nREADINGS 1\n"),
        (2008, "1: 1.1 = 20\nREADINGS 1\n"),
        (65_535, "1: 1.1 = 20\nREADINGS 1\n"),
    ] {
        assert_eq!(printed(&SEAL, b"A", Some(&year.to_le_bytes())), due, "{year}");
    }
    assert_eq!(printed(&SEAL, b"A", None), "NO READING\n");
}

/// A folder or a link to nothing in place of the file is no file: the year is 0.
#[test]
fn what_cannot_be_read_is_no_file() {
    let in_year_0 = steps(&[0, 1998]);
    let (folder, dangling) = (Folder::with(&in_year_0), Folder::with(&in_year_0));
    fs::create_dir(folder.year()).expect("a folder instead of a year");
    std::os::unix::fs::symlink("nowhere", dangling.year()).expect("a link to nothing");
    for place in [&folder, &dangling] {
        place.prints(b"A", b"1: 1.0 = 0\nREADINGS 1\n").expect("no difference");
    }
}

/// The book is judged first, then the plate; a bad file for the year is no fault.
#[test]
fn the_book_is_judged_first() {
    for (file, _) in YEAR_FILES {
        assert_eq!(printed(&[0x70], b"A", file), "REFUSED 2\n");
        assert_eq!(printed(&SEAL[..22], b"A", file), "REFUSED 1\n");
        assert_eq!(printed(&SEAL, &[b'A'; 65], file), "REFUSED 9\n");
    }
    let folder = Folder::new();
    folder.put_year(Some(&[0xCE, 0x07]));
    folder.prints(b"A", b"REFUSED 1\n").expect("no difference");
}

/// A book of rules opened by 20 reads alike in all years, with and without a file.
#[test]
fn old_books_read_alike() {
    for (book, plate) in [(&T[..], &b"A"[..]), (&T, b""), (&book(0, &["0: 0 0", "0: A"]), b"AAAA")] {
        let without = printed(book, plate, None);
        for (file, _) in YEAR_FILES {
            assert_eq!(printed(book, plate, file), without);
        }
    }
}

/// The program leaves its folder as found.
#[test]
fn the_file_is_left_as_found() {
    for bytes in [&[0xCE, 0x07][..], &[], &[1, 2, 3]] {
        let folder = Folder::with(&SEAL);
        folder.put_year(Some(bytes));
        folder.ran(b"A");
        let mut names: Vec<_> =
            fs::read_dir(folder.run()).expect("a folder").map(|entry| entry.unwrap().file_name()).collect();
        names.sort();
        assert_eq!(names, ["book.bin", "year.bin"]);
        assert_eq!(fs::read(folder.year()).expect("the year"), bytes);
    }
}
