//! The sample books of `samples/`: checks their texts, and compares their listings with the lister.

use book::{to_bytes, to_text};
use outside_tests::lister::{grammar, listed, parse, trees, words};
use std::path::PathBuf;

/// Each listing: its sample, its year if there is one in its name, the number of parts of the first reading, and the number
/// of readings.
const LISTINGS: &[(&str, Option<u16>, usize, usize)] = &[
    ("T", None, 3, 2),
    ("pairs", None, 5, 2),
    ("bush", None, 512, 1),
    ("expressions", None, 19, 1),
    ("ambiguous", None, 7, 5),
    ("bores", None, 6, 2),
    ("service", None, 3, 6),
    ("seal", Some(1998), 1, 1),
    ("seal", Some(2008), 1, 1),
    ("names", None, 3, 4),
];

/// The samples whose readings are also there in words, as the option --words of `tools/list` prints them.
const IN_WORDS: &[&str] = &["names"];

/// Book T of document 01, in full.
const T: [u8; 21] = [
    0x10, 0x00, 0x20, 0x00, 0xF8, 0x11, 0x30, 0x01, 0x30, 0x01, 0x20, 0x01, 0x00, 0x00, 0x20, 0x01, 0x19, 0x00, 0x40,
    0x41, 0x50,
];

fn folder() -> PathBuf {
    PathBuf::from(concat!(env!("CARGO_MANIFEST_DIR"), "/../samples"))
}

/// The contents of a file of the folder.
fn held(name: &str, kind: &str) -> Vec<u8> {
    let file = folder().join(format!("{name}.{kind}"));
    std::fs::read(&file).unwrap_or_else(|error| panic!("{}: {error}", file.display()))
}

fn text(name: &str) -> String {
    String::from_utf8(held(name, "txt")).expect("UTF-8")
}

/// How the file of a listing ends.
fn kind(year: Option<u16>) -> String {
    year.map_or("listing".to_string(), |year| format!("{year}.listing"))
}

/// The listing program's lines for a book and a plate with 1 to 4,096 readings in a year, from the lister's list.
fn listing(book: &[u8], plate: &[u8], year: u16) -> String {
    let grammar = grammar::load(book).expect("the book loads").in_year(year);
    let (list, _) = listed(&grammar, plate);
    assert!((1..=4096).contains(&list.len()));
    let mut lines = String::new();
    for (at, row) in list.iter().enumerate() {
        let parts: String = row.chunks(2).map(|part| format!(" {}.{}", part[0], part[1])).collect();
        lines += &format!("{}:{parts} = {}\n", at + 1, trees::tenths(&grammar, row));
    }
    lines + &format!("READINGS {}\n", list.len())
}

#[test]
fn each_listing_is_the_listers() {
    for &(name, year, parts, readings) in LISTINGS {
        let (book, plate, due) = (to_bytes(&text(name)).expect(name), held(name, "plate"), held(name, &kind(year)));
        let due = String::from_utf8(due).expect("ASCII");
        assert_eq!(listing(&book, &plate, year.unwrap_or(0)), due, "{name}");
        let first = due.lines().next().expect("a line");
        assert_eq!(first.split(' ').count(), 1 + parts + 2, "{name}");
        assert!(due.ends_with(&format!("\nREADINGS {readings}\n")), "{name}");
    }
}

/// Below each line of the listing is the reading in words, as the lister writes it; its parser finds the reading in it.
#[test]
fn each_reading_in_words_is_the_listers() {
    for name in IN_WORDS {
        let book = grammar::load(&to_bytes(&text(name)).expect(name)).expect(name);
        let (plate, mut due) = (held(name, "plate"), String::new());
        let listing = String::from_utf8(held(name, "listing")).expect("ASCII");
        for (line, row) in listing.lines().zip(listed(&book, &plate).0) {
            let (tree, _) = trees::tree_of(&book, book.start, &plate, &row).expect("a reading");
            let words = words::text(&book, &tree);
            assert_eq!(parse::parsed(&book, words.as_bytes()), Some((plate.clone(), row)));
            due += &format!("{line}\n   {words}\n");
        }
        due += &format!("{}\n", listing.lines().last().expect("a last line"));
        assert_eq!(String::from_utf8(held(name, "words")).expect("ASCII"), due, "{name}");
    }
}

/// Without comments, empty lines and the blanks before a comment, a sample is what `to_text` writes.
#[test]
fn each_text_is_written_as_to_text_writes() {
    for (name, ..) in LISTINGS {
        let bare = |line: &str| line.split('#').next().unwrap_or("").trim_end().to_string();
        let lines: Vec<String> = text(name).lines().map(bare).filter(|line| !line.is_empty()).collect();
        let written = to_text(&to_bytes(&text(name)).expect(name)).expect(name);
        assert_eq!(written.lines().collect::<Vec<_>>(), lines, "{name}");
    }
}

#[test]
fn book_t_is_document_01s() {
    assert_eq!(to_bytes(&text("T")), Ok(T.to_vec()));
    assert_eq!(to_text(&T), Ok("start 0\n0 -> 1 1 : 46.00\n1 -> - : 0.00\n1 -> 'A' : 0.25\n".to_string()));
    assert_eq!(held("T", "plate"), b"A");
    assert_eq!(held("T", "listing"), b"1: 1.0 0.1 1.2 = 462\n2: 1.0 1.2 0.1 = 462\nREADINGS 2\n");
}

/// Rules and parts of the drawer's bush and of the pairs, from document 01.
#[test]
fn the_drawers_books_are_document_01s() {
    let places = |name: &str| -> Vec<(u8, Vec<grammar::Symbol>)> {
        let grammar = grammar::load(&to_bytes(&text(name)).expect(name)).expect(name);
        assert_eq!(grammar.start, 0);
        grammar.numbered().map(|(_, rule)| (rule.left, rule.places.clone())).collect()
    };
    let (mark, kind) = (grammar::Symbol::Terminal(b'A'), grammar::Symbol::Nonterminal);
    assert_eq!(places("pairs"), [(0, vec![kind(0); 2]), (0, vec![mark])]);
    let trunk = [&[mark][..], &[kind(1); 7]].concat();
    assert_eq!(places("bush"), [(0, trunk), (1, vec![kind(2); 8]), (2, vec![kind(3); 8]), (3, vec![])]);
}

/// The figures of the sample with ranges are any two digits, and nothing else.
#[test]
fn bores_are_two_digits() {
    let grammar = grammar::load(&to_bytes(&text("bores")).expect("a text")).expect("a book");
    let ranges = grammar.numbered().flat_map(|(_, rule)| &rule.places);
    assert_eq!(ranges.filter(|place| **place == grammar::Symbol::Range(b'0', b'9')).count(), 2);
    let readings = |plate: &str| listed(&grammar, plate.as_bytes()).0.len();
    for figures in 0..100 {
        let plate = format!("V{figures:02}");
        assert_eq!(readings(&plate), if figures == 16 { 2 } else { 1 }, "{plate}");
    }
    assert_eq!(["V0", "V0/", "V:0", "V000", "W06", "VV0"].map(readings), [0; 6]);
}

/// The service block has a plate of no marks: every part covers nothing, and all readings are the same build.
#[test]
fn the_service_block_has_no_marks() {
    assert_eq!(held("service", "plate"), b"");
    let grammar = grammar::load(&to_bytes(&text("service")).expect("a text")).expect("a book");
    let (list, _) = listed(&grammar, b"");
    assert!(list.iter().all(|row| row.chunks(2).all(|part| part[0] == 0) && trees::same_build(row, &list[0])));
    assert_eq!(listed(&grammar, b"\n").0.len(), 0);
}

/// The seal code of request U9: no reading before 1998, then the one seal, then the other.
#[test]
fn the_seal_code_goes_by_the_year() {
    let book = to_bytes(&text("seal")).expect("a text");
    assert_eq!(book, b"\x10\x00\x21\x00\x64\x00\xCE\x07\xD7\x07\x40A\x21\x00\xC8\x00\xD8\x07\xFF\xFF\x40A\x50");
    let read = |year: u16| listed(&grammar::load(&book).expect("a book").in_year(year), &held("seal", "plate")).0;
    assert_eq!([0, 1997].map(read), [const { Vec::<Vec<u16>>::new() }; 2]);
    assert_eq!([1998, 2007].map(read), [vec![vec![1, 0]], vec![vec![1, 0]]]);
    assert_eq!([2008, 65_535].map(read), [vec![vec![1, 1]], vec![vec![1, 1]]]);
}

/// Every file of the folder belongs to a sample that is tested here.
#[test]
fn no_sample_is_left_out() {
    let mut found: Vec<String> = std::fs::read_dir(folder())
        .expect("the folder is there")
        .map(|entry| entry.expect("an entry").file_name().into_string().expect("UTF-8"))
        .collect();
    let files = |&(name, year, ..): &(&str, Option<u16>, usize, usize)| {
        ["txt".to_string(), "plate".to_string(), kind(year)].map(|kind| format!("{name}.{kind}"))
    };
    let mut due: Vec<String> = LISTINGS.iter().flat_map(files).collect();
    due.extend(IN_WORDS.iter().map(|name| format!("{name}.words")));
    found.sort();
    due.sort();
    due.dedup();
    assert_eq!(found, due);
}
