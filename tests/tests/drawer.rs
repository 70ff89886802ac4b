//! The plates from the drawer (document 01) and the named cases, run on the reader under test. The results are
//! written out by hand.

#[allow(dead_code)] // not all of it is called from here
mod calls;
mod plates;

use calls::{book, check, complete, deepest, deepest_row, fault, length, loaded, of_length, row, same_build, SUMS, T};
use outside_tests::books::{Draft, Rng, Sym};
use outside_tests::compare::{compare_searches, rubbish};
use outside_tests::lister::{self, search::search, trees};
use outside_tests::reader::{record, Answer, Reader, CELLS, FLAT, HAND};
use outside_tests::reader_under_test;
use plates::{compared, listed, plate};

#[test]
fn book_t() {
    plate(&T, "A", &["1.0 0.1 1.2", "1.0 1.2 0.1"]);
    plate(&T, "AA", &["2.0 1.2 1.2"]);
    plate(&T, "AAA", &[]);
    plate(&T, "B", &[]);
    let flat = loaded(&T);
    let (one, other) = (row("1.0 0.1 1.2"), row("1.0 1.2 0.1"));
    assert_eq!(length(&flat, b"A", &one), Ok(462));
    assert_eq!(length(&flat, b"A", &other), Ok(462));
    assert_eq!(length(&flat, b"AA", &row("2.0 1.2 1.2")), Ok(465));
    assert_eq!(length(&flat, b"AA", &one), Err(12));
    assert_eq!(length(&flat, b"AAA", &row("3.0 1.2 2.0")), Err(12));
    assert_eq!(same_build(&flat, b"A", &one, &other), Answer::Yes);
    assert_eq!(same_build(&flat, b"A", &one, &row("2.0 1.2 1.2")), Answer::Refused(12));
    assert_eq!(check(&flat, b"B", &one), Answer::No);
    assert!(complete(&flat, b""), "0 -> 1 1 with 1 blank derives the empty row");
    assert_eq!(flat[..3], [0, 3, 2]);
    assert_eq!(flat[record(0)..record(0) + 7], [0, 4600, 2, 0, 1, 0, 1]);
    assert_eq!(flat[record(2)..record(2) + 5], [1, 25, 1, 1, 0x41]);
}

#[test]
fn small_plates() {
    plate(&book(0, &["0: 0", "0: A"]), "A", &["1.1"]);
    plate(&book(0, &["0: 0 A", "0: A"]), "AAA", &["3.0 2.0 1.1"]);
    plate(&book(0, &["0: 0 0", "0: A"]), "AAA", &["3.0 1.1 2.0 1.1 1.1", "3.0 2.0 1.1 1.1 1.1"]);
    plate(&book(0, &["0: 0 0", "0: A", "0:"]), "A", &["1.1"]);
    plate(&book(1, &["1: 0 A", "0: 0", "0:"]), "A", &["1.0 0.2"]);
    plate(&[0x10, 0x00, 0x50], "A", &[]);
}

/// The table of request U7 (document 02).
#[test]
fn builds() {
    let two_ways = book(0, &["0: 1 1", "1: A", "1: 2", "2: A"]);
    let texts = ["2.0 1.1 1.1", "2.0 1.1 1.2 1.3", "2.0 1.2 1.3 1.1", "2.0 1.2 1.3 1.2 1.3"];
    plate(&two_ways, "AA", &texts);
    let readings = texts.map(row);
    for (one, other) in readings.iter().flat_map(|one| readings.iter().map(move |other| (one, other))) {
        let due = if one == other { Answer::Yes } else { Answer::No };
        assert_eq!(same_build(&loaded(&two_ways), b"AA", one, other), due, "{one:?} and {other:?}");
    }
    // The same rules in the same order; the node of B is beside that of A, or inside it.
    let moved = book(0, &["0: 1 2", "1: A 2", "2: B", "2:"]);
    let texts = ["2.0 1.1 0.3 1.2", "2.0 2.1 1.2 0.3"];
    plate(&moved, "AB", &texts);
    let [beside, inside] = texts.map(row);
    assert_eq!(same_build(&loaded(&moved), b"AB", &beside, &inside), Answer::Yes);
}

/// The Catalan numbers by their own recurrence: binary trees with n leaves, not listed.
fn binary_trees(n: usize) -> usize {
    match n {
        1 => 1,
        _ => (1..n).map(|left| binary_trees(left) * binary_trees(n - left)).sum(),
    }
}

#[test]
fn nine_marks_and_ten() {
    let binary = book(0, &["0: 0 0", "0: A"]);
    assert_eq!(listed(&binary, &[b'A'; 9]).len(), 1430);
    assert_eq!(binary_trees(9), 1430);
    let ten = listed(&binary, &[b'A'; 10]).len();
    assert!(ten > 4096 && ten == binary_trees(10));
    assert!(complete(&loaded(&binary), &[b'A'; 64]));
}

#[test]
fn the_limit_of_512() {
    let rules = ["0: A 1 1 1 1 1 1 1", "1: 2 2 2 2 2 2 2 2", "2: 3 3 3 3 3 3 3 3", "3:"];
    let fits = book(0, &rules);
    let readings = listed(&fits, b"A");
    assert_eq!((readings.len(), readings[0].len()), (1, 1024));
    compared(&fits, b"A");
    let over = book(4, &[&rules[..], &["4: 0"]].concat());
    assert!(listed(&over, b"A").is_empty());
    assert!(complete(&loaded(&over), b"A"));
    let row513 = [&[1, 4], &readings[0][..]].concat();
    assert_eq!(check(&loaded(&over), b"A", &row513), Answer::No);
    assert_eq!(length(&loaded(&over), b"A", &row513), Err(12));
    compared(&over, b"A");
}

#[test]
fn the_deepest_reading() {
    let deep = deepest();
    let readings = listed(&deep, &[b'A'; 16]);
    assert_eq!((readings.len(), readings[0].len()), (1, 1024));
    assert_eq!(readings[0], deepest_row(16));
    compared(&deep, &[b'A'; 16]);
    assert!(listed(&deep, &[b'A'; 17]).is_empty());
    assert!(complete(&loaded(&deep), &[b'A'; 17]));
    assert_eq!(check(&loaded(&deep), &[b'A'; 17], &deepest_row(17)), Answer::No);
    assert_eq!(check(&loaded(&deep), &[b'A'; 16], &deepest_row(16)), Answer::Yes);
}

/// The deepest reading, 512 parts nested 512 deep, checked and measured by the
/// proved library on a stack of 256 KiB: a quarter of what is asked for.
#[cfg(feature = "library")]
#[test]
fn the_deepest_reading_on_a_small_stack() {
    let call = || {
        let (flat, input, offered) = (loaded(&deepest()), [b'A'; 16], deepest_row(16));
        assert_eq!(check(&flat, &input, &offered), Answer::Yes);
        assert_eq!(length(&flat, &input, &offered), Ok(0));
        assert_eq!(same_build(&flat, &input, &offered, &offered), Answer::Yes);
    };
    std::thread::Builder::new().stack_size(256 * 1024).spawn(call).unwrap().join().unwrap();
}

#[test]
fn the_boundary_of_count() {
    let rules = ["0: 1 1", "1: 2 2 2 2 2 2", "2: A", "2: A"];
    assert_eq!(listed(&book(0, &rules), &[b'A'; 12]).len(), 4096);
    let more = book(0, &[&rules[..], &["0: 3 3", "3: A A A A A A"]].concat());
    assert_eq!(listed(&more, &[b'A'; 12]).len(), 4097);
}

#[test]
fn the_complete_unit_graph() {
    let mut rules: Vec<String> = (1..=10).map(|j| format!("0: {j}")).collect();
    for i in 1..=10 {
        rules.extend((0..=10).filter(|j| *j != i).map(|j| format!("{i}: {j}")));
    }
    rules.push("0: A".to_string());
    assert_eq!(rules.len(), 111);
    let rules: Vec<&str> = rules.iter().map(String::as_str).collect();
    let graph = book(0, &rules);
    plate(&graph, "A", &["1.110"]);
    // 0 over 1 over 0: superfluous.
    assert_eq!(check(&loaded(&graph), b"A", &row("1.0 1.10 1.110")), Answer::No);
}

#[test]
fn sums_are_rounded() {
    for (sum, tenths) in SUMS {
        assert_eq!(length(&loaded(&of_length(sum)), b"A", &[1, 0]), Ok(tenths), "{sum}");
        assert_eq!(trees::round(i32::from(sum)), tenths);
    }
    // 512 parts at the extremes: 1 + 7 x (1 + 8 x 9) nodes.
    for (each, tenths) in [(i16::MIN, -1_677_722), (i16::MAX, 1_677_670)] {
        let mut draft = Draft::new(0);
        draft.rules.push((0, each, [&[Sym::T(b'A')][..], &[Sym::N(1); 7]].concat()));
        draft.rules.push((1, each, vec![Sym::N(2); 8]));
        draft.rules.push((2, each, vec![Sym::N(3); 8]));
        draft.rules.push((3, each, vec![]));
        let readings = listed(&draft.bytes(), b"A");
        assert_eq!(length(&loaded(&draft.bytes()), b"A", &readings[0]), Ok(tenths));
    }
}

#[test]
fn faulty_books() {
    let full: Vec<u8> = [&[0x10, 0x00][..], &[0x20, 0x00, 0, 0].repeat(128)].concat();
    let rule = &[0x10, 0x00, 0x20, 0x00, 0, 0][..];
    let nine = [rule, &[0x40, 0x41].repeat(8)].concat();
    let with = |book: &[u8], more: &[u8]| [book, more].concat();
    let cases: Vec<(Vec<u8>, u8, usize)> = vec![
        (vec![], 1, 0),
        (vec![0x10], 1, 1),
        (vec![0x50], 3, 0),
        (vec![0x20, 0x00, 0, 0, 0x50], 3, 0),
        (vec![0x30], 3, 0),
        (vec![0x00], 2, 0),
        (vec![0x10, 0x20], 4, 0),
        (vec![0x10, 0x00], 1, 2),
        (vec![0x10, 0x00, 0x10], 3, 2),
        (vec![0x10, 0x00, 0x30], 3, 2),
        (vec![0x10, 0x00, 0x40, 0x41], 3, 2),
        (vec![0x10, 0x00, 0x30, 0xFF], 3, 2),
        (vec![0x10, 0x00, 0x42], 2, 2),
        (vec![0x10, 0x00, 0x20, 0xFF], 1, 4),
        (vec![0x10, 0x00, 0x20, 0xFF, 0], 1, 5),
        (vec![0x10, 0x00, 0x20, 0xFF, 0, 0], 4, 2),
        (vec![0x10, 0x00, 0x20, 0x00, 0, 0, 0x30, 0x20], 4, 6),
        (vec![0x10, 0x00, 0x20, 0x00, 0, 0], 1, 6),
        (vec![0x10, 0x00, 0x50, 0x00], 7, 3),
        (vec![0x10, 0x00, 0x50, 0x50], 7, 3),
        (with(&full, &[0x20, 0x00, 0, 0]), 5, 514),
        (with(&full, &[0x20, 0x20, 0, 0]), 4, 514),
        (with(&full, &[0x20, 0x20, 0]), 1, 517),
        (with(&nine, &[0x40, 0x41]), 6, 22),
        (with(&nine, &[0x30, 0x20]), 4, 22),
        (with(&nine, &[0x40]), 1, 23),
        // ranges, request U1 of document 02
        (vec![0x41], 3, 0),
        (vec![0x41, 0x30, 0x39], 3, 0),
        (vec![0x10, 0x00, 0x41], 3, 2),
        (vec![0x10, 0x00, 0x41, 0x30, 0x39], 3, 2),
        (vec![0x10, 0x00, 0x41, 0x39, 0x30], 3, 2),
        (with(rule, &[0x41]), 1, 7),
        (with(rule, &[0x41, 0xFF]), 1, 8),
        (with(rule, &[0x41, 0x39, 0x30]), 16, 6),
        (with(rule, &[0x41, 0x01, 0x00, 0x70]), 16, 6),
        (with(rule, &[0x41, 0xFF, 0xFE]), 16, 6),
        (with(&nine, &[0x41, 0x30, 0x39]), 6, 22),
        (with(&nine, &[0x41, 0x39, 0x30]), 16, 22),
        (with(&nine, &[0x41, 0x39]), 1, 24),
    ];
    for (book, number, offset) in cases {
        assert_eq!(fault(&book), (Some((number, offset)), [0; FLAT]), "{book:02X?}");
    }
    assert_eq!(loaded(&with(&full, &[0x50]))[1], 128);
    assert_eq!(loaded(&with(&nine, &[0x50]))[record(0) + 2], 8);
    let ranges = loaded(&with(rule, &[0x41, 0x00, 0xFF, 0x41, 0x41, 0x41, 0x41, 0x30, 0x39, 0x50]));
    assert_eq!(ranges[record(0)..record(0) + 11], [0, 0, 3, 2, 0xFF00, 2, 0x4141, 2, 0x3930, 0, 0]);
}

/// The books of request U3 (document 02): what the lister's search finds and in how many passes. What it finds is the word
/// (0, 0) of the opening.
#[test]
fn the_books_of_the_search() {
    let searched = |book: &[u8]| {
        let (flat, mut chart) = (loaded(book), rubbish(&mut Rng::new(3), CELLS));
        reader_under_test().open(&flat, 2000, &mut [0; HAND], chart.part_mut()); // all rules are in force
        let sought = search(&lister::grammar::from_flat(&flat).expect("loaded"));
        assert_eq!(chart.part()[0], sought.set);
        (sought.set, sought.passes)
    };
    compare_searches(searched).expect("no difference");
}

/// The books of request U13 (document 02): the greatest, over the blank kinds, of the height of the lowest empty tree.
#[test]
fn the_nullable_depth() {
    let depth = |rules: &[&str]| loaded(&book(0, rules))[2];
    assert_eq!(depth(&[]), 0);
    assert_eq!(depth(&["0: A"]), 0);
    assert_eq!(depth(&["0: 0"]), 0);
    assert_eq!(loaded(&T)[2], 2);
    // three blank kinds, each of height 1
    assert_eq!(depth(&["0:", "1:", "2:"]), 1);
    // 32 kinds of heights 1 to 32, with the rules in both orders
    let chain: Vec<String> = (1..32).map(|k| format!("{k}: {}", k - 1)).collect();
    let mut chain: Vec<&str> = std::iter::once("0:").chain(chain.iter().map(String::as_str)).collect();
    assert_eq!(depth(&chain), 32);
    chain.reverse();
    assert_eq!(depth(&chain), 32);
    // kind 1 has height 1, kind 0 height 2, kind 2 height 3
    assert_eq!(depth(&["0: 1 1", "1: 2", "1:", "2: 0"]), 3);
    // kinds 5 and 6 are not reached from 0
    assert_eq!(depth(&["0: A", "5: 6 6", "6:"]), 2);
    // a kind's lowest tree counts, not its first rule's
    assert_eq!(depth(&["0: 1", "0:", "1: 2", "2:"]), 2);
    // a refused book has none, though its first rule is blank
    assert_eq!(fault(&[0x10, 0x00, 0x20, 0x00, 0, 0, 0x70]), (Some((2, 6)), [0; FLAT]));
}

/// Which marks complete a book with one rule and this place.
fn fitting(place: Sym) -> Vec<u8> {
    let mut draft = Draft::new(0);
    draft.rule(0, &[place]);
    let flat = loaded(&draft.bytes());
    (0..=255).filter(|mark| complete(&flat, &[*mark])).collect()
}

/// A place of a range fits the marks from low to high, both included, and no other.
#[test]
fn a_range_fits_its_bytes_and_no_other() {
    for (low, high) in [(0, 255), (0x30, 0x39), (0x41, 0x41), (0, 0), (255, 255), (0, 1), (254, 255), (0x7F, 0x80)] {
        assert_eq!(fitting(Sym::R(low, high)), (low..=high).collect::<Vec<u8>>());
        assert_eq!(fitting(Sym::T(low)), [low]);
    }
    // a bore of two digits
    let mut bore = Draft::new(0);
    bore.rules.push((0, 25, vec![Sym::T(b'V'), Sym::R(b'0', b'9'), Sym::R(b'0', b'9')]));
    for plate in ["V00", "V06", "V90", "V99"] {
        self::plate(&bore.bytes(), plate, &["3.0"]);
        assert_eq!(length(&loaded(&bore.bytes()), plate.as_bytes(), &row("3.0")), Ok(2));
    }
    for other in ["V0/", "V:0", "V0", "V000", "W00", "VV0"] {
        plate(&bore.bytes(), other, &[]);
        assert_eq!(length(&loaded(&bore.bytes()), other.as_bytes(), &row("3.0")), Err(12));
    }
}

/// 40 A and 41 A A are two symbols: as twins, their rules count as two.
#[test]
fn a_range_of_one_byte_is_no_mark() {
    let mut twins = Draft::new(0);
    twins.rule(0, &[Sym::T(b'A')]);
    twins.rule(0, &[Sym::R(b'A', b'A')]);
    plate(&twins.bytes(), "A", &["1.0", "1.1"]);
    assert_eq!(same_build(&loaded(&twins.bytes()), b"A", &row("1.0"), &row("1.1")), Answer::No);
    let flat = loaded(&twins.bytes());
    assert_eq!(flat[record(0) + 3..record(0) + 5], [1, 0x41]);
    assert_eq!(flat[record(1) + 3..record(1) + 5], [2, 0x4141]);
}

/// Check 8 refuses a reversed range in a used place, and does not look at an unused one. Tags from 3 on hold no symbol.
#[test]
fn ranges_in_a_row() {
    let mut draft = Draft::new(0);
    draft.rule(0, &[Sym::R(b'0', b'9')]);
    let flat = loaded(&draft.bytes());
    let checked = |at: usize, number: u16| {
        let mut row = flat;
        row[record(0) + at] = number;
        check(&row, b"5", &[1, 0])
    };
    let (tag, value) = (3, 4);
    for good in [0x3930, 0x3530, 0x3935, 0x3535, 0xFF00, 0xFF35, 0x3500] {
        assert_eq!(checked(value, good), Answer::Yes, "{good:04X}");
    }
    for other in [0x3430, 0x3936, 0x0000, 0xFFFF, 0x3636, 0x3400] {
        assert_eq!(checked(value, other), Answer::No, "{other:04X}");
    }
    for reversed in [0x3039, 0x3435, 0x0001, 0x00FF, 0xFEFF, 0x3536] {
        assert_eq!(checked(value, reversed), Answer::Refused(8), "{reversed:04X}");
    }
    for no_symbol in [3, 4, 255, 256, 257, 258, 0xFFFF] {
        assert_eq!(checked(tag, no_symbol), Answer::Refused(8), "{no_symbol}");
    }
    // an unused place of the rule, and a place of an unused rule
    for unused in [record(0) + 5, record(1) + 3] {
        let mut row = flat;
        (row[unused], row[unused + 1]) = (2, 0x3039);
        assert_eq!(check(&row, b"5", &[1, 0]), Answer::Yes);
    }
}
