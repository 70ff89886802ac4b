//! Request U9 of document 02, rules with their years: the cases of its table, loading, rows and hands, run on the reader
//! under test. The results are written out by hand.

#[allow(dead_code)] // not all of it is called from here
mod calls;
#[allow(dead_code)] // not all of it is called from here
mod plates;

use calls::{book, check, check_in, complete_in, count_in, fault, first_in, length_in, loaded, next_in, row, SEAL, T};
use outside_tests::books::{filled, Draft, Rng, Sym};
use outside_tests::compare::rubbish;
use outside_tests::lister::walk::Given;
use outside_tests::reader::{record, Answer, Reader, CELLS, FIRST_POINT, FLAT, HAND, INPUT, NAME, YEAR, YEARS};
use outside_tests::reader_under_test;
use plates::plate_in;

/// A book of rules like "0: 0 A", each with its first and its last year.
fn dated(start: u8, rules: &[(&str, u16, u16)]) -> Draft {
    let mut draft = Draft::new(start);
    for (number, (rule, first, last)) in rules.iter().enumerate() {
        let (left, places) = rule.split_once(':').expect("a rule has a colon");
        let place = |word: &str| word.parse().map_or_else(|_| Sym::T(word.as_bytes()[0]), Sym::N);
        draft.rule(left.parse().expect("a left side"), &places.split_whitespace().map(place).collect::<Vec<_>>());
        draft.years.insert(number, (*first, *last));
    }
    draft
}

/// A seal code that was used again: no reading before 1998, then the one rule, then the other.
#[test]
fn the_seal_code() {
    for (year, reading) in [
        (0, None),
        (1997, None),
        (1998, Some((0, 10))),
        (2007, Some((0, 10))),
        (2008, Some((1, 20))),
        (65_535, Some((1, 20))),
    ] {
        let text = reading.map(|(rule, _)| format!("1.{rule}"));
        plate_in(&SEAL, "A", year, &text.iter().map(String::as_str).collect::<Vec<_>>());
        let (flat, due) = (loaded(&SEAL), reading.map(|(rule, _)| vec![1, rule]));
        assert_eq!(first_in(&flat, b"A", year), due.clone().map_or(Given::NoDerivation, Given::Row));
        assert_eq!(count_in(&flat, b"A", year), Given::Count(due.iter().len()));
        for (rule, tenths) in [(0, 10), (1, 20)] {
            let in_force = reading == Some((rule, tenths));
            let offered = [1, rule];
            assert_eq!(check_in(&flat, b"A", year, &offered), if in_force { Answer::Yes } else { Answer::No });
            assert_eq!(length_in(&flat, b"A", year, &offered), if in_force { Ok(tenths) } else { Err(12) });
            let next = if in_force { Given::NoneLeft } else { Given::Refused(12) };
            assert_eq!(next_in(&flat, b"A", year, &offered), next);
        }
    }
}

/// Blank rules out of force build no empty tree; a start without a rule in force has no reading.
#[test]
fn blank_rules_and_a_start_out_of_force() {
    let book = dated(
        0,
        &[("0: 1 A", 0, 65_535), ("1:", 2000, 2000), ("1: B", 0, 65_535), ("1: 2", 1990, 2000), ("2:", 0, 1995)],
    );
    let book = book.bytes();
    plate_in(&book, "A", 1989, &[]);
    plate_in(&book, "A", 1990, &["1.0 0.3 0.4"]);
    plate_in(&book, "A", 1995, &["1.0 0.3 0.4"]);
    plate_in(&book, "A", 1996, &[]);
    plate_in(&book, "A", 2000, &["1.0 0.1"]);
    plate_in(&book, "A", 2001, &[]);
    plate_in(&book, "BA", 2001, &["2.0 1.2"]);
    assert_eq!(loaded(&book)[2], 1); // kinds 1 and 2 have an empty tree of one part each, in some year
    let start = dated(0, &[("0: 1", 5, 5), ("1: A", 0, 65_535)]).bytes();
    for (year, readings) in [(4, &[][..]), (5, &["1.0 1.1"]), (6, &[])] {
        plate_in(&start, "A", year, readings);
        plate_in(&start, "", year, &[]);
    }
}

/// The depth and the search for blank kinds go by the whole book, even if its blank rules are never in force together.
#[test]
fn the_depth_is_that_of_the_whole_book() {
    let chain = dated(0, &[("0: 1", 1, 1), ("1: 2", 2, 2), ("2:", 3, 3)]).bytes();
    assert_eq!(loaded(&chain)[2], 3);
    for (year, nullable) in [(0, 0), (1, 0), (2, 0), (3, 0b100), (4, 0)] {
        let (mut chart, mut hand) = (rubbish(&mut Rng::new(3), CELLS), [9; HAND]);
        assert_eq!(reader_under_test().open(&loaded(&chain), year, &mut hand, chart.part_mut()), Answer::No);
        assert_eq!(chart.part()[0], nullable, "{year}");
    }
}

/// Rules keep their numbers: with the first of three twins out of force, the others are still 1 and 2.
#[test]
fn numbers_do_not_shift() {
    let twins = dated(0, &[("0: A", 0, 9), ("0: A", 5, 20), ("0: A", 10, 65_535)]).bytes();
    for (year, due) in [
        (0, &["1.0"][..]),
        (4, &["1.0"]),
        (5, &["1.0", "1.1"]),
        (9, &["1.0", "1.1"]),
        (10, &["1.1", "1.2"]),
        (20, &["1.1", "1.2"]),
        (21, &["1.2"]),
    ] {
        plate_in(&twins, "A", year, due);
    }
}

/// Command 21 has seven operands; its checks are 2, 3, 1, 4, 21 and 5, in this order.
#[test]
fn the_faults_of_21() {
    let full: Vec<u8> = [&[0x10, 0x00][..], &[0x20, 0x00, 0, 0].repeat(128)].concat();
    let rule = |left: u8, first: u16, last: u16| {
        [&[0x21, left, 0x64, 0x00][..], &first.to_le_bytes(), &last.to_le_bytes()].concat()
    };
    let with = |book: &[u8], more: &[u8]| [book, more].concat();
    let start = &[0x10, 0x00][..];
    let mut cases: Vec<(Vec<u8>, u8, usize)> = vec![
        (rule(0, 0, 0), 3, 0),
        (rule(32, 1, 0), 3, 0),
        (with(start, &[0x22]), 2, 2),
        (with(start, &rule(32, 1, 0)), 4, 2),
        (with(start, &rule(32, 0, 1)), 4, 2),
        (with(start, &rule(31, 1, 0)), 21, 2),
        (with(start, &rule(0, 256, 255)), 21, 2),
        (with(start, &rule(0, 65_535, 65_534)), 21, 2),
        (with(start, &rule(0, 2008, 1998)), 21, 2),
        (with(start, &rule(0, 1, 1)), 1, 10),
        (with(&full, &rule(0, 0, 0)), 5, 514),
        (with(&full, &rule(0, 1, 0)), 21, 514),
        (with(&full, &rule(32, 1, 0)), 4, 514),
        (with(&full, &rule(32, 1, 0)[..7]), 1, 521),
    ];
    cases.extend((1..8).map(|cut| (with(start, &rule(32, 1, 0)[..cut]), 1, 2 + cut)));
    for (book, number, offset) in cases {
        assert_eq!(fault(&book), (Some((number, offset)), [0; FLAT]), "{book:02X?}");
    }
    // a place may follow a rule opened by 21, as one opened by 20
    let one = loaded(&[start, &rule(0, 7, 7), &[0x40, 0x41, 0x30, 0x01, 0x41, 0x30, 0x39, 0x50]].concat());
    assert_eq!(one[record(0)..record(0) + 9], [0, 100, 3, 1, 0x41, 0, 1, 2, 0x3930]);
    assert_eq!(one[record(0) + YEARS..record(0) + NAME], [7, 7]);
    let nine = [start, &rule(0, 7, 7), &[0x40, 0x41].repeat(9)].concat();
    assert_eq!(fault(&nine).0, Some((6, 26)));
}

/// Each operand of 21 is in its place; a rule of 20 holds in all years; an unused record has zeros.
#[test]
fn the_years_of_a_row() {
    let mixed = loaded(&[&SEAL[..22], &[0x20, 0x01, 0x01, 0x02, 0x50]].concat());
    let years = |rule: usize| [mixed[record(rule) + YEARS], mixed[record(rule) + YEARS + 1]];
    assert_eq!([years(0), years(1), years(2), years(3)], [[1998, 2007], [2008, 65_535], [0, 65_535], [0, 0]]);
    assert_eq!(mixed[1], 3);
    assert!(mixed[record(3)..].iter().all(|number| *number == 0));
    for (first, last) in [(0, 0), (0, 1), (255, 256), (256, 256), (0x1234, 0x5678), (65_535, 65_535)] {
        let flat = loaded(&dated(0, &[("0: A", first, last)]).bytes());
        assert_eq!(flat[record(0) + YEARS..record(0) + NAME], [first, last]);
    }
    // the row of a book of 20s
    let t = loaded(&T);
    assert!((0..3).all(|rule| t[record(rule) + YEARS..record(rule) + NAME] == [0, 65_535]));
    assert!(t[record(3)..].iter().all(|number| *number == 0));
}

/// Check 8 refuses a first year above the last in a used rule, and does not look at an unused one.
#[test]
fn years_in_a_row() {
    let flat = loaded(&book(0, &["0: A", "1: 0"]));
    let with = |rule: usize, first: u16, last: u16| {
        let mut row = flat;
        row[record(rule) + YEARS..record(rule) + NAME].copy_from_slice(&[first, last]);
        check(&row, b"A", &[1, 0])
    };
    for (first, last, due) in [
        (0, 65_535, Answer::Yes),
        (2008, 2008, Answer::Yes),
        (0, 2008, Answer::Yes),
        (2008, 65_535, Answer::Yes),
        (0, 2007, Answer::No),
        (2009, 65_535, Answer::No),
        (0, 0, Answer::No),
        (65_535, 65_535, Answer::No),
        (2009, 2008, Answer::Refused(8)),
        (2008, 2007, Answer::Refused(8)),
        (1, 0, Answer::Refused(8)),
        (256, 255, Answer::Refused(8)),
        (65_535, 0, Answer::Refused(8)),
    ] {
        assert_eq!(with(0, first, last), due, "{first} to {last}");
        let other = if due == Answer::Refused(8) { due } else { Answer::Yes };
        assert_eq!(with(1, first, last), other, "{first} to {last}, of the other rule");
        assert_eq!(with(2, first, last), Answer::Yes, "{first} to {last}, of an unused rule");
    }
}

/// A hand keeps the year that it was opened with, and taking goes by it; any year is one.
#[test]
fn hands_of_two_years() {
    let (flat, reader) = (loaded(&SEAL), reader_under_test());
    let mut hands = [1997, 1998, 2008, 0, 65_535].map(|year| (year, [9; HAND], rubbish(&mut Rng::new(21), CELLS)));
    for (year, hand, chart) in &mut hands {
        assert_eq!(reader.open(&flat, *year, hand, chart.part_mut()), Answer::No);
        let zeros = |row: &[u16]| row.iter().all(|number| *number == 0);
        assert!(zeros(&hand[..YEAR]) && hand[YEAR] == *year && zeros(&hand[FIRST_POINT..]));
    }
    for (year, hand, chart) in &mut hands {
        let due = if *year < 1998 { Answer::No } else { Answer::Yes };
        assert_eq!(reader.take(&flat, hand, b'A', chart.part_mut()), due, "{year}");
        assert_eq!((hand[0], hand[INPUT], hand[YEAR]), (0x41, 1, *year));
    }
    // refused openings leave year 0, refused takes the year as found
    let (mut bad, mut hand, mut short) = (flat, [9; HAND], [0; CELLS - 1]);
    bad[0] = 32;
    assert_eq!(reader.open(&bad, 2008, &mut hand, &mut [0; CELLS]), Answer::Refused(8));
    assert_eq!(hand, [0; HAND]);
    hand = [9; HAND];
    assert_eq!(reader.open(&flat, 2008, &mut hand, &mut short), Answer::Refused(10));
    assert_eq!(hand, [0; HAND]);
    for (count, cells, due) in [(65, CELLS, 14), (3, CELLS - 1, 10), (64, CELLS, 15)] {
        let mut hand = [9; HAND];
        (hand[INPUT], hand[YEAR]) = (count, 0xABCD);
        hand[FIRST_POINT..].fill(0);
        let found = hand;
        assert_eq!(reader.take(&flat, &mut hand, b'A', &mut vec![0; cells]), Answer::Refused(due));
        assert_eq!(hand, found);
    }
}

/// The longest book that loads: 128 times 21 with eight ranges and a name each.
#[test]
fn the_longest_book() {
    let mut draft = Draft::new(0);
    for rule in 0..128_u8 {
        draft.rules.push((rule % 32, 25, vec![Sym::R(rule, rule + 1); 8]));
        draft.years.insert(rule.into(), (u16::from(rule), 1000 + u16::from(rule)));
        draft.names.insert(rule.into(), (filled(&format!("{rule:08}")), usize::from(rule) % 9));
    }
    let book = draft.bytes();
    assert_eq!(book.len(), 5251);
    let flat = loaded(&book);
    assert_eq!((flat[1], flat[2]), (128, 0));
    // kind 0 has rules 0, 32, 64 and 96
    for (year, due) in [(31, None), (32, Some(32)), (1032, Some(32)), (1033, None)] {
        let given = first_in(&flat, &[32, 33, 32, 33, 32, 33, 32, 33], year);
        assert_eq!(given, due.map_or(Given::NoDerivation, |rule| Given::Row(vec![8, rule])), "{year}");
    }
    assert_eq!(length_in(&flat, &[96; 8], 96, &row("8.96")), Ok(2));
    assert!(complete_in(&flat, &[96; 8], 96) && !complete_in(&flat, &[96; 8], 95));
}
