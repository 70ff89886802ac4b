//! Single calls on the reader under test, each with rubbish in what is lent.

use outside_tests::books::{Draft, Rng, Sym};
use outside_tests::compare::{rubbish, Lent};
use outside_tests::lister::walk::Given;
use outside_tests::reader::{Answer, FlatGrammar, Reader, CELLS, FLAT, HAND, INPUT, OUTPUT};
use outside_tests::reader_under_test;

/// What lent numbers hold before a call: no result here is one of these.
const FOUND: u16 = 0xABCD;
const FOUND_AT: usize = 0xABCD_ABCD;
const FOUND_TENTHS: i32 = -0x0BCD_ABCD;

/// No text is longer: 11 bytes for each node and 4 for each mark.
pub const LONGEST: usize = 5888;

/// The year of a call that names none: any, for books that hold in all years.
pub const YEAR: u16 = 2008;

/// Book T of document 01, in full.
pub const T: [u8; 21] = [
    0x10, 0x00, 0x20, 0x00, 0xF8, 0x11, 0x30, 0x01, 0x30, 0x01, 0x20, 0x01, 0x00, 0x00, 0x20, 0x01, 0x19, 0x00, 0x40,
    0x41, 0x50,
];

/// The book of request U9 (document 02): a seal code, the mark A, from 1998 to 2007 and again from 2008 on.
pub const SEAL: [u8; 23] = [
    0x10, 0x00, 0x21, 0x00, 0x64, 0x00, 0xCE, 0x07, 0xD7, 0x07, 0x40, 0x41, 0x21, 0x00, 0xC8, 0x00, 0xD8, 0x07, 0xFF,
    0xFF, 0x40, 0x41, 0x50,
];

/// Sums in hundredths with their tenths: those of request U5 (document 02), others at and beside a half, the extremes.
pub const SUMS: [(i16, i32); 16] = [
    (4625, 462),
    (4635, 464),
    (5, 0),
    (-25, -2),
    (24, 2),
    (15, 2),
    (25, 2),
    (-5, 0),
    (-15, -2),
    (-35, -4),
    (-4, 0),
    (26, 3),
    (-26, -3),
    (4, 0),
    (i16::MIN, -3277),
    (i16::MAX, 3277),
];

/// The book of one rule, 0 -> A, of this length.
pub fn of_length(length: i16) -> Vec<u8> {
    let mut draft = Draft::new(0);
    draft.rules.push((0, length, vec![Sym::T(b'A')]));
    draft.bytes()
}

/// A book from rules like "0: 0 A": numbers are kinds, letters are marks, and no symbol means an empty rule.
pub fn book(start: u8, rules: &[&str]) -> Vec<u8> {
    let mut draft = Draft::new(start);
    for rule in rules {
        let (left, places) = rule.split_once(':').expect("a rule has a colon");
        let places: Vec<Sym> = places
            .split_whitespace()
            .map(|place| match place.parse() {
                Ok(kind) => Sym::N(kind),
                Err(_) => Sym::T(place.as_bytes()[0]),
            })
            .collect();
        draft.rule(left.trim().parse().expect("a left side"), &places);
    }
    draft.bytes()
}

/// k -> k + 1 for k of 0 to 30, 31 -> A 0, 31 -> A.
pub fn deepest() -> Vec<u8> {
    let mut rules: Vec<String> = (0..31).map(|k| format!("{k}: {}", k + 1)).collect();
    rules.extend(["31: A 0".to_string(), "31: A".to_string()]);
    let rules: Vec<&str> = rules.iter().map(String::as_str).collect();
    book(0, &rules)
}

/// The row of its only tree over n marks, by hand: covers n down to 1, each 32 deep.
pub fn deepest_row(n: u16) -> Vec<u16> {
    (1..=n)
        .rev()
        .flat_map(|cover| (0..32).flat_map(move |k| [cover, if (cover, k) == (1, 31) { 32 } else { k }]))
        .collect()
}

/// 0 -> seven of 1, 1 -> eight of 2, 2 -> eight of 3, 3 -> nothing, 4 -> 0: the tree over no marks has 512 nodes from 0
/// and 513 from 4.
pub fn blank_bush(start: u8) -> Vec<u8> {
    book(start, &["0: 1 1 1 1 1 1 1", "1: 2 2 2 2 2 2 2 2", "2: 3 3 3 3 3 3 3 3", "3:", "4: 0"])
}

/// The row of that tree from 0.
pub fn blank_bush_row() -> Vec<u16> {
    let leaves = [&[0, 2][..], &[0, 3].repeat(8)].concat();
    [&[0, 0][..], &[&[0, 1][..], &leaves.repeat(8)].concat().repeat(7)].concat()
}

/// 0 -> 1 1, 1 -> six of 2, 2 -> nothing, 2 -> nothing: no marks have exactly 4,096 derivations. With 0 -> 3,
/// 3 -> nothing, they have one more.
pub fn blank_boundary(more: bool) -> Vec<u8> {
    let rules = ["0: 1 1", "1: 2 2 2 2 2 2", "2:", "2:", "0: 3", "3:"];
    book(0, &rules[..if more { 6 } else { 4 }])
}

/// The number and offset of a book's refusal, None if it is loaded; and the row that is left.
pub fn fault(book: &[u8]) -> (Option<(u8, usize)>, FlatGrammar) {
    let (mut flat, mut offset) = ([FOUND; FLAT], FOUND_AT);
    match reader_under_test().load(book, &mut flat, &mut offset) {
        Answer::Refused(number) => (Some((number, offset)), flat),
        answer => {
            assert_eq!((answer, offset), (Answer::Yes, FOUND_AT));
            (None, flat)
        }
    }
}

pub fn loaded(book: &[u8]) -> FlatGrammar {
    let (fault, flat) = fault(book);
    assert_eq!(fault, None, "{book:02X?}");
    flat
}

/// A reading as document 01 prints it: "1.0 0.1 1.2".
pub fn row(text: &str) -> Vec<u16> {
    text.split([' ', '.']).map(|number| number.parse().expect("a number")).collect()
}

/// Opens and takes the input; returns whether it is complete at the end.
pub fn complete(flat: &FlatGrammar, input: &[u8]) -> bool {
    complete_in(flat, input, YEAR)
}

/// The same in a year.
pub fn complete_in(flat: &FlatGrammar, input: &[u8], year: u16) -> bool {
    let (reader, mut chart, mut hand) = (reader_under_test(), rubbish(&mut Rng::new(1), CELLS), [FOUND; HAND]);
    let mut answer = reader.open(flat, year, &mut hand, chart.part_mut());
    for mark in input {
        answer = reader.take(flat, &mut hand, *mark, chart.part_mut());
    }
    let mut due: Vec<u16> = input.iter().map(|mark| u16::from(*mark)).collect();
    due.resize(INPUT, 0);
    due.extend([input.len() as u16, year]);
    due.resize(HAND, 0);
    assert_eq!(hand[..], due[..]);
    assert!(matches!(answer, Answer::Yes | Answer::No));
    answer == Answer::Yes
}

pub fn check(flat: &FlatGrammar, input: &[u8], offered: &[u16]) -> Answer {
    check_in(flat, input, YEAR, offered)
}

pub fn check_in(flat: &FlatGrammar, input: &[u8], year: u16, offered: &[u16]) -> Answer {
    reader_under_test().check(flat, input, year, offered, rubbish(&mut Rng::new(2), CELLS).part_mut())
}

/// The length of a row, or its refusal's number.
pub fn length(flat: &FlatGrammar, input: &[u8], offered: &[u16]) -> Result<i32, u8> {
    length_in(flat, input, YEAR, offered)
}

/// The same in a year.
pub fn length_in(flat: &FlatGrammar, input: &[u8], year: u16, offered: &[u16]) -> Result<i32, u8> {
    let (mut chart, mut tenths) = (rubbish(&mut Rng::new(3), CELLS), FOUND_TENTHS);
    match reader_under_test().length(flat, input, year, offered, chart.part_mut(), &mut tenths) {
        Answer::Refused(number) => {
            assert_eq!(tenths, FOUND_TENTHS);
            Err(number)
        }
        answer => {
            assert_eq!(answer, Answer::Yes);
            Ok(tenths)
        }
    }
}

/// The text of a row, or its refusal's number, with a buffer of this length. Only the front of the buffer is written, and with a
/// refusal nothing; the chart is filled, except with 8, 9 and 10.
pub fn words_in(flat: &FlatGrammar, input: &[u8], year: u16, offered: &[u16], length: usize) -> Result<String, u8> {
    let (mut chart, mut bytes, mut rng) = (rubbish(&mut Rng::new(11), CELLS), FOUND_AT, Rng::new(12));
    let mut buffer = Lent::filled(length, || rng.draw() as u8);
    let mut due = buffer.clone();
    let answer = reader_under_test().words(flat, input, year, offered, chart.part_mut(), buffer.part_mut(), &mut bytes);
    let text = match answer {
        Answer::Refused(number) => {
            assert_eq!(bytes, FOUND_AT);
            Err(number)
        }
        answer => {
            assert_eq!(answer, Answer::Bytes(bytes));
            due.part_mut()[..bytes].copy_from_slice(&buffer.part()[..bytes]);
            Ok(String::from_utf8(buffer.part()[..bytes].to_vec()).expect("ASCII"))
        }
    };
    assert!(buffer == due, "the buffer is not as found after the text");
    let (mut filled, found) = (rubbish(&mut Rng::new(11), CELLS), rubbish(&mut Rng::new(11), CELLS));
    match text {
        Err(8..=10) => assert!(chart == found, "the chart is not as found"),
        _ => {
            reader_under_test().check(flat, input, year, offered, filled.part_mut());
            assert!(chart == filled, "the chart is not filled");
        }
    }
    text
}

/// The text of a row in a buffer that is long enough for any.
pub fn words(flat: &FlatGrammar, input: &[u8], offered: &[u16]) -> Result<String, u8> {
    words_in(flat, input, YEAR, offered, LONGEST)
}

/// The offset and the bytes of a rule's name in a book, without its filling; none for the empty part, which leaves both numbers as
/// found.
pub fn name(book: &[u8], rule: usize) -> Option<(usize, &[u8])> {
    let (mut at, mut length) = (FOUND_AT, FOUND_AT);
    match reader_under_test().name(book, rule, &mut at, &mut length) {
        Answer::No => {
            assert_eq!((at, length), (FOUND_AT, FOUND_AT));
            None
        }
        answer => {
            assert_eq!(answer, Answer::Yes);
            assert_ne!(length, 0);
            Some((at, &book[at..at + length]))
        }
    }
}

pub fn same_build(flat: &FlatGrammar, input: &[u8], one: &[u16], other: &[u16]) -> Answer {
    reader_under_test().same_build(flat, input, YEAR, one, other, rubbish(&mut Rng::new(4), CELLS).part_mut())
}

/// The first reading, "no reading", or a refusal. The rest of the output must be left as found; without a reading,
/// all of it and the number of nodes.
pub fn first(flat: &FlatGrammar, input: &[u8]) -> Given {
    first_in(flat, input, YEAR)
}

/// The same in a year.
pub fn first_in(flat: &FlatGrammar, input: &[u8], year: u16) -> Given {
    let (mut chart, mut nodes, mut rng) = (rubbish(&mut Rng::new(6), CELLS), FOUND_AT, Rng::new(7));
    let mut out = Lent::filled(OUTPUT + 3, || rng.draw() as u16);
    let mut due = out.clone();
    let given = match reader_under_test().first(flat, input, year, chart.part_mut(), out.part_mut(), &mut nodes) {
        Answer::Nodes(n) => {
            assert_eq!(nodes, n);
            due.part_mut()[..2 * n].copy_from_slice(&out.part()[..2 * n]);
            Given::Row(out.part()[..2 * n].to_vec())
        }
        answer => {
            assert_eq!(nodes, FOUND_AT);
            match answer {
                Answer::Refused(number) => Given::Refused(number),
                Answer::NoDerivation => Given::NoDerivation,
                _ => panic!("first answered {answer:?}"),
            }
        }
    };
    assert!(out == due, "the output is not as found after the reading");
    given
}

/// The next reading, "none", or a refusal; the output and the number of nodes as in `first`.
pub fn next(flat: &FlatGrammar, input: &[u8], offered: &[u16]) -> Given {
    next_in(flat, input, YEAR, offered)
}

/// The same in a year.
pub fn next_in(flat: &FlatGrammar, input: &[u8], year: u16, offered: &[u16]) -> Given {
    let (mut chart, mut nodes, mut rng) = (rubbish(&mut Rng::new(8), CELLS), FOUND_AT, Rng::new(9));
    let mut out = Lent::filled(OUTPUT + 3, || rng.draw() as u16);
    let mut due = out.clone();
    let given = match reader_under_test().next(flat, input, year, offered, chart.part_mut(), out.part_mut(), &mut nodes)
    {
        Answer::Nodes(n) => {
            assert_eq!(nodes, n);
            due.part_mut()[..2 * n].copy_from_slice(&out.part()[..2 * n]);
            Given::Row(out.part()[..2 * n].to_vec())
        }
        answer => {
            assert_eq!(nodes, FOUND_AT);
            match answer {
                Answer::Refused(number) => Given::Refused(number),
                Answer::NoneLeft => Given::NoneLeft,
                _ => panic!("next answered {answer:?}"),
            }
        }
    };
    assert!(out == due, "the output is not as found after the reading");
    given
}

/// The count, "more", or a refusal. Without a count the number must be left as found.
pub fn count(flat: &FlatGrammar, input: &[u8]) -> Given {
    count_in(flat, input, YEAR)
}

/// The same in a year.
pub fn count_in(flat: &FlatGrammar, input: &[u8], year: u16) -> Given {
    let (mut chart, mut number) = (rubbish(&mut Rng::new(10), CELLS), FOUND_AT);
    match reader_under_test().count(flat, input, year, chart.part_mut(), &mut number) {
        Answer::Count(n) => {
            assert_eq!(number, n);
            Given::Count(n)
        }
        answer => {
            assert_eq!(number, FOUND_AT);
            match answer {
                Answer::Refused(number) => Given::Refused(number),
                Answer::More => Given::More,
                _ => panic!("count answered {answer:?}"),
            }
        }
    }
}
