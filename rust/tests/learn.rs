//! Learning a rule with a recognizer: what it leaves, what it refuses, and where.
mod books;

use books::{MIXED, NAMED, PAIRS, T, YEAR};
use filbozseg::*;

/// What the cells of a chart hold before a call, and how many there are after the used ones.
const FOUND: u32 = 7;
const PAST: usize = 3;

/// 0 -> 0 S, 1.5 mm, named SPRING.
const SPRING: &[u8] = b"\x20\x00\x96\x00\x30\x00\x40S\x60SPRING  ";

/// The book with these bytes before its end.
fn joined(book: &[u8], rule: &[u8]) -> Vec<u8> {
    [&book[..book.len() - 1], rule, b"\x50"].concat()
}

/// Opens in a year and takes the input: the recognizer, the chart, and whether the input is complete.
fn taken(grammar: &Grammar, year: u16, input: &[u8]) -> (Recognizer, Vec<u32>, bool) {
    let mut chart = vec![FOUND; CELLS + PAST];
    let (mut recognizer, complete) = open(grammar, year, &mut chart);
    let mut complete = complete.unwrap();
    for &byte in input {
        complete = recognizer.take(grammar, byte, &mut chart).unwrap();
    }
    (recognizer, chart, complete)
}

/// The number and the offset of the refusal of these bytes, which leave grammar, recognizer and chart as found.
fn refused(grammar: &Grammar, found: &Recognizer, bytes: &[u8], cells: usize) -> Option<(u8, usize)> {
    let (mut longer, mut recognizer, mut chart) = (grammar.clone(), *found, vec![FOUND; cells]);
    let fault = recognizer.learn(&mut longer, bytes, &mut chart).err()?;
    assert!(longer == *grammar && fault.grammar == *grammar && recognizer == *found, "{bytes:02x?}");
    assert!(chart.iter().all(|&cell| cell == FOUND), "{bytes:02x?}");
    Some((fault.refusal.number(), fault.offset))
}

#[test]
fn a_rule_is_learnt_as_if_the_book_had_it() {
    let rules: [&[u8]; 4] =
        [SPRING, b"\x20\x01\x00\x00", b"\x21\x00\xff\xff\xd8\x07\xd8\x07\x41AC", b"\x20\x02\x00\x00\x40A\x30\x01"];
    for book in [T, PAIRS, MIXED, NAMED] {
        for rule in rules {
            let due = load(&joined(book, rule)).unwrap();
            for input in [&b""[..], b"A", b"AS", b"ACBABCAS", &[b'A'; 64]] {
                let mut grammar = load(book).unwrap();
                let (mut recognizer, mut chart, _) = taken(&grammar, YEAR, input);
                recognizer.set_point(&grammar, 6, &chart).unwrap();
                chart[..CELLS].fill(0xdead);
                let before = recognizer;
                let (_, filled, complete) = taken(&due, YEAR, input);
                assert_eq!(recognizer.learn(&mut grammar, rule, &mut chart), Ok(complete));
                assert_eq!((grammar.row(), recognizer, &chart), (due.row(), before, &filled));
                assert_eq!(grammar.nullable_depth(), due.nullable_depth());
            }
        }
    }
}

#[test]
fn going_on_after_a_rule_is_learnt() {
    let mut grammar = load(PAIRS).unwrap();
    let (mut recognizer, mut chart, _) = taken(&grammar, YEAR, b"A");
    assert!(recognizer.set_point(&grammar, 2, &chart).unwrap());
    assert!(!recognizer.take(&grammar, b'S', &mut chart).unwrap());
    assert!(recognizer.learn(&mut grammar, SPRING, &mut chart).unwrap());
    assert_eq!(grammar.rule(2).unwrap().name().unwrap().to_string(), "SPRING");
    assert!(recognizer.take(&grammar, b'S', &mut chart).unwrap());
    assert_eq!(chart, taken(&grammar, YEAR, b"ASS").1);
    assert!(recognizer.return_to(&grammar, 2, &mut chart).unwrap());
    assert_eq!((recognizer.bytes(), chart), (&[65][..], taken(&grammar, YEAR, b"A").1));
}

#[test]
fn clones_and_readings_keep_the_old_grammar() {
    let mut grammar = load(PAIRS).unwrap();
    let (old, (mut recognizer, mut chart, _)) = (grammar.clone(), taken(&grammar, YEAR, b"AA"));
    let readings: Vec<_> = grammar.readings(b"AAA", YEAR).map(Result::unwrap).collect();
    recognizer.learn(&mut grammar, b"\x20\x00\x00\x00\x40A", &mut chart).unwrap();
    assert_eq!((old.rules().len(), grammar.rules().len(), &old), (2, 3, &load(PAIRS).unwrap()));
    let longer: Vec<_> = grammar.readings(b"AAA", YEAR).map(Result::unwrap).collect();
    assert!(longer.len() > readings.len());
    // the old readings are those without the new rule, in the same order
    let rows = |list: &[Reading]| list.iter().map(|reading| reading.numbers().to_vec()).collect::<Vec<_>>();
    let kept: Vec<_> = rows(&longer).into_iter().filter(|row| row.chunks(2).all(|node| node[1] < 2)).collect();
    assert_eq!(kept, rows(&readings));
}

#[test]
fn a_rule_of_another_year_changes_nothing_now() {
    let mut grammar = load(PAIRS).unwrap();
    let (mut recognizer, mut chart, complete) = taken(&grammar, 2007, b"AS");
    let before = chart.clone();
    let rule = b"\x21\x00\x00\x00\xd8\x07\xff\xff\x30\x00\x40S"; // 0 -> 0 S from 2008 on
    assert_eq!(recognizer.learn(&mut grammar, rule, &mut chart), Ok(complete));
    assert_eq!((chart, recognizer.year(), grammar.rules().len()), (before, 2007, 3));
    assert_eq!((taken(&grammar, 2007, b"AS").2, taken(&grammar, 2008, b"AS").2), (false, true));
}

#[test]
fn refusals_have_their_offsets() {
    let (grammar, (recognizer, _, _)) = (load(NAMED).unwrap(), taken(&load(NAMED).unwrap(), YEAR, b"A"));
    let cases: [(&[u8], u8, usize); 22] = [
        (b"", 20, 0),
        (b"\x10\x00", 20, 0),
        (b"\x30\x00", 20, 0),
        (b"\x50", 20, 0),
        (b"\x60SPRING  ", 20, 0),
        (b"\x60", 20, 0),
        (b"\x99", 2, 0),
        (b"\x20\x00\x00\x00\x99", 2, 4),
        (b"\x20\x00\x00\x00\x20", 20, 4),
        (b"\x20\x00\x00\x00\x40A\x21\x00\x00\x00\x00\x00\x00\x00", 20, 6),
        (b"\x20\x00\x00\x00\x10\x00", 20, 4),
        (b"\x20\x00\x00\x00\x50", 20, 4),
        (b"\x20\x00\x00", 1, 3),
        (b"\x20\x00\x00\x00\x41A", 1, 6),
        (b"\x20\x20\x00\x00", 4, 0),
        (b"\x20\x00\x00\x00\x30\x20", 4, 4),
        (b"\x21\x00\x00\x00\x01\x00\x00\x00", 21, 0),
        (b"\x20\x00\x00\x00\x41BA", 16, 4),
        (b"\x20\x00\x00\x00\x40A\x40A\x40A\x40A\x40A\x40A\x40A\x40A\x40A", 6, 20),
        (b"\x20\x00\x00\x00\x60PORT    ", 17, 4),
        (b"\x20\x00\x00\x00\x40A\x60spring  ", 17, 6),
        (b"\x20\x00\x00\x00\x60SPRING  \x60OTHER   ", 3, 13),
    ];
    for (bytes, number, offset) in cases {
        assert_eq!(refused(&grammar, &recognizer, bytes, CELLS), Some((number, offset)), "{bytes:02x?}");
        assert_eq!(refused(&grammar, &recognizer, bytes, CELLS - 1), Some((10, 0)), "{bytes:02x?}");
        let mut row = *recognizer.row();
        row[BYTES + 2] = 3; // a point past the count
        assert_eq!(refused(&grammar, &Recognizer::from_row(&row), bytes, 0), Some((14, 0)), "{bytes:02x?}");
        let mut bad = *grammar.row();
        bad[0] = 32;
        assert_eq!(
            refused(&Grammar::from_row(&bad), &Recognizer::from_row(&row), bytes, 0),
            Some((8, 0)),
            "{bytes:02x?}"
        );
    }
}

#[test]
fn the_129th_rule_is_refused() {
    let mut grammar = load(b"\x10\x00\x50").unwrap();
    let (mut recognizer, mut chart, _) = taken(&grammar, YEAR, b"");
    let rule = |number: usize| [&b"\x20\x00\x00\x00\x60"[..], format!("{number:<8}").as_bytes()].concat();
    for number in 0..128 {
        assert_eq!(recognizer.learn(&mut grammar, &rule(number), &mut chart), Ok(true));
        assert_eq!(grammar.rules().len(), number + 1);
    }
    assert_eq!(refused(&grammar, &recognizer, &rule(128), CELLS), Some((5, 0)));
    let book: Vec<_> = [&b"\x10\x00"[..]].into_iter().map(<[u8]>::to_vec).chain((0..128).map(rule)).flatten().collect();
    assert_eq!(grammar, load(&[&book[..], b"\x50"].concat()).unwrap());
}

#[test]
fn what_is_unused_becomes_zeros() {
    let loaded = load(T).unwrap();
    let mut row = *loaded.row();
    row[2] = u16::MAX; // the depth
    row[3 + 29 + 3..3 + 29 + 19].fill(0xabcd); // the places of a rule without any
    row[3 + 3 * 29..].fill(0xabcd);
    let (mut grammar, mut hand) = (Grammar::from_row(&row), *taken(&loaded, YEAR, b"A").0.row());
    hand[1..BYTES].fill(u16::MAX);
    let (mut recognizer, mut chart) = (Recognizer::from_row(&hand), vec![FOUND; CELLS]);
    assert_eq!(recognizer.learn(&mut grammar, SPRING, &mut chart), Ok(true));
    assert_eq!(grammar, load(&joined(T, SPRING)).unwrap());
    assert_eq!(recognizer, taken(&loaded, YEAR, b"A").0);
}

#[test]
fn the_error_says_that_it_is_a_rule() {
    let mut grammar = load(T).unwrap();
    let (mut recognizer, mut chart, _) = taken(&grammar, YEAR, b"");
    let fault = recognizer.learn(&mut grammar, b"\x20\x00\x00", &mut chart).unwrap_err();
    let text = fault.to_string();
    assert!(text.starts_with("the rule is refused at offset 3: ") && text.ends_with("(refusal 1)"), "{text}");
    assert_eq!(format!("{fault:?}"), "LoadError { refusal: UnexpectedEnd, offset: 3, .. }");
    assert_eq!(Error::from(fault).refusal(), Refusal::UnexpectedEnd);
    let fault = recognizer.learn(&mut grammar, SPRING, &mut []).unwrap_err();
    assert_eq!(fault.to_string(), format!("the rule is refused at offset 0: {}", Refusal::ChartTooShort));
}
