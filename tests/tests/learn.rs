//! Request U8 of document 02, a rule learnt at the vice: cases written out by hand, whole and faulty rules against loading the joined
//! bytes, and random lists of operations, run on the reader under test. FILBOZSEG_SEED=N runs other lists.

#[allow(dead_code)] // not all of it is called from here
mod calls;

use calls::{book, check, fault, first, loaded, name, next, T, YEAR};
use outside_tests::books::{self, filled, first_seed, Rng, SEED};
use outside_tests::compare::{rubbish, run_learning, Counts, Lent};
use outside_tests::lister::walk::Given;
use outside_tests::reader::{
    self, record, Answer, FlatGrammar, Hand, Reader, CELLS, FIRST_POINT, FLAT, HAND, INPUT, NAME, NAME_WIDTH, POINTS,
    RULES, RULE_WIDTH,
};
use outside_tests::reader_under_test;

/// What the offset holds before a call.
const FOUND_AT: usize = 0xABCD_ABCD;

/// What learning leaves.
#[derive(Clone, PartialEq)]
struct Left {
    flat: FlatGrammar,
    hand: Hand,
    chart: Lent<u32>,
}

/// Learns with a chart of rubbish of so many cells: the answer, the offset, and what is left. Refused, all is left as found.
fn learn(flat: &FlatGrammar, hand: &Hand, bytes: &[u8], cells: usize) -> (Answer, usize, Left) {
    let found = Left { flat: *flat, hand: *hand, chart: rubbish(&mut Rng::new(81), cells) };
    let (mut left, mut offset) = (found.clone(), FOUND_AT);
    let Left { flat, hand, chart } = &mut left;
    let answer = reader_under_test().learn(flat, hand, bytes, chart.part_mut(), &mut offset);
    match answer {
        Answer::Refused(_) => assert!(left == found, "{bytes:02X?}: not as found"),
        answer => assert_eq!((matches!(answer, Answer::Yes | Answer::No), offset), (true, FOUND_AT), "{bytes:02X?}"),
    }
    (answer, offset, left)
}

/// The number and the offset of a refused rule, with this grammar and a hand of two marks.
fn refused(flat: &FlatGrammar, bytes: &[u8]) -> Option<(u8, usize)> {
    match learn(flat, &held(b"AB"), bytes, CELLS + 3) {
        (Answer::Refused(number), offset, _) => Some((number, offset)),
        _ => None,
    }
}

/// A hand of these marks, opened in the usual year, with points 1 and 6 at its count and point 3 at none, and rubbish behind its marks.
fn held(marks: &[u8]) -> Hand {
    let mut hand = [0xF0F0; HAND];
    hand.iter_mut().zip(marks).for_each(|(number, mark)| *number = u16::from(*mark));
    let one = marks.len() as u16 + 1;
    (hand[INPUT], hand[reader::YEAR]) = (marks.len() as u16, YEAR);
    hand[FIRST_POINT..].copy_from_slice(&[0, one, 0, 1, 0, 0, one, 0]);
    hand
}

/// The hand that is handed back: zeros behind its marks.
fn handed_back(hand: &Hand) -> Hand {
    let mut hand = *hand;
    let used = usize::from(hand[INPUT]);
    hand[used..INPUT].fill(0);
    hand
}

/// Opens in a year and takes the marks, over the rubbish that `learn` lends: the answer and the chart.
fn fed(flat: &FlatGrammar, year: u16, marks: &[u8], cells: usize) -> (Answer, Lent<u32>) {
    let (reader, mut hand, mut chart) = (reader_under_test(), [9; HAND], rubbish(&mut Rng::new(81), cells));
    let mut answer = reader.open(flat, year, &mut hand, chart.part_mut());
    for mark in marks {
        answer = reader.take(flat, &mut hand, *mark, chart.part_mut());
    }
    (answer, chart)
}

/// The book with these bytes before its end.
fn joined(book: &[u8], rule: &[u8]) -> Vec<u8> {
    [&book[..book.len() - 1], rule, &[0x50]].concat()
}

/// A book of so many rules: 0 -> A B, and then rules of kind 1 and 2, each with a name.
fn sized(rules: usize) -> Vec<u8> {
    let mut book = vec![0x10, 0];
    for rule in 0..rules {
        match rule {
            0 => book.extend([0x20, 0, 1, 0, 0x40, b'A', 0x40, b'B']),
            _ => book.extend([0x21, 1 + (rule % 2) as u8, 1, 0, 0, 0, 0xFF, 0xFF, 0x41, b'A', b'B']),
        }
        book.extend([&[0x60][..], &filled(&format!("R{rule}"))].concat());
    }
    book.push(0x50);
    book
}

/// The same row with rubbish in all that is unused, and another depth.
fn dirtied(flat: &FlatGrammar) -> FlatGrammar {
    let mut dirty = *flat;
    dirty[2] = 0xBEEF;
    let rules = usize::from(flat[1]);
    for rule in 0..RULES {
        let (at, used) = (record(rule), if rule < rules { usize::from(flat[record(rule) + 2]) } else { 0 });
        if rule >= rules {
            dirty[at..at + RULE_WIDTH].fill(0xD1D1);
        }
        dirty[at + 3 + 2 * used..at + 3 + 2 * 8].fill(0xD2D2);
    }
    dirty
}

/// Commands of a rule, to be joined.
const OPEN: &[u8] = &[0x20, 0, 150, 0];
const DATED: &[u8] = &[0x21, 2, 0xFF, 0xFF, 0xD8, 0x07, 0xD8, 0x07];
const NAMED: &[u8] = b"\x60SPRING  ";
const KIND: &[u8] = &[0x30, 0];
const MARK: &[u8] = &[0x40, b'S'];
const RANGE: &[u8] = &[0x41, b'A', b'S'];

/// Rules that are learnt with a book that has none of their names.
fn whole_rules() -> Vec<Vec<u8>> {
    let mut all = vec![];
    for open in [OPEN, DATED] {
        all.push(open.to_vec());
        all.push([open, NAMED].concat());
        all.push([open, KIND, MARK, RANGE].concat());
        for at in 0..4 {
            let mut parts = vec![open, RANGE, KIND, MARK];
            parts.insert(1 + at, NAMED);
            all.push(parts.concat());
        }
        all.push([open, &RANGE.repeat(8), NAMED].concat());
    }
    all
}

/// A fitter meets a spring that the book lacks, with half the plate taken. 0 -> 0 A, 0 -> A; then 0 -> 0 S.
#[test]
fn a_spring_that_the_book_lacks() {
    let (reader, mut flat) = (reader_under_test(), loaded(&book(0, &["0: 0 A", "0: A"])));
    let (mut hand, mut chart, mut offset) = ([9; HAND], rubbish(&mut Rng::new(82), CELLS + 3), FOUND_AT);
    assert_eq!(reader.open(&flat, YEAR, &mut hand, chart.part_mut()), Answer::No);
    assert_eq!(reader.take(&flat, &mut hand, b'A', chart.part_mut()), Answer::Yes);
    assert_eq!(reader.set_point(&flat, &mut hand, 4, chart.part_mut()), Answer::Yes);
    assert_eq!(reader.take(&flat, &mut hand, b'S', chart.part_mut()), Answer::No);
    let (spring, before) = ([OPEN, KIND, MARK, NAMED].concat(), (hand, flat));
    assert_eq!(reader.learn(&mut flat, &mut hand, &spring, chart.part_mut(), &mut offset), Answer::Yes);
    assert_eq!((offset, hand, flat[1]), (FOUND_AT, before.0, 3));
    assert_eq!(flat[..record(2)], [&[0, 3, 0][..], &before.1[3..record(2)]].concat());
    let mut due = [0; RULE_WIDTH];
    due[..7].copy_from_slice(&[0, 150, 2, 0, 0, 1, u16::from(b'S')]);
    (due[reader::YEARS], due[reader::YEARS + 1]) = (0, u16::MAX);
    due[NAME..].copy_from_slice(&filled("SPRING").map(u16::from));
    assert_eq!(flat[record(2)..record(3)], due);
    assert!(flat[record(3)..].iter().all(|number| *number == 0));
    assert_eq!(reader.take(&flat, &mut hand, b'S', chart.part_mut()), Answer::Yes);
    assert_eq!(reader.return_to(&flat, &mut hand, 4, chart.part_mut()), Answer::Yes);
    assert_eq!((hand[INPUT], hand[FIRST_POINT + 4]), (1, 2));
    assert_eq!(check(&flat, b"AS", &[2, 2, 1, 1]), Answer::Yes);
}

/// Whole rules with 0, 1 and 127 rules before: the row of the joined book, the same hand, and the chart and the answer of opening with it.
#[test]
fn whole_rules_are_those_of_the_joined_book() {
    for rules in [0, 1, 127] {
        let book = sized(rules);
        for (number, rule) in whole_rules().iter().enumerate() {
            let due = loaded(&joined(&book, rule));
            let (tidy, dirty) = (loaded(&book), dirtied(&loaded(&book)));
            for (flat, marks) in [(tidy, &b"AB"[..]), (dirty, b"AB"), (dirty, b"")] {
                let (hand, cells) = (held(marks), CELLS + number % 3);
                let (answer, _, left) = learn(&flat, &hand, rule, cells);
                assert!(left.flat == due, "{rules} rules, {rule:02X?}");
                assert_eq!(left.hand, handed_back(&hand));
                let (complete, chart) = fed(&due, YEAR, marks, cells);
                assert!(answer == complete && left.chart == chart, "{rules} rules, {rule:02X?}");
            }
        }
    }
}

/// Faults of a rule with 0, 1, 127 and 128 rules before: number and offset are those of the joined book, less its front.
#[test]
fn faults_are_those_of_the_joined_book() {
    let places = |count: usize| [OPEN, &MARK.repeat(count)].concat();
    let with = |parts: &[&[u8]]| [&[OPEN][..], parts].concat().concat();
    let faulty: &[(u8, usize, Vec<u8>)] = &[
        (2, 0, vec![0x00]),
        (2, 0, vec![0x22, 0, 0, 0]),
        (2, 4, with(&[&[0x61]])),
        (2, 15, with(&[NAMED, KIND, &[0xFF], KIND])),
        (3, 13, with(&[NAMED, NAMED])),
        (3, 15, with(&[NAMED, KIND, b"\x60OTHER   ", MARK])),
        (3, 13, with(&[NAMED, &[0x60]])),
        (4, 0, vec![0x20, 32, 0, 0]),
        (4, 0, vec![0x21, 255, 0, 0, 2, 0, 1, 0]),
        (4, 6, with(&[MARK, &[0x30, 32], KIND])),
        (4, 20, [&places(8)[..], &[0x30, 32]].concat()),
        (6, 20, [&places(8)[..], KIND].concat()),
        (6, 20, [&places(9)[..], NAMED].concat()),
        (6, 29, [&places(8)[..], NAMED, RANGE].concat()),
        (16, 4, with(&[&[0x41, 2, 1]])),
        (16, 20, [&places(8)[..], &[0x41, 255, 0]].concat()),
        (17, 4, with(&[b"\x60        "])),
        (17, 4, with(&[b"\x60spring  "])),
        (17, 4, with(&[b"\x60A B     ", MARK])),
        (17, 4, with(&[&[&[0x60][..], &[0; 8]].concat()])),
        (21, 0, vec![0x21, 0, 0, 0, 1, 0, 0, 0]),
        (21, 0, vec![0x21, 31, 0, 0, 0, 1, 255, 0, 0x99]),
    ];
    for rules in [0, 1, 127, 128] {
        let (book, mut seen) = (sized(rules), 0);
        let (flat, front) = (loaded(&book), book.len() - 1);
        for (number, offset, rule) in faulty {
            // with 128 rules, a rule that opens well is the fault
            let opens = !matches!(number, 2 | 4 | 21) || *offset > 0;
            let due = if rules == RULES && opens { (5, 0) } else { (*number, *offset) };
            assert_eq!(refused(&flat, rule), Some(due), "{rules} rules, {rule:02X?}");
            assert_eq!(fault(&joined(&book, rule)).0, Some((due.0, front + due.1)), "{rules} rules, {rule:02X?}");
            assert_eq!(refused(&dirtied(&flat), rule), Some(due), "{rules} rules, {rule:02X?}");
            seen += u32::from(due.0 == 5);
        }
        assert_eq!(seen > 0, rules == RULES);
    }
}

/// Every front of a rule: 20 without bytes, 1 inside a command, learnt where a command ends; against the joined bytes without 50.
#[test]
fn the_rule_ends_where_its_bytes_end() {
    let book = sized(1);
    let (flat, front) = (loaded(&book), &book[..book.len() - 1]);
    let rules = [[OPEN, KIND, NAMED, RANGE, MARK].concat(), [DATED, NAMED, MARK].concat()];
    let ends: [&[usize]; 2] = [&[4, 6, 15, 18, 20], &[8, 17, 19]];
    for (rule, ends) in rules.iter().zip(ends) {
        for end in 0..=rule.len() {
            let due = match end {
                0 => Some((20, 0)),
                end if ends.contains(&end) => None,
                end => Some((1, end)),
            };
            assert_eq!(refused(&flat, &rule[..end]), due, "{:02X?}", &rule[..end]);
            let cut = [front, &rule[..end]].concat();
            assert_eq!(fault(&cut).0, Some((1, cut.len())));
            assert_eq!(fault(&joined(&book, &rule[..end])).0.is_none(), end == 0 || ends.contains(&end));
        }
    }
}

/// 20: empty bytes, a first command that opens no rule, and a later one that opens a rule, is 10 or 50; also cut short, and before 3. An
/// unknown byte is 2, also the first.
#[test]
fn not_one_rule() {
    for rules in [0, 1, 128] {
        let flat = loaded(&sized(rules));
        assert_eq!(refused(&flat, &[]), Some((20, 0)));
        for command in [&[0x10, 0][..], &[0x10], &[0x10, 32], KIND, &[0x30], MARK, RANGE, &[0x41, 2], &[0x50]] {
            assert_eq!(refused(&flat, command), Some((20, 0)), "{command:02X?}");
            assert_eq!(refused(&flat, &[command, OPEN].concat()), Some((20, 0)), "{command:02X?}");
        }
        for name in [NAMED, &NAMED[..1], b"\x60        ", b"\x60R0      "] {
            assert_eq!(refused(&flat, name), Some((20, 0)), "{name:02X?}");
        }
        for byte in (0..=255).filter(|byte| ![0x10, 0x20, 0x21, 0x30, 0x40, 0x41, 0x50, 0x60].contains(byte)) {
            assert_eq!(refused(&flat, &[byte, 0x50]), Some((2, 0)), "{byte}");
        }
    }
    let flat = loaded(&sized(1));
    for front in [OPEN.to_vec(), DATED.to_vec(), [OPEN, MARK, NAMED].concat(), [OPEN, &MARK.repeat(8)].concat()] {
        for command in
            [OPEN, DATED, &OPEN[..1], &DATED[..5], &[0x20, 32, 0, 0], &[0x10, 0], &[0x10], &[0x50], &[0x50, 0x99]]
        {
            let due = Some((20, front.len()));
            assert_eq!(refused(&flat, &[&front, command].concat()), due, "{front:02X?}, {command:02X?}");
        }
        for byte in [0x00, 0x22, 0x51, 0xFF] {
            assert_eq!(refused(&flat, &[&front[..], &[byte]].concat()), Some((2, front.len())));
        }
    }
}

/// 8, 14 and 10 come first, in this order and at 0, whatever the bytes; a full hand learns.
#[test]
fn the_order_of_the_refusals() {
    let flat = loaded(&T);
    let mut bad = flat;
    bad[0] = 32;
    let mut hands = [held(b"A"); 4];
    hands[1][INPUT] = 65;
    hands[2][0] = 256;
    hands[3][FIRST_POINT + 7] = 3;
    for bytes in [&[][..], &[0x99], &[0x50], &[0x20], &[0x20, 32, 0, 0], OPEN] {
        for (which, hand) in hands.iter().enumerate() {
            for cells in [0, CELLS - 1, CELLS] {
                let (answer, offset, _) = learn(&bad, hand, bytes, cells);
                assert_eq!((answer, offset), (Answer::Refused(8), 0));
                let (answer, offset, _) = learn(&flat, hand, bytes, cells);
                match (which, cells) {
                    (1.., _) => assert_eq!((answer, offset), (Answer::Refused(14), 0), "{bytes:02X?}"),
                    (_, CELLS) => assert!(answer != Answer::Refused(10) && answer != Answer::Refused(14)),
                    _ => assert_eq!((answer, offset), (Answer::Refused(10), 0), "{bytes:02X?}"),
                }
            }
        }
    }
    let full = held(&[b'A'; INPUT]);
    let (answer, _, left) = learn(&flat, &full, &[0x20, 0, 0, 0, 0x30, 0, 0x30, 1], CELLS);
    let (due, chart) = fed(&left.flat, YEAR, &[b'A'; INPUT], CELLS);
    assert!((answer, due) == (Answer::Yes, Answer::Yes) && left.chart == chart && left.hand == full);
}

/// The 128th rule is learnt; with 128 rules a rule is 5 at 0, after 1, 4 and 21. The longest rule has 41 bytes.
#[test]
fn the_128th_rule_and_the_129th() {
    let longest = [DATED, NAMED, &RANGE.repeat(8)].concat();
    let (_, _, left) = learn(&loaded(&sized(127)), &held(b""), &longest, CELLS);
    assert_eq!((left.flat[1], longest.len()), (128, 41));
    assert!(left.flat == loaded(&joined(&sized(127), &longest)));
    for flat in [left.flat, loaded(&sized(128))] {
        for (rule, due) in [
            (&longest[..], (5, 0)),
            (OPEN, (5, 0)),
            (&OPEN[..3], (1, 3)),
            (&[0x20, 32, 0, 0], (4, 0)),
            (&[0x21, 32, 0, 0, 1, 0, 0, 0], (4, 0)),
            (&[0x21, 0, 0, 0, 1, 0, 0, 0], (21, 0)),
            (&[0x21, 0, 0, 0, 1, 0, 0], (1, 7)),
            (&[OPEN, &[0x99]].concat(), (5, 0)),
        ] {
            assert_eq!(refused(&flat, rule), Some(due), "{rule:02X?}");
        }
    }
}

/// Names are compared with those of all used rules, in force or not, and with no other. The lookup goes by the bytes of a book.
#[test]
fn names_of_the_whole_book() {
    let mut bytes = sized(5);
    bytes.pop();
    bytes.extend(b"\x21\x00\x00\x00\x01\x00\x02\x00\x60PAST    \x20\x00\x00\x00\x50"); // the last rule has no name
    let flat = loaded(&bytes);
    let named = |name: &str| [OPEN, MARK, &[0x60], &filled(name)].concat();
    for taken in ["R0", "R1", "R2", "R3", "R4", "PAST"] {
        assert_eq!(refused(&flat, &named(taken)), Some((17, 6)), "{taken}");
    }
    for free in ["R", "R5", "R00", "PAS", "PASTS", "OPAST", "R0R0R0R0"] {
        let mut dirty = dirtied(&flat);
        for rule in 7..RULES {
            let at = record(rule) + NAME;
            dirty[at..at + NAME_WIDTH].copy_from_slice(&filled(free).map(u16::from));
        }
        let (answer, _, left) = learn(&dirty, &held(b"S"), &named(free), CELLS);
        assert_eq!(answer, Answer::Yes, "{free}");
        // learnt, it is taken
        assert_eq!(refused(&left.flat, &named(free)), Some((17, 6)), "{free}");
        assert_eq!(
            (name(&bytes, 7), name(&joined(&bytes, &named(free)), 7).map(|part| part.1)),
            (None, Some(free.as_bytes()))
        );
    }
}

/// A rule that is out of force in the hand's year is learnt: hand, chart and answer are those of the hand's year.
#[test]
fn a_rule_of_other_years() {
    let flat = loaded(&book(0, &["0: A"]));
    for (first, last) in [(0, YEAR - 1), (YEAR + 1, u16::MAX), (YEAR, YEAR), (0, u16::MAX)] {
        let years = [first.to_le_bytes(), last.to_le_bytes()].concat();
        let rule = [&[0x21, 0, 7, 0][..], &years, MARK].concat();
        let (answer, _, left) = learn(&flat, &held(b"S"), &rule, CELLS);
        let in_force = first <= YEAR && YEAR <= last;
        assert_eq!(answer, if in_force { Answer::Yes } else { Answer::No }, "{first} to {last}");
        assert_eq!((left.flat[1], left.hand), (2, handed_back(&held(b"S"))));
        assert!(left.flat == loaded(&joined(&book(0, &["0: A"]), &rule)));
        assert!(left.chart == fed(&left.flat, YEAR, b"S", CELLS).1);
        assert_eq!(left.chart == fed(&flat, YEAR, b"S", CELLS).1, !in_force);
        assert_eq!(fed(&left.flat, first, b"S", CELLS).0, Answer::Yes);
    }
}

/// The nullable depth is that of the longer book: it rises, falls or stays, and what the row held does not matter.
#[test]
fn the_depth_of_the_longer_book() {
    // 0 -> 1, 1 -> 2, 2 -> 3, 3 -> A
    let flat = loaded(&book(0, &["0: 1", "1: 2", "2: 3", "3: A"]));
    let of = |left: u8, places: &[u8]| {
        let places: Vec<u8> = places.iter().flat_map(|kind| [0x30, *kind]).collect();
        [&[0x20, left, 0, 0][..], &places].concat()
    };
    let steps: [(Vec<u8>, u16); 6] =
        [(of(4, &[3]), 0), (of(3, &[]), 4), (of(1, &[]), 2), (of(0, &[]), 2), (of(2, &[]), 2), (of(4, &[]), 1)];
    let mut now = flat;
    for (rule, depth) in steps {
        for found in [0, 31, u16::MAX] {
            now[2] = found;
            let (_, _, left) = learn(&now, &held(b""), &rule, CELLS);
            assert_eq!(left.flat[2], depth, "{rule:02X?}");
        }
        now = learn(&now, &held(b""), &rule, CELLS).2.flat;
    }
}

/// All readings of an input, one after the other.
fn readings(flat: &FlatGrammar, input: &[u8]) -> Vec<Vec<u16>> {
    let (mut all, mut given) = (Vec::new(), first(flat, input));
    while let Given::Row(row) = given {
        given = next(flat, input, &row);
        all.push(row);
    }
    all
}

/// Every old reading stays one, and old readings keep their order; the new ones have the new rule.
#[test]
fn old_readings_keep_their_order() {
    let book = book(0, &["0: 0 0", "0: A", "1:", "0: 1 A"]);
    let flat = loaded(&book);
    for (rule, more) in [
        (&[0x20, 0, 0, 0, 0x40, b'A'][..], true),
        (&[0x20, 0, 0, 0, 0x30, 0, 0x30, 1], false), // superfluous recursion
        (&[0x20, 0, 0, 0, 0x30, 1, 0x40, b'A', 0x30, 1], true),
        (&[0x20, 1, 0, 0], true),
        (&[0x20, 0, 0, 0, 0x30, 2], false),
        (&[0x20, 2, 0, 0, 0x30, 0], false),
    ] {
        let longer = learn(&flat, &held(b"A"), rule, CELLS).2.flat;
        for input in [&b"A"[..], b"AA", b"AAA"] {
            let (old, new) = (readings(&flat, input), readings(&longer, input));
            let kept: Vec<_> = new.iter().filter(|row| row.chunks(2).all(|node| node[1] != flat[1])).cloned().collect();
            assert_eq!(kept, old, "{rule:02X?}");
            assert_eq!(new.len() > old.len(), more, "{rule:02X?}");
            assert!(old.iter().all(|row| check(&longer, input, row) == Answer::Yes));
        }
    }
}

/// What is unused is handed back as zeros, whatever it held, with every count of marks and all points.
#[test]
fn rubbish_is_gone() {
    let (book, rule) = (book(0, &["0: 0 0", "0: A", "1:", "2: 1 1 1"]), [OPEN, MARK].concat());
    let (dirty, due) = (dirtied(&loaded(&book)), loaded(&joined(&book, &rule)));
    for count in 0..=INPUT {
        let mut hand = held(&vec![b'A'; count]);
        for (name, point) in hand[FIRST_POINT..].iter_mut().enumerate() {
            *point = (name * (count + 1) / (POINTS - 1)) as u16;
        }
        let (answer, _, left) = learn(&dirty, &hand, &rule, CELLS + 5);
        assert!(left.flat == due && left.hand == handed_back(&hand), "{count}");
        let (complete, chart) = fed(&due, YEAR, &vec![b'A'; count], CELLS + 5);
        assert!(answer == complete && left.chart == chart, "{count}");
    }
    assert_eq!(due[FLAT - 1], 0);
}

/// Lists of operations run.
const LISTS: u64 = 1500;

/// How often each outcome must come up at least.
const DUE: &[(&str, u64)] = &[
    ("learning list, learn: No", 900),
    ("learning list, learn: Yes", 320),
    ("learning list, learn: refused 1", 150),
    ("learning list, learn: refused 2", 120),
    ("learning list, learn: refused 3", 65),
    ("learning list, learn: refused 4", 170),
    ("learning list, learn: refused 5", 8),
    ("learning list, learn: refused 6", 45),
    ("learning list, learn: refused 16", 60),
    ("learning list, learn: refused 17", 400),
    ("learning list, learn: refused 20", 700),
    ("learning list, learn: refused 21", 85),
    ("learning list, take: Yes", 900),
    ("learning list, take: No", 4000),
    ("learning list, set: Yes", 600),
    ("learning list, set: No", 2000),
    ("learning list, set: refused 19", 300),
    ("learning list, return: Yes", 320),
    ("learning list, return: No", 800),
    ("learning list, return: refused 19", 750),
    ("learning list: with a rule learnt", 450),
    ("learning list: another rule learnt", 750),
    ("learning list: a rule learnt with points set", 900),
    ("learning list: a return after a rule learnt", 900),
];

#[test]
fn random_lists_with_learning() {
    let from = first_seed(12_000);
    let mut counts = Counts::default();
    for seed in from..from + LISTS {
        if let Err(difference) = run_learning(&reader_under_test(), &books::book(seed), seed, &mut counts) {
            panic!("{difference}\n{SEED}={seed} begins with this list");
        }
    }
    for (name, count) in counts.0.iter().filter(|(name, _)| name.starts_with("learning")) {
        println!("{count:8}  {name}");
    }
    for (name, due) in DUE {
        let due = if from == 12_000 { *due } else { *due / 2 }; // with other books, half as often is enough
        assert!(counts.get(name) >= due, "{name}: came up {} times, due {due}", counts.get(name));
    }
}
