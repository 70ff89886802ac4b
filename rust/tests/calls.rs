//! The wrapper turns each code into its answer, and returns what each call leaves.
use filbozseg::*;

/// Book T of document 01: 0 -> 1 1 (4,600), 1 -> nothing (0), 1 -> A (25).
const T: &[u8] = b"\x10\x00\x20\x00\xf8\x11\x30\x01\x30\x01\x20\x01\x00\x00\x20\x01\x19\x00\x40A\x50";

/// The year that inputs are read in: any, since the books here hold in all years.
const YEAR: u16 = 2008;

/// What the cells of a chart hold before a call, and how many unused cells follow the used ones.
const FOUND: u32 = 7;
const PAST: usize = 3;

fn chart() -> Vec<u32> {
    vec![FOUND; CELLS + PAST]
}

/// Where the first and the last rule of T begin in its row.
const FIRST: usize = 3;
const LAST: usize = 61;

/// T with one number of its row changed.
fn changed(at: usize, number: u16) -> Grammar {
    let mut row = *load(T).unwrap().row();
    row[at] = number;
    Grammar::from_row(&row)
}

#[test]
fn a_book_is_loaded_or_refused_at_its_offset() {
    assert_eq!(load(T).unwrap().row()[3..12], [0, 4600, 2, 0, 1, 0, 1, 0, 0]);
    let faults: [(&[u8], u8, usize); 16] = [
        (b"", 1, 0),
        (b"\x10", 1, 1),
        (b"\x99", 2, 0),
        (b"\x20", 3, 0),
        (b"\x10\x20", 4, 0),
        (b"\x10\x00\x50\x50", 7, 3),
        (b"\x10\x00\x20\x00\xe7\xff\x40A", 1, 8),
        (b"\x10\x00\x4109", 3, 2),
        (b"\x10\x00\x20\x00\xe7\xff\x419", 1, 8),
        (b"\x10\x00\x20\x00\xe7\xff\x4190", 16, 6),
        (b"\x10\x00\x21\x00\xe7\xff\x01\x00\x00", 1, 9),
        (b"\x10\x00\x21\x00\xe7\xff\x01\x00\x00\x00", 21, 2),
        (b"\x10\x00\x21\x20\xe7\xff\x01\x00\x00\x00", 4, 2),
        (b"\x10\x00\x60SEAL    ", 3, 2),
        (b"\x10\x00\x20\x00\xe7\xff\x60SEAL   ", 1, 14),
        (b"\x10\x00\x20\x00\xe7\xff\x60seal    ", 17, 6),
    ];
    for (book, number, offset) in faults {
        let fault = load(book).unwrap_err();
        assert_eq!((fault.refusal.number(), fault.offset), (number, offset));
        assert!(fault.grammar.row().iter().all(|&x| x == 0));
    }
}

#[test]
fn the_numbers_of_a_grammar_are_judged_whole() {
    let mut chart = chart();
    let small = |over: u16| [over, 255, 256, 257, 256 + 31, 0xFF00, u16::MAX];
    let mut bad: Vec<(usize, u16)> = vec![(1, 129), (1, 256), (1, 256 + 3), (FIRST + 2, 9), (FIRST + 2, 256 + 2)];
    for at in [0, FIRST, FIRST + 4] {
        bad.extend(small(32).map(|number| (at, number)));
    }
    bad.extend(small(3).map(|tag| (LAST + 3, tag)));
    bad.push((LAST + 3, 2)); // its value is 65, so the range is reversed
    bad.extend([256, 256 + 65, 0xFF00, u16::MAX].map(|terminal| (LAST + 4, terminal)));
    bad.extend([1, 0x41, 256, 256 + 0x41, u16::MAX].map(|letter| (LAST + 21, letter))); // the first byte of a name
    for (at, number) in bad {
        assert_eq!(open(&changed(at, number), YEAR, &mut chart).1, Err(Refusal::InvalidGrammar), "{number} at {at}");
    }
    // what the wrapper lends for the library to write
    assert_eq!(open(&Grammar::from_row(&[u16::MAX; ROW]), YEAR, &mut chart).1, Err(Refusal::InvalidGrammar));
    assert_eq!(chart, self::chart());
    // the depth, a length, an unused place, an unused rule
    for at in [2, FIRST + 1, FIRST + 7, FIRST + 8, LAST + 29, LAST + 31, LAST + 32, LAST + 50] {
        assert_eq!(open(&changed(at, u16::MAX), YEAR, &mut chart).1, Ok(true), "{at}");
    }
}

#[test]
fn an_opening_leaves_no_bytes_also_where_it_is_refused() {
    let (grammar, mut chart) = (load(T).unwrap(), chart());
    let refused = [
        (open(&changed(0, 200), YEAR, &mut chart), Refusal::InvalidGrammar),
        (open(&changed(0, 200), YEAR, &mut []), Refusal::InvalidGrammar),
        (open(&grammar, YEAR, &mut chart[..CELLS - 1]), Refusal::ChartTooShort),
        (open(&grammar, YEAR, &mut []), Refusal::ChartTooShort),
    ];
    assert_eq!(chart, self::chart());
    let (opened, complete) = open(&grammar, YEAR, &mut chart);
    assert_eq!((complete, opened.count(), opened.bytes(), opened.year()), (Ok(true), 0, &[][..], YEAR));
    assert!(opened.row().iter().enumerate().all(|(at, &number)| number == 0 || at == BYTES + 1));
    for ((r, answer), refusal) in refused {
        assert_eq!((r.row(), answer), (&[0; HAND], Err(refusal)));
    }
}

/// A recognizer whose bytes are all nine, with this count and no point set.
fn nines(count: u16) -> Recognizer {
    let mut row = [9; HAND];
    row[BYTES] = count;
    row[BYTES + 2..].fill(0);
    Recognizer::from_row(&row)
}

#[test]
fn a_refused_byte_leaves_the_recognizer_and_the_chart() {
    let (grammar, mut chart) = (load(T).unwrap(), chart());
    let mut large = *nines(3).row();
    large[2] = 256;
    // the last is what the wrapper lends for the library to write
    let unwritten = Recognizer::from_row(&[u16::MAX; HAND]);
    for found in [nines(65), nines(256), nines(256 + 3), Recognizer::from_row(&large), unwritten] {
        let mut r = found;
        assert_eq!(r.take(&changed(0, 200), b'A', &mut []), Err(Refusal::InvalidGrammar));
        assert_eq!(r.take(&grammar, b'A', &mut []), Err(Refusal::InvalidRecognizer));
        assert_eq!(r.take(&grammar, b'A', &mut chart), Err(Refusal::InvalidRecognizer));
        assert_eq!(r, found);
    }
    let mut r = nines(64);
    assert_eq!(r.take(&grammar, b'A', &mut []), Err(Refusal::ChartTooShort));
    assert_eq!(r.take(&grammar, b'A', &mut chart), Err(Refusal::RecognizerFull));
    assert_eq!((r, r.count(), r.bytes()), (nines(64), 64, &[9; 64][..]));
    assert_eq!((nines(65).count(), nines(65).bytes()), (65, &[9; 64][..]));
    assert_eq!(chart, self::chart());
}

#[test]
fn a_taken_byte_is_left_in_the_recognizer() {
    let (grammar, mut chart) = (load(T).unwrap(), chart());
    let mut row = *nines(2).row();
    row[2..BYTES].fill(u16::MAX); // bytes not taken
    let mut r = Recognizer::from_row(&row);
    r.take(&grammar, b'A', &mut chart).unwrap();
    assert_eq!((r.count(), r.bytes(), r.year()), (3, &[9, 9, 65][..], 9));
    assert!(r.row()[3..BYTES].iter().all(|&b| b == 0));
    let (mut r, answer) = open(&grammar, YEAR, &mut chart);
    let mut said = vec![answer.unwrap()];
    said.extend((0..64).map(|_| r.take(&grammar, b'A', &mut chart).unwrap()));
    assert!(said.iter().enumerate().all(|(n, &complete)| complete == (n <= 2)));
    assert_eq!((r.count(), r.bytes()), (64, &[65; 64][..]));
    assert_eq!(chart[CELLS..], [FOUND; PAST]);
}

#[test]
fn offered_rows_are_checked_measured_and_compared() {
    let (grammar, mut chart) = (load(T).unwrap(), chart());
    let (a, b, two) = ([1, 0, 0, 1, 1, 2], [1, 0, 1, 2, 0, 1], [2, 0, 1, 2, 1, 2]);
    assert_eq!(check(&grammar, &[b'A'; 65], YEAR, &a, &mut chart), Err(Refusal::InputLength));
    assert_eq!(check(&grammar, &[b'A'; 65], YEAR, &a, &mut []), Err(Refusal::InputLength));
    assert_eq!(check(&grammar, b"A", YEAR, &a, &mut []), Err(Refusal::ChartTooShort));
    assert_eq!(chart, self::chart());
    for (input, row, yes) in
        [("A", &a[..], true), ("A", &b, true), ("A", &two, false), ("AA", &two, true), ("A", &[], false)]
    {
        assert_eq!(check(&grammar, input.as_bytes(), YEAR, row, &mut chart), Ok(yes));
    }
    assert_eq!(length(&grammar, b"A", YEAR, &a, &mut chart), Ok(462));
    assert_eq!(length(&grammar, b"AA", YEAR, &two, &mut chart), Ok(465));
    assert_eq!(length(&grammar, b"A", YEAR, &two, &mut chart), Err(Refusal::NotADerivation));
    assert_eq!(same_build(&grammar, b"A", YEAR, &a, &b, &mut chart), Ok(true));
    assert_eq!(same_build(&grammar, b"A", YEAR, &a, &two, &mut chart), Err(Refusal::NotADerivation));
    assert_eq!(same_build(&grammar, b"A", YEAR, &two, &a, &mut chart), Err(Refusal::NotADerivation));
    assert_eq!(chart[CELLS..], [FOUND; PAST]);
    let recess = load(b"\x10\x00\x20\x00\xe7\xff\x40A\x20\x00\x01\x00\x40A\x50").unwrap();
    assert_eq!(length(&recess, b"A", YEAR, &[1, 0], &mut chart), Ok(-2));
    assert_eq!(same_build(&recess, b"A", YEAR, &[1, 0], &[1, 1], &mut chart), Ok(false));
}

/// How many numbers of an output follow the required ones, and what all numbers hold before a call.
const UNWRITTEN: [u16; OUTPUT + 2] = [9; OUTPUT + 2];

#[test]
fn the_first_derivation_is_handed_out_or_none() {
    let (grammar, mut chart, mut output) = (load(T).unwrap(), chart(), UNWRITTEN);
    for (input, due) in [("A", [1, 0, 0, 1, 1, 2]), ("AA", [2, 0, 1, 2, 1, 2])] {
        let handed = first(&grammar, input.as_bytes(), YEAR, &mut chart, &mut output).unwrap().unwrap();
        assert_eq!(handed, due);
        assert_eq!(check(&grammar, input.as_bytes(), YEAR, &due, &mut chart), Ok(true));
        assert_eq!((&output[..6], &output[6..]), (&due[..], &UNWRITTEN[6..]));
    }
    output = UNWRITTEN;
    for input in ["AAA", "B"] {
        assert_eq!(first(&grammar, input.as_bytes(), YEAR, &mut chart, &mut output), Ok(None));
    }
    assert_eq!((output, &chart[CELLS..]), (UNWRITTEN, &[FOUND; PAST][..]));
    let mut filled = self::chart();
    check(&grammar, b"B", YEAR, &[], &mut filled).unwrap();
    assert_eq!(chart, filled);
}

#[test]
fn a_refused_first_leaves_the_output() {
    let (grammar, mut chart, mut output) = (load(T).unwrap(), chart(), UNWRITTEN);
    let short = OUTPUT - 1;
    assert_eq!(first(&changed(0, 32), &[b'A'; 65], YEAR, &mut [], &mut []), Err(Refusal::InvalidGrammar));
    assert_eq!(first(&grammar, &[b'A'; 65], YEAR, &mut [], &mut []), Err(Refusal::InputLength));
    assert_eq!(first(&grammar, &[b'A'; 65], YEAR, &mut chart, &mut output), Err(Refusal::InputLength));
    assert_eq!(first(&grammar, b"A", YEAR, &mut chart[..CELLS - 1], &mut []), Err(Refusal::ChartTooShort));
    assert_eq!(first(&grammar, b"A", YEAR, &mut chart, &mut output[..short]), Err(Refusal::OutputTooShort));
    assert_eq!(chart, self::chart());
    // 0 -> A and seven of 1, 1 -> eight of 2, 2 -> eight of 3, 3 -> nothing: 512 nodes, and 513 below 4 -> 0
    let mut book = b"\x10\x00\x20\x00\x00\x00\x40A".to_vec();
    book.extend([0x30, 1].repeat(7));
    book.extend([&[0x20, 1, 0, 0][..], &[0x30, 2].repeat(8), &[0x20, 2, 0, 0], &[0x30, 3].repeat(8)].concat());
    book.extend(b"\x20\x03\x00\x00\x20\x04\x00\x00\x30\x00\x50");
    assert_eq!(first(&load(&book).unwrap(), b"A", YEAR, &mut chart, &mut output).unwrap().unwrap().len(), OUTPUT);
    assert_eq!(output[OUTPUT..], [9; 2]);
    (book[1], output) = (4, UNWRITTEN);
    assert_eq!(first(&load(&book).unwrap(), b"A", YEAR, &mut chart, &mut output), Err(Refusal::OnlyLargerTrees));
    assert_eq!((output, chart[1] >> 4 & 1), (UNWRITTEN, 1));
}

/// 0 -> 0 0, 0 -> A.
const PAIRS: &[u8] = b"\x10\x00\x20\x00\x00\x00\x30\x00\x30\x00\x20\x00\x00\x00\x40A\x50";

#[test]
fn the_next_derivation_is_handed_out_or_none() {
    let (grammar, mut chart, mut output) = (load(T).unwrap(), chart(), UNWRITTEN);
    let (one, other) = ([1, 0, 0, 1, 1, 2], [1, 0, 1, 2, 0, 1]);
    assert_eq!(next(&grammar, b"A", YEAR, &one, &mut chart, &mut output), Ok(Some(&other[..])));
    assert_eq!((&output[..6], &output[6..]), (&other[..], &UNWRITTEN[6..]));
    output = UNWRITTEN;
    assert_eq!(next(&grammar, b"A", YEAR, &other, &mut chart, &mut output), Ok(None));
    assert_eq!(next(&grammar, b"AA", YEAR, &[2, 0, 1, 2, 1, 2], &mut chart, &mut output), Ok(None));
    assert_eq!((output, &chart[CELLS..]), (UNWRITTEN, &[FOUND; PAST][..]));
    let mut filled = self::chart();
    check(&grammar, b"AA", YEAR, &[], &mut filled).unwrap();
    assert_eq!(chart, filled);
    // a walk, each reading copied before it is offered
    let grammar = load(PAIRS).unwrap();
    let mut handed = first(&grammar, b"AAAAA", YEAR, &mut chart, &mut output).unwrap().map(<[u16]>::to_vec);
    let mut all = Vec::new();
    while let Some(reading) = handed {
        assert_eq!(check(&grammar, b"AAAAA", YEAR, &reading, &mut chart), Ok(true));
        handed = next(&grammar, b"AAAAA", YEAR, &reading, &mut chart, &mut output).unwrap().map(<[u16]>::to_vec);
        all.push(reading);
    }
    assert!(all.len() == 14 && all.windows(2).all(|two| two[0] < two[1]));
}

#[test]
fn a_refused_next_leaves_the_output() {
    let (grammar, mut chart, mut output) = (load(T).unwrap(), chart(), UNWRITTEN);
    let (good, short) = ([1, 0, 0, 1, 1, 2], OUTPUT - 1);
    assert_eq!(next(&changed(0, 32), &[b'A'; 65], YEAR, &[], &mut [], &mut []), Err(Refusal::InvalidGrammar));
    assert_eq!(next(&grammar, &[b'A'; 65], YEAR, &[], &mut [], &mut []), Err(Refusal::InputLength));
    assert_eq!(next(&grammar, &[b'A'; 65], YEAR, &good, &mut chart, &mut output), Err(Refusal::InputLength));
    assert_eq!(next(&grammar, b"A", YEAR, &[], &mut chart[..CELLS - 1], &mut []), Err(Refusal::ChartTooShort));
    assert_eq!(next(&grammar, b"A", YEAR, &[], &mut chart, &mut output[..short]), Err(Refusal::OutputTooShort));
    assert_eq!(next(&grammar, b"A", YEAR, &good, &mut chart, &mut output[..short]), Err(Refusal::OutputTooShort));
    assert_eq!(chart, self::chart());
    let strangers = [&[][..], &good[..5], &[1, 0, 0, 1, 1, 3], &[1, 0, 0, 1, 1, 2, 0], &[9; OUTPUT], &[1, 0, 0, 1]];
    for (input, row) in strangers.map(|row| ("A", row)).into_iter().chain([("AA", &good[..]), ("B", &good)]) {
        assert_eq!(next(&grammar, input.as_bytes(), YEAR, row, &mut chart, &mut output), Err(Refusal::NotADerivation));
    }
    assert_eq!((output, &chart[CELLS..]), (UNWRITTEN, &[FOUND; PAST][..]));
    let mut filled = self::chart();
    check(&grammar, b"B", YEAR, &[], &mut filled).unwrap();
    assert_eq!(chart, filled);
}

#[test]
fn derivations_are_counted_up_to_4096() {
    let (grammar, pairs, mut chart) = (load(T).unwrap(), load(PAIRS).unwrap(), chart());
    assert_eq!(count(&changed(0, 32), &[b'A'; 65], YEAR, &mut []), Err(Refusal::InvalidGrammar));
    assert_eq!(count(&grammar, &[b'A'; 65], YEAR, &mut []), Err(Refusal::InputLength));
    assert_eq!(count(&grammar, &[b'A'; 65], YEAR, &mut chart), Err(Refusal::InputLength));
    assert_eq!(count(&grammar, b"A", YEAR, &mut chart[..CELLS - 1]), Err(Refusal::ChartTooShort));
    assert_eq!(chart, self::chart());
    for (input, due) in [("A", 2), ("AA", 1), ("AAA", 0), ("B", 0)] {
        assert_eq!(count(&grammar, input.as_bytes(), YEAR, &mut chart), Ok(Count::Exactly(due)), "{input}");
    }
    let mut filled = self::chart();
    check(&grammar, b"B", YEAR, &[], &mut filled).unwrap();
    assert_eq!(chart, filled);
    assert_eq!(count(&pairs, &[b'A'; 9], YEAR, &mut chart), Ok(Count::Exactly(1430)));
    assert_eq!(count(&pairs, &[b'A'; 10], YEAR, &mut chart), Ok(Count::More));
    // 0 -> A 1 1, 1 -> eight of 2, 2 -> eight of 3, 3 -> eight of 4, 4 -> nothing
    let mut book = b"\x10\x00\x20\x00\x00\x00\x40A\x30\x01\x30\x01".to_vec();
    (1..4).for_each(|k| book.extend([&[0x20, k, 0, 0][..], &[0x30, k + 1].repeat(8)].concat()));
    book.extend(b"\x20\x04\x00\x00\x50");
    assert_eq!(count(&load(&book).unwrap(), b"A", YEAR, &mut chart), Err(Refusal::OnlyLargerTrees));
    assert_eq!(chart[1] & 1, 1);
}

#[test]
fn refusals_numbers_and_codes_agree() {
    for (number, &refusal) in (1..=21).zip(Refusal::ALL) {
        assert_eq!((refusal.number(), Refusal::of_number(number)), (number, Some(refusal)));
        let code = 256 + u32::from(number);
        assert_eq!((refusal.code(), Refusal::of_code(code)), (code, Some(refusal)));
    }
    assert_eq!(Refusal::ALL.len(), 21);
    assert!([0, 22, 255].iter().all(|&number| Refusal::of_number(number).is_none()));
    let codes = [0, 1, 2, 255, 256, 512, 513, u32::MAX];
    assert!(codes.iter().all(|&code| Refusal::of_code(code).is_none()));
}
