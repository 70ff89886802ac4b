//! Points of a recognizer: setting one, and returning to it.
mod books;

use books::{MIXED, PAIRS, T, YEAR};
use filbozseg::*;

/// What the unused cells of a chart hold, and how many there are.
const FOUND: u32 = 7;
const PAST: usize = 3;

/// Opens and takes the input: the recognizer, the chart, and whether the input is complete.
fn taken(grammar: &Grammar, input: &[u8]) -> (Recognizer, Vec<u32>, bool) {
    let mut chart = vec![FOUND; CELLS + PAST];
    let (mut recognizer, complete) = open(grammar, YEAR, &mut chart);
    let mut complete = complete.unwrap();
    for &byte in input {
        complete = recognizer.take(grammar, byte, &mut chart).unwrap();
    }
    (recognizer, chart, complete)
}

/// The points of a recognizer, -1 where none is set.
fn points(recognizer: &Recognizer) -> [i64; POINTS] {
    recognizer.points().map(|point| point.map_or(-1, |count| count as i64))
}

#[test]
fn a_point_is_set_at_the_count_and_moved() {
    let grammar = load(PAIRS).unwrap();
    let (mut recognizer, chart, _) = taken(&grammar, b"");
    assert_eq!(points(&recognizer), [-1; POINTS]);
    assert_eq!(recognizer.set_point(&grammar, 0, &chart), Ok(false));
    let (mut recognizer, mut chart, _) = taken(&grammar, b"AA");
    assert_eq!(recognizer.set_point(&grammar, 7, &chart), Ok(true));
    assert_eq!(recognizer.set_point(&grammar, 3, &chart), Ok(true));
    assert!(recognizer.take(&grammar, b'A', &mut chart).unwrap());
    assert_eq!(points(&recognizer), [-1, -1, -1, 2, -1, -1, -1, 2]);
    assert_eq!(recognizer.set_point(&grammar, 3, &chart), Ok(true));
    assert_eq!(points(&recognizer), [-1, -1, -1, 3, -1, -1, -1, 2]);
    assert_eq!(recognizer.row()[BYTES..], [3, YEAR, 0, 0, 0, 4, 0, 0, 0, 3]);
    assert_eq!(chart, taken(&grammar, b"AAA").1);
}

#[test]
fn a_return_leaves_what_taking_the_rest_would_have_left() {
    for book in [T, PAIRS, MIXED] {
        let grammar = load(book).unwrap();
        let input = [&b"ACBABCAA"[..], &[b'A'; 56]].concat();
        for at in 0..=input.len() {
            for end in [at, at + 1, input.len()].map(|end| end.min(input.len())) {
                let (mut recognizer, mut chart, complete) = taken(&grammar, &input[..at]);
                let fresh = (*recognizer.row(), chart.clone());
                assert_eq!(recognizer.set_point(&grammar, 5, &chart), Ok(complete));
                for &byte in &input[at..end] {
                    recognizer.take(&grammar, byte, &mut chart).unwrap();
                }
                assert_eq!(recognizer.return_to(&grammar, 5, &mut chart), Ok(complete), "{at} from {end}");
                assert_eq!((&recognizer.row()[..BYTES + 2], chart), (&fresh.0[..BYTES + 2], fresh.1));
                assert_eq!(points(&recognizer), [-1, -1, -1, -1, -1, at as i64, -1, -1]);
            }
        }
    }
}

#[test]
fn a_return_drops_the_points_beyond_and_keeps_the_others() {
    let grammar = load(PAIRS).unwrap();
    let (mut recognizer, mut chart, _) = taken(&grammar, b"");
    for name in 0..POINTS {
        recognizer.set_point(&grammar, name, &chart).unwrap();
        if name % 2 == 1 {
            recognizer.take(&grammar, b'A', &mut chart).unwrap();
        }
    }
    assert_eq!(points(&recognizer), [0, 0, 1, 1, 2, 2, 3, 3]);
    assert_eq!(recognizer.return_to(&grammar, 4, &mut chart), Ok(true));
    assert_eq!((recognizer.bytes(), points(&recognizer)), (&[65, 65][..], [0, 0, 1, 1, 2, 2, -1, -1]));
    assert_eq!(recognizer.return_to(&grammar, 6, &mut chart), Err(Refusal::NoPoint));
    assert_eq!(recognizer.return_to(&grammar, 1, &mut chart), Ok(false));
    assert_eq!((recognizer.count(), points(&recognizer)), (0, [0, 0, -1, -1, -1, -1, -1, -1]));
}

/// A recognizer of nines with this count, rubbish in its unused bytes, and these points.
fn nines(count: u16, points: [u16; POINTS]) -> Recognizer {
    let mut row = [9; HAND];
    row[usize::from(count).min(BYTES)..BYTES].fill(u16::MAX);
    row[BYTES] = count;
    row[BYTES + 2..].copy_from_slice(&points);
    Recognizer::from_row(&row)
}

#[test]
fn a_return_writes_the_columns_after_the_point_and_no_other_cell() {
    let (grammar, mut chart) = (load(T).unwrap(), vec![FOUND; CELLS + PAST]);
    let mut recognizer = nines(4, [0, 3, 5, 4, 0, 0, 0, 3]);
    assert_eq!(recognizer.set_point(&grammar, 0, &chart), Ok(true)); // 7 has the bit of the start
    assert!(chart.iter().all(|&cell| cell == FOUND) && recognizer.row()[4..BYTES].iter().all(|&byte| byte == 0));
    recognizer = nines(4, [0, 3, 5, 4, 0, 0, 0, 3]);
    assert_eq!(recognizer.return_to(&grammar, 7, &mut chart), Ok(true));
    assert_eq!(
        (recognizer.bytes(), recognizer.row()[BYTES..].to_vec()),
        (&[9, 9][..], vec![2, 9, 0, 3, 0, 0, 0, 0, 0, 3])
    );
    assert!(recognizer.row()[2..BYTES].iter().all(|&byte| byte == 0));
    for (at, &cell) in chart.iter().enumerate() {
        let cleared = at < CELLS && at % 65 > 2 && at / 65 <= at % 65;
        assert_eq!(cell, if cleared { 0 } else { FOUND }, "{at}");
    }
}

#[test]
fn a_refused_call_leaves_the_recognizer_and_the_chart() {
    let (grammar, mut chart) = (load(T).unwrap(), vec![FOUND; CELLS + PAST]);
    let mut bad = *grammar.row();
    bad[0] = 32;
    let bad = Grammar::from_row(&bad);
    let none = [0; POINTS];
    let past = |name: usize, number: u16| {
        let mut points = none;
        points[name] = number;
        points
    };
    let mut large = *nines(3, none).row();
    large[2] = 256;
    for found in [
        nines(65, none),
        nines(256 + 3, none),
        Recognizer::from_row(&large),
        nines(3, past(0, 5)),
        nines(3, past(7, 255)),
        nines(3, past(4, 256)),
        nines(3, past(4, 256 + 3)),
        nines(64, past(2, 66)),
        nines(64, past(2, u16::MAX)),
        Recognizer::from_row(&[u16::MAX; HAND]),
    ] {
        for name in [0, 8, usize::MAX] {
            let mut r = found;
            assert_eq!(r.take(&grammar, b'A', &mut chart), Err(Refusal::InvalidRecognizer));
            assert_eq!(r.set_point(&bad, name, &[]), Err(Refusal::InvalidGrammar));
            assert_eq!(r.return_to(&bad, name, &mut []), Err(Refusal::InvalidGrammar));
            assert_eq!(r.set_point(&grammar, name, &[]), Err(Refusal::InvalidRecognizer));
            assert_eq!(r.return_to(&grammar, name, &mut []), Err(Refusal::InvalidRecognizer));
            assert_eq!(r.set_point(&grammar, name, &chart), Err(Refusal::InvalidRecognizer));
            assert_eq!(r.return_to(&grammar, name, &mut chart), Err(Refusal::InvalidRecognizer));
            assert_eq!(r, found);
        }
    }
    let found = nines(64, [65, 0, 1, 2, 3, 4, 5, 6]);
    let mut r = found;
    for name in [8, 256, 1 << 32, usize::MAX] {
        assert_eq!(r.set_point(&grammar, name, &chart[..CELLS - 1]), Err(Refusal::ChartTooShort));
        assert_eq!(r.return_to(&grammar, name, &mut chart[..CELLS - 1]), Err(Refusal::ChartTooShort));
        assert_eq!(r.set_point(&grammar, name, &chart), Err(Refusal::NoPoint));
        assert_eq!(r.return_to(&grammar, name, &mut chart), Err(Refusal::NoPoint));
    }
    assert_eq!(r.return_to(&grammar, 1, &mut chart), Err(Refusal::NoPoint));
    assert_eq!((r, chart), (found, vec![FOUND; CELLS + PAST]));
}

#[test]
fn the_points_of_any_row_are_read() {
    assert_eq!(
        nines(3, [0, 1, 2, 4, 5, 255, 256, 65_535]).points().map(|point| point.unwrap_or(usize::MAX)),
        [usize::MAX, 0, 1, 3, 4, 254, 255, 65_534]
    );
}
