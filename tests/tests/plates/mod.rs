//! Plates whose readings are written out by hand, on the reader under test and on the lister.

use crate::calls::{check_in, complete_in, first_in, loaded, row, YEAR};
use outside_tests::books::Rng;
use outside_tests::compare::{rubbish, Comparison, Counts};
use outside_tests::lister::{self, walk::Given};
use outside_tests::reader::{Answer, Reader, CELLS, OUTPUT};
use outside_tests::reader_under_test;

/// Everything that the random comparison does, with this book and input.
pub fn compared(book: &[u8], input: &[u8]) {
    compared_in(book, input, YEAR);
}

/// The same in a year.
pub fn compared_in(book: &[u8], input: &[u8], year: u16) {
    let mut counts = Counts::default();
    let mut comparison = Comparison { reader: &reader_under_test(), rng: Rng::new(7), counts: &mut counts };
    let flat = comparison.load(book, "load").expect("no difference").expect("loads");
    comparison.input(&flat, input, year).expect("no difference");
}

/// All readings of the input, as the lister lists them. The reader accepts each of them,
/// hands out the first 21 of them in order, and counts as many.
pub fn listed(book: &[u8], input: &[u8]) -> Vec<Vec<u16>> {
    listed_in(book, input, YEAR)
}

/// The same in a year.
pub fn listed_in(book: &[u8], input: &[u8], year: u16) -> Vec<Vec<u16>> {
    let (flat, reader) = (loaded(book), reader_under_test());
    let grammar = lister::grammar::from_flat(&flat).expect("loaded").in_year(year);
    let (list, tree) = lister::listed(&grammar, input);
    assert_eq!(complete_in(&flat, input, year), tree);
    for reading in &list {
        assert_eq!(check_in(&flat, input, year, reading), Answer::Yes);
    }
    assert_eq!(first_in(&flat, input, year), lister::walk::first(&list, tree));
    let mut chart = rubbish(&mut Rng::new(5), CELLS);
    let due = match lister::walk::count(&list, tree) {
        Given::Count(count) => Answer::Count(count),
        Given::More => Answer::More,
        _ => Answer::Refused(13),
    };
    assert_eq!(reader.count(&flat, input, year, chart.part_mut(), &mut 0), due);
    let (mut out, mut nodes) = ([7; OUTPUT], 0);
    for (at, reading) in list.iter().enumerate().take(20) {
        let answer = reader.next(&flat, input, year, reading, chart.part_mut(), &mut out, &mut nodes);
        match list.get(at + 1) {
            Some(next) => {
                assert_eq!((answer, nodes), (Answer::Nodes(next.len() / 2), next.len() / 2));
                assert_eq!(&out[..next.len()], &next[..]);
            }
            None => assert_eq!(answer, Answer::NoneLeft),
        }
    }
    list
}

/// A plate with exactly these readings, or none; and the whole comparison on it.
pub fn plate(book: &[u8], input: &str, readings: &[&str]) {
    plate_in(book, input, YEAR, readings);
}

/// The same in a year.
pub fn plate_in(book: &[u8], input: &str, year: u16, readings: &[&str]) {
    let due: Vec<Vec<u16>> = readings.iter().map(|text| row(text)).collect();
    assert_eq!(listed_in(book, input.as_bytes(), year), due, "{input}, {year}");
    assert_eq!(complete_in(&loaded(book), input.as_bytes(), year), !readings.is_empty(), "{input}, {year}");
    compared_in(book, input.as_bytes(), year);
}
