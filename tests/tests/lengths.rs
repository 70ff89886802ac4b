//! Every sum from -200,000 to 200,000, measured by the reader under test and rounded as request U5 of document 02 says.

#[allow(dead_code)] // not all of it is called from here
mod calls;

use calls::{loaded, YEAR};
use outside_tests::books::{Draft, Sym};
use outside_tests::lister::trees::round;
use outside_tests::reader::{Answer, Reader, CELLS};
use outside_tests::reader_under_test;

const MOST: i32 = 200_000;

/// 0 -> 1 2 3 4 5 A, 5 -> seven of 6, and empty rules that have a length: for 1 to 4 the digits -9 to 9 of ones, tens,
/// hundreds and thousands, for 6 the multiples of 10,000 from -30,000 to 30,000.
fn digits() -> Draft {
    let mut draft = Draft::new(0);
    draft.rule(0, &[Sym::N(1), Sym::N(2), Sym::N(3), Sym::N(4), Sym::N(5), Sym::T(b'A')]);
    draft.rule(5, &[Sym::N(6); 7]);
    for (kind, weight) in [(1, 1), (2, 10), (3, 100), (4, 1000)] {
        draft.rules.extend((-9..=9).map(|digit| (kind, digit * weight, vec![])));
    }
    draft.rules.extend((-3..=3).map(|digit| (6, digit * 10_000, vec![])));
    draft
}

/// A reading of `A` whose rule lengths have this sum.
fn reading(sum: i32) -> Vec<u16> {
    let (mut size, mut row) = (sum.abs(), vec![1, 0]);
    let mut node = |first: i32, digit: i32| row.extend([0, (first + digit * sum.signum()) as u16]);
    for kind in 0..4 {
        node(2 + 19 * kind + 9, size % 10); // the rule of the digit 0, and how far the digit's rule is from it
        size /= 10;
    }
    node(1, 0);
    for _ in 0..7 {
        node(2 + 19 * 4 + 3, size.min(3));
        size -= size.min(3);
    }
    row
}

#[test]
fn every_sum_goes_to_the_nearest_tenth_and_halves_to_the_even_one() {
    let (draft, reader) = (digits(), reader_under_test());
    let (flat, mut chart) = (loaded(&draft.bytes()), vec![7; CELLS]);
    for sum in -MOST..=MOST {
        let (row, mut tenths) = (reading(sum), i32::MIN);
        assert_eq!(row.chunks(2).map(|node| i32::from(draft.rules[usize::from(node[1])].1)).sum::<i32>(), sum);
        assert_eq!(reader.length(&flat, b"A", YEAR, &row, &mut chart, &mut tenths), Answer::Yes, "{sum}");
        let difference = (10 * tenths - sum).abs();
        assert!(difference < 5 || (difference == 5 && tenths % 2 == 0), "{sum} gave {tenths}");
        assert_eq!(tenths, round(sum), "the lister's tenths of {sum}");
    }
}
