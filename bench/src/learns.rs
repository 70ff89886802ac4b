//! What learning a rule costs: beside a fill of the same marks, without marks, and refused with 1.

use crate::books;
use crate::calls::{chart, Flat, Hand, Plain, Proved, Reader, YEAR};
use crate::plain::hand::HAND;
use crate::plain::{Refusal, INPUT};
use crate::timing::{difference, pair, shown};
use crate::{heading, line, loaded, sink};
use std::hint::black_box;

/// A hand of so many marks A, with each point at its count.
fn held(count: u16) -> Hand {
    let mut hand = [count + 1; HAND];
    hand[..INPUT].fill(0);
    hand[..usize::from(count)].fill(65);
    (hand[INPUT], hand[INPUT + 1]) = (count, YEAR);
    hand
}

/// The last rule of a book whose rules have equally many bytes, and the book without it.
fn parted(book: &[u8], rules: usize) -> (Vec<u8>, Vec<u8>) {
    let (end, width) = (book.len() - 1, (book.len() - 3) / rules);
    let (front, rule) = book[..end].split_at(end - width);
    assert!(rule[0] == 0x20 && front.len() == 2 + (rules - 1) * width, "the rules have other lengths");
    ([front, &[0x50]].concat(), rule.to_vec())
}

/// Learns with a copy of row and hand, since it writes both.
fn learn<R: Reader>(flat: &Flat, hand: &Hand, bytes: &[u8], sheet: &mut [u32]) {
    let (mut flat, mut hand, mut offset) = (*black_box(flat), *hand, 0);
    sink(R::learn(&mut flat, &mut hand, bytes, sheet, &mut offset));
    black_box(&flat);
}

/// A fill by check, which then says no. It has copies too.
fn fill<R: Reader>(flat: &Flat, hand: &Hand, input: &[u8], sheet: &mut [u32]) {
    let (flat, hand) = (*black_box(flat), *hand);
    black_box(&hand);
    sink(R::check(&flat, input, &[], sheet));
}

/// Both sides give the same answer and offset and leave the same row, hand and chart. Returns the code and the row.
fn both(flat: &Flat, hand: &Hand, bytes: &[u8]) -> (u32, Flat) {
    let ((mut f, mut g), (mut h, mut k), (mut x, mut y)) = ((*flat, *flat), (*hand, *hand), (chart(), chart()));
    let (mut at, mut to) = (9, 9);
    let code = Proved::learn(&mut f, &mut h, bytes, &mut x, &mut at);
    assert_eq!((code, at), (Plain::learn(&mut g, &mut k, bytes, &mut y, &mut to), to));
    assert!(f == g && h == k && x == y, "row, hand or chart differ");
    (code, f)
}

/// The goal is the time of a fill of the marks, and load's share for one rule; tidying takes at most 5 µs.
pub fn learns() {
    heading(
        "LEARN a rule of 8 places",
        &["Each call reads the flat row and checks it, reads the rule, and fills the chart for the longer grammar."],
    );
    for (name, book, rules) in [
        ("0 rules", vec![0x10, 0, 0x20, 0, 1, 0, 0x40, 65, 0x30, 0, 0x50], 1),
        ("127 rules of ranges", books::full_of_ranges(), 128),
    ] {
        let (front, rule) = parted(&book, rules);
        let (flat, longer, input) = (loaded(&front), loaded(&book), [65; INPUT]);
        let (mut x, mut y) = (chart(), chart());
        for count in [INPUT, 0] {
            let (hand, input) = (held(count as u16), &input[..count]);
            let (code, row) = both(&flat, &hand, &rule);
            assert!(code < 2 && row == longer, "not the row of the whole book");
            line(
                &format!("learn with {count} marks: {name}"),
                pair(|| learn::<Proved>(&flat, &hand, &rule, &mut x), || learn::<Plain>(&flat, &hand, &rule, &mut y)),
            );
            line(
                &format!("fill {count} marks with the longer book: {name}"),
                pair(|| fill::<Proved>(&longer, &hand, input, &mut x), || fill::<Plain>(&longer, &hand, input, &mut y)),
            );
            let rounds = if count == 0 { 3001 } else { 301 };
            let (d, error) = difference(
                || learn::<Proved>(&flat, &hand, &rule, &mut x),
                || fill::<Proved>(&longer, &hand, input, &mut y),
                rounds,
            );
            println!("    the fill aside: {} ± {}", shown(d), shown(error));
        }
        let (hand, cut) = (held(0), &rule[..rule.len() - 1]);
        assert_eq!(both(&flat, &hand, cut), (Refusal::UnexpectedEnd.code(), flat));
        line(
            &format!("learn refused 1: {name}"),
            pair(|| learn::<Proved>(&flat, &hand, cut, &mut x), || learn::<Plain>(&flat, &hand, cut, &mut y)),
        );
    }
}
