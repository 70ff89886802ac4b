//! What points cost: setting one, and returning to it, beside a take that is refused with 15.

use crate::books;
use crate::calls::{chart, Flat, Hand, Plain, Proved, Reader, YEAR};
use crate::plain::hand::HAND;
use crate::plain::{Refusal, INPUT};
use crate::timing::{difference, pair, shown};
use crate::{heading, line, loaded, sink};
use std::hint::black_box;

/// A full hand whose point 7 is at this count.
fn full(count: u16) -> Hand {
    let mut hand = [65; HAND];
    (hand[INPUT], hand[INPUT + 1]) = (INPUT as u16, YEAR);
    hand[INPUT + 2..].fill(0);
    hand[HAND - 1] = count + 1;
    hand
}

/// A take refused with 15.
fn refused<R: Reader>(flat: &Flat, hand: &mut Hand, sheet: &mut [u32]) {
    sink(R::take(black_box(flat), hand, 65, sheet));
}

fn set<R: Reader>(flat: &Flat, hand: &mut Hand, sheet: &mut [u32]) {
    sink(R::set_point(black_box(flat), hand, 7, sheet));
}

/// A return of a full hand. It gives back another hand, so each call has a copy.
fn returned<R: Reader>(flat: &Flat, hand: &Hand, sheet: &mut [u32]) {
    let mut hand = *hand;
    sink(R::return_to(black_box(flat), &mut hand, 7, sheet));
}

/// Both sides give the same answers and leave the same hands and charts.
fn both(flat: &Flat, found: &Hand) {
    let (mut h, mut k, mut x, mut y) = (*found, *found, chart(), chart());
    assert_eq!(Proved::take(flat, &mut h, 65, &mut x), Refusal::RecognizerFull.code());
    assert_eq!(Plain::take(flat, &mut k, 65, &mut y), Refusal::RecognizerFull.code());
    assert_eq!(Proved::set_point(flat, &mut h, 0, &x), Plain::set_point(flat, &mut k, 0, &y));
    assert!(h == k && x == y && x == chart(), "the hands differ");
    assert_eq!(Proved::return_to(flat, &mut h, 7, &mut x), Plain::return_to(flat, &mut k, 7, &mut y));
    assert!(h == k && x == y, "the charts differ");
}

/// A set and a return need no packing. The goal for both is the time of a refused take, plus 2 µs for clearing.
pub fn points() {
    heading(
        "POINTS of a full hand",
        &["Each call reads the flat row and checks it, as a take refused 15 does. A return clears the columns after the point."],
    );
    for (book, flat) in
        [("10 00 50", loaded(&[0x10, 0, 0x50])), ("128 rules of ranges", loaded(&books::full_of_ranges()))]
    {
        let (mut x, mut y) = (chart(), chart());
        let (mut h, mut k) = (full(0), full(0));
        line(
            &format!("take refused 15: {book}"),
            pair(|| refused::<Proved>(&flat, &mut h, &mut x), || refused::<Plain>(&flat, &mut k, &mut y)),
        );
        line(
            &format!("set a point: {book}"),
            pair(|| set::<Proved>(&flat, &mut h, &mut x), || set::<Plain>(&flat, &mut k, &mut y)),
        );
        for at in [64, 32, 0] {
            let found = full(at);
            both(&flat, &found);
            line(
                &format!("return from 64 marks to {at}: {book}"),
                pair(|| returned::<Proved>(&flat, &found, &mut x), || returned::<Plain>(&flat, &found, &mut y)),
            );
        }
        let (found, mut h) = (full(0), full(0));
        let said = |(d, error): (f64, f64)| format!("{} ± {}", shown(d), shown(error));
        let a = difference(|| set::<Proved>(&flat, &mut k, &mut y), || refused::<Proved>(&flat, &mut h, &mut x), 3001);
        let b =
            difference(|| returned::<Proved>(&flat, &found, &mut y), || refused::<Proved>(&flat, &mut h, &mut x), 3001);
        println!("    the refused take aside: set {}; return to 0 {}", said(a), said(b));
    }
}
