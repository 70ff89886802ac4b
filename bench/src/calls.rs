//! The calls that are timed, once over the proved library and once over the plain code, with the same arguments. A
//! grammar is a flat row, which each call reads anew. An answer is a code: 0 no; 1 yes, loaded, measured, written,
//! handed out or counted; 2 more; or a refusal's code. The library's functions are those that the wrapper declares.

use crate::plain::enumerator;
use crate::plain::flat::{self, FLAT};
pub use crate::plain::hand::Hand;
use crate::plain::hand::{self, HAND};
use crate::plain::recognizer::Recognizer;
use crate::plain::{checker, loader, names, recognizer, words, Grammar, Refusal, CHART, INPUT};
use filbozseg::sys;

pub type Flat = [u16; FLAT];

/// The year of each call. The timed books hold in all years.
pub const YEAR: u16 = 0;

pub trait Reader {
    fn load(book: &[u8], flat: &mut Flat, offset: &mut usize) -> u32;
    fn name(book: &[u8], rule: usize, offset: &mut usize, length: &mut usize) -> u32;
    fn open(flat: &Flat, hand: &mut Hand, chart: &mut [u32]) -> u32;
    fn take(flat: &Flat, hand: &mut Hand, byte: u8, chart: &mut [u32]) -> u32;
    fn set_point(flat: &Flat, hand: &mut Hand, name: usize, chart: &[u32]) -> u32;
    fn return_to(flat: &Flat, hand: &mut Hand, name: usize, chart: &mut [u32]) -> u32;
    fn learn(flat: &mut Flat, hand: &mut Hand, bytes: &[u8], chart: &mut [u32], offset: &mut usize) -> u32;
    fn check(flat: &Flat, input: &[u8], offered: &[u16], chart: &mut [u32]) -> u32;
    fn length(flat: &Flat, input: &[u8], offered: &[u16], chart: &mut [u32], tenths: &mut i32) -> u32;
    fn words(flat: &Flat, input: &[u8], offered: &[u16], chart: &mut [u32], text: &mut [u8], bytes: &mut usize) -> u32;
    fn same_build(flat: &Flat, input: &[u8], a: &[u16], b: &[u16], chart: &mut [u32]) -> u32;
    fn first(flat: &Flat, input: &[u8], chart: &mut [u32], out: &mut [u16], nodes: &mut usize) -> u32;
    fn next(flat: &Flat, input: &[u8], offered: &[u16], chart: &mut [u32], out: &mut [u16], nodes: &mut usize) -> u32;
    fn count(flat: &Flat, input: &[u8], chart: &mut [u32], count: &mut usize) -> u32;

    /// Opening, and then taking each byte of the input: the answers.
    fn feed(flat: &Flat, input: &[u8], hand: &mut Hand, chart: &mut [u32]) -> [u32; INPUT + 1] {
        let mut answers = [0; INPUT + 1];
        answers[0] = Self::open(flat, hand, chart);
        for (answer, &byte) in answers[1..].iter_mut().zip(input) {
            *answer = Self::take(flat, hand, byte, chart);
        }
        answers
    }
}

pub struct Proved;

// SAFETY of each call: the arrays and slices come from Rust references, so they have the lengths that are passed, and
// those that are written overlap nothing.
impl Reader for Proved {
    fn load(book: &[u8], flat: &mut Flat, offset: &mut usize) -> u32 {
        unsafe { sys::filbozseg_load(book.as_ptr(), book.len(), flat, offset) }
    }

    fn name(book: &[u8], rule: usize, offset: &mut usize, length: &mut usize) -> u32 {
        unsafe { sys::filbozseg_name(book.as_ptr(), book.len(), rule, offset, length) }
    }

    fn open(flat: &Flat, hand: &mut Hand, chart: &mut [u32]) -> u32 {
        unsafe { sys::filbozseg_open(flat, YEAR, hand, chart.as_mut_ptr(), chart.len()) }
    }

    fn take(flat: &Flat, hand: &mut Hand, byte: u8, chart: &mut [u32]) -> u32 {
        unsafe { sys::filbozseg_take(flat, hand, byte, chart.as_mut_ptr(), chart.len()) }
    }

    fn set_point(flat: &Flat, hand: &mut Hand, name: usize, chart: &[u32]) -> u32 {
        unsafe { sys::filbozseg_set_point(flat, hand, name, chart.as_ptr(), chart.len()) }
    }

    fn return_to(flat: &Flat, hand: &mut Hand, name: usize, chart: &mut [u32]) -> u32 {
        unsafe { sys::filbozseg_return_to(flat, hand, name, chart.as_mut_ptr(), chart.len()) }
    }

    fn learn(flat: &mut Flat, hand: &mut Hand, bytes: &[u8], chart: &mut [u32], offset: &mut usize) -> u32 {
        let (x, cells) = (chart.as_mut_ptr(), chart.len());
        unsafe { sys::filbozseg_learn(flat, hand, bytes.as_ptr(), bytes.len(), x, cells, offset) }
    }

    fn check(flat: &Flat, input: &[u8], offered: &[u16], chart: &mut [u32]) -> u32 {
        let (w, e) = (input.as_ptr(), offered.as_ptr());
        unsafe { sys::filbozseg_check(flat, w, input.len(), YEAR, e, offered.len(), chart.as_mut_ptr(), chart.len()) }
    }

    fn length(flat: &Flat, input: &[u8], offered: &[u16], chart: &mut [u32], tenths: &mut i32) -> u32 {
        let (w, e) = (input.as_ptr(), offered.as_ptr());
        unsafe {
            sys::filbozseg_length(flat, w, input.len(), YEAR, e, offered.len(), chart.as_mut_ptr(), chart.len(), tenths)
        }
    }

    fn words(flat: &Flat, input: &[u8], offered: &[u16], chart: &mut [u32], text: &mut [u8], bytes: &mut usize) -> u32 {
        let (w, e) = (input.as_ptr(), offered.as_ptr());
        let ((x, cells), (t, room)) = ((chart.as_mut_ptr(), chart.len()), (text.as_mut_ptr(), text.len()));
        unsafe { sys::filbozseg_words(flat, w, input.len(), YEAR, e, offered.len(), x, cells, t, room, bytes) }
    }

    fn same_build(flat: &Flat, input: &[u8], a: &[u16], b: &[u16], chart: &mut [u32]) -> u32 {
        let (w, x, y) = (input.as_ptr(), a.as_ptr(), b.as_ptr());
        unsafe {
            let (g, sheet) = (flat, chart.as_mut_ptr());
            sys::filbozseg_same_build(g, w, input.len(), YEAR, x, a.len(), y, b.len(), sheet, chart.len())
        }
    }

    fn first(flat: &Flat, input: &[u8], chart: &mut [u32], out: &mut [u16], nodes: &mut usize) -> u32 {
        let (w, sheet, e) = (input.as_ptr(), chart.as_mut_ptr(), out.as_mut_ptr());
        unsafe { sys::filbozseg_first(flat, w, input.len(), YEAR, sheet, chart.len(), e, out.len(), nodes) }
    }

    fn next(flat: &Flat, input: &[u8], offered: &[u16], chart: &mut [u32], out: &mut [u16], nodes: &mut usize) -> u32 {
        let (w, e) = (input.as_ptr(), offered.as_ptr());
        let ((x, cells), (o, numbers)) = ((chart.as_mut_ptr(), chart.len()), (out.as_mut_ptr(), out.len()));
        unsafe { sys::filbozseg_next(flat, w, input.len(), YEAR, e, offered.len(), x, cells, o, numbers, nodes) }
    }

    fn count(flat: &Flat, input: &[u8], chart: &mut [u32], count: &mut usize) -> u32 {
        let (w, x) = (input.as_ptr(), chart.as_mut_ptr());
        unsafe { sys::filbozseg_count(flat, w, input.len(), YEAR, x, chart.len(), count) }
    }
}

pub struct Plain;

fn code(answer: Result<bool, Refusal>) -> u32 {
    answer.map_or_else(Refusal::code, u32::from)
}

/// Writes the number of an answer that has one; `none` is the code of the answer that has none.
fn written(answer: Result<Option<usize>, Refusal>, none: u32, number: &mut usize) -> u32 {
    match answer {
        Ok(Some(given)) => {
            *number = given;
            1
        }
        Ok(None) => none,
        Err(refusal) => refusal.code(),
    }
}

/// A call on the hand of a row, which a refused call leaves as found.
fn moved(hand: &mut Hand, call: impl FnOnce(&mut Recognizer) -> Result<bool, Refusal>) -> u32 {
    let mut state = hand::read(hand);
    let answer = call(&mut state);
    if answer.is_ok() {
        hand::write(&state, hand);
    }
    code(answer)
}

impl Reader for Plain {
    fn load(book: &[u8], flat: &mut Flat, offset: &mut usize) -> u32 {
        match loader::load(book) {
            Ok(g) => {
                flat::write(&g, flat);
                1
            }
            Err((refusal, at)) => {
                flat::write(&Grammar::ZERO, flat);
                *offset = at;
                refusal.code()
            }
        }
    }

    fn name(book: &[u8], rule: usize, offset: &mut usize, length: &mut usize) -> u32 {
        let Some(part) = names::lookup(book, rule) else {
            return 0;
        };
        (*offset, *length) = (part.start, part.len());
        1
    }

    fn open(flat: &Flat, hand: &mut Hand, chart: &mut [u32]) -> u32 {
        *hand = [0; HAND];
        code(recognizer::open(&flat::read(flat), YEAR, chart))
    }

    fn take(flat: &Flat, hand: &mut Hand, byte: u8, chart: &mut [u32]) -> u32 {
        moved(hand, |state| state.take(&flat::read(flat), byte, chart))
    }

    fn set_point(flat: &Flat, hand: &mut Hand, name: usize, chart: &[u32]) -> u32 {
        moved(hand, |state| state.set_point(&flat::read(flat), name, chart))
    }

    fn return_to(flat: &Flat, hand: &mut Hand, name: usize, chart: &mut [u32]) -> u32 {
        moved(hand, |state| state.return_to(&flat::read(flat), name, chart))
    }

    fn learn(flat: &mut Flat, hand: &mut Hand, bytes: &[u8], chart: &mut [u32], offset: &mut usize) -> u32 {
        let mut state = hand::read(hand);
        match state.learn(&flat::read(flat), bytes, chart) {
            Ok((longer, complete)) => {
                flat::write(&longer, flat);
                hand::write(&state, hand);
                complete.into()
            }
            Err((refusal, at)) => {
                *offset = at;
                refusal.code()
            }
        }
    }

    fn check(flat: &Flat, input: &[u8], offered: &[u16], chart: &mut [u32]) -> u32 {
        code(checker::check(&flat::read(flat), input, YEAR, offered, chart))
    }

    fn length(flat: &Flat, input: &[u8], offered: &[u16], chart: &mut [u32], tenths: &mut i32) -> u32 {
        match checker::length(&flat::read(flat), input, YEAR, offered, chart) {
            Ok(measured) => {
                *tenths = measured;
                1
            }
            Err(refusal) => refusal.code(),
        }
    }

    fn words(flat: &Flat, input: &[u8], offered: &[u16], chart: &mut [u32], text: &mut [u8], bytes: &mut usize) -> u32 {
        written(words::words(&flat::read(flat), input, YEAR, offered, chart, text).map(Some), 0, bytes)
    }

    fn same_build(flat: &Flat, input: &[u8], a: &[u16], b: &[u16], chart: &mut [u32]) -> u32 {
        code(checker::same_build(&flat::read(flat), input, YEAR, a, b, chart))
    }

    fn first(flat: &Flat, input: &[u8], chart: &mut [u32], out: &mut [u16], nodes: &mut usize) -> u32 {
        written(enumerator::first(&flat::read(flat), input, YEAR, chart, out), 0, nodes)
    }

    fn next(flat: &Flat, input: &[u8], offered: &[u16], chart: &mut [u32], out: &mut [u16], nodes: &mut usize) -> u32 {
        written(enumerator::next(&flat::read(flat), input, YEAR, offered, chart, out), 0, nodes)
    }

    fn count(flat: &Flat, input: &[u8], chart: &mut [u32], count: &mut usize) -> u32 {
        written(enumerator::count(&flat::read(flat), input, YEAR, chart), 2, count)
    }
}

/// A hand to open: what it holds is no hand.
pub fn hand() -> Hand {
    [0xbeef; HAND]
}

pub fn chart() -> Vec<u32> {
    vec![0xdead_beef; CHART]
}

#[cfg(test)]
mod tests;
