//! The plate in hand as a row: the check of a given one, and the hand with given marks.

use super::points;
use crate::reader::{Hand, FIRST_POINT, HAND, INPUT, YEAR};
use crate::switches::{fault, low_byte, Fault};

/// The used marks of a hand; None if its count is over 64, a used mark is over 255, or a set point is past its count. Its
/// year may be any.
pub fn marks(hand: &Hand) -> Option<Vec<u8>> {
    let count = usize::from(low_byte(hand[INPUT], Fault::HandCountByItsLowByte));
    let judged = match () {
        _ if fault(Fault::LastMarkOfAHandUnjudged) => count.saturating_sub(1),
        _ if fault(Fault::Check14ReadsUnusedMarks) => INPUT,
        _ => count,
    };
    let most = 255 + u16::from(fault(Fault::Mark256InAHandAccepted));
    let over = |mark: &u16| low_byte(*mark, Fault::HandMarksByTheirLowByte) > most;
    let year_over = fault(Fault::YearOfAHandJudged) && hand[YEAR] > 255;
    if count > INPUT || hand[..judged].iter().any(over) || year_over || points::past(hand) {
        return None;
    }
    Some(hand[..count].iter().map(|mark| *mark as u8).collect())
}

/// The hand with these marks, and with the year and the points of another one.
pub fn keeping(marks: &[u8], other: &Hand) -> Hand {
    let mut hand = of(marks, other[YEAR]);
    hand[FIRST_POINT..].copy_from_slice(&other[FIRST_POINT..]);
    hand
}

/// The hand with these marks, opened in this year: everything unused is zero, and no point is set.
pub fn of(marks: &[u8], year: u16) -> Hand {
    let mut hand = [0; HAND];
    for (number, mark) in marks.iter().enumerate() {
        hand[number] = u16::from(*mark);
    }
    hand[INPUT] = marks.len() as u16;
    hand[YEAR] = year;
    hand
}
