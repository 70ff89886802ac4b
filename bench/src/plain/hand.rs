//! The plate in hand as the row of 74 numbers that C passes: 64 marks, then their count, then the year, and then 8
//! points.

use super::points::POINTS;
use super::recognizer::Recognizer;
use super::INPUT;

pub const HAND: usize = INPUT + 2 + POINTS;

pub type Hand = [u16; HAND];

/// The state in a row. If a used mark is no byte, point 0 becomes 255, which check 14 refuses.
pub fn read(hand: &Hand) -> Recognizer {
    let count = hand[INPUT] as usize;
    let large = hand[..count.min(INPUT)].iter().any(|&mark| mark > 255);
    let mut bytes = [0; INPUT];
    for (byte, &mark) in bytes.iter_mut().zip(hand) {
        *byte = mark.min(255) as u8;
    }
    let mut points = [0; POINTS];
    for (point, &number) in points.iter_mut().zip(&hand[INPUT + 2..]) {
        *point = number.min(255) as u8;
    }
    if large {
        points[0] = 255;
    }
    Recognizer { bytes, count, year: hand[INPUT + 1], points }
}

pub fn write(state: &Recognizer, hand: &mut Hand) {
    for (mark, &byte) in hand.iter_mut().zip(&state.bytes) {
        *mark = byte.into();
    }
    hand[INPUT] = state.count as u16;
    hand[INPUT + 1] = state.year;
    for (number, &point) in hand[INPUT + 2..].iter_mut().zip(&state.points) {
        *number = point.into();
    }
}
