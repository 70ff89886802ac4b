//! Hands as a caller may pass them: with room, full, or refused.

use super::lent::number;
use super::Comparison;
use crate::reader::{Answer, FlatGrammar, Hand, Reader, FIRST_POINT, INPUT, POINTS};

/// Opens in a year, given what the hand holds before: returns the answer and the hand afterwards.
pub(super) fn opened(
    r: &dyn Reader,
    grammar: &FlatGrammar,
    year: u16,
    mut hand: Hand,
    chart: &mut [u32],
) -> (Answer, Hand) {
    (r.open(grammar, year, &mut hand, chart), hand)
}

/// Takes a terminal, given what the hand holds before: returns the answer and the hand afterwards.
pub(super) fn taken(
    r: &dyn Reader,
    grammar: &FlatGrammar,
    mut hand: Hand,
    terminal: u8,
    chart: &mut [u32],
) -> (Answer, Hand) {
    (r.take(grammar, &mut hand, terminal, chart), hand)
}

impl Comparison<'_> {
    /// A hand with any year, rubbish in its unused marks and points up to its count, and its sort: 0 with room, 1 full, 2 a
    /// count over 64, 3 a used mark over 255, 4 a set point past the count.
    pub(super) fn hand(&mut self, which: usize) -> (Hand, String) {
        let rng = &mut self.rng;
        let mut hand: Hand = std::array::from_fn(|_| number(rng));
        let count = match which {
            0 => rng.pick(&[0, 1, 2, 5, 8, 30, 62, 63]),
            1 => INPUT,
            2 => match rng.below(3) {
                0 => rng.pick(&[65, 66, 128, 255]),
                1 => 256 * rng.within(1, 255) + rng.within(0, INPUT),
                _ => rng.pick(&[256, 257, 320, 65_535]),
            },
            3 => rng.pick(&[1, 2, 5, 8, 30, 63, 64]),
            _ => rng.pick(&[0, 1, 2, 5, 8, 30, 62, 63, 64]),
        };
        hand[INPUT] = count as u16;
        for point in &mut hand[FIRST_POINT..] {
            let set = rng.below(count.min(INPUT) + 1) as u16 + 1;
            *point = rng.pick(&[0, 0, set, set, count.min(INPUT) as u16 + 1]);
        }
        for mark in &mut hand[..count.min(INPUT)] {
            *mark = rng.below(256) as u16;
        }
        let what = match which {
            2 if count % 256 <= INPUT => "a count over 64, its low byte in range",
            2 => "a count over 64",
            3 => {
                let any = rng.below(count);
                let at = rng.pick(&[0, count - 1, any]);
                let over = 256 * rng.within(1, 255) as u16 + hand[at];
                hand[at] = rng.pick(&[256, 257, over, over, 65_535]);
                match (hand[at], at + 1 == count) {
                    (256, _) => "a used mark of 256",
                    (65_535, _) => "a used mark of 65,535",
                    (_, true) => "a used mark over 255, the last",
                    (_, false) => "a used mark over 255, not the last",
                }
            }
            4 => {
                let any = rng.below(POINTS);
                let at = FIRST_POINT + rng.pick(&[0, POINTS - 1, any]);
                let (one, low) = (count as u16 + 2, rng.below(count + 2) as u16);
                let up = rng.within(count + 2, 255) as u16;
                let over = 256 * rng.within(1, 255) as u16 + low;
                hand[at] = rng.pick(&[one, one, up, 255, 256, over, 65_535]);
                match hand[at] {
                    point if point == one => "a point one past the count",
                    point if point <= 255 => "a point past the count",
                    65_535 => "a point of 65,535",
                    _ => "a point over 255, its low byte in range",
                }
            }
            _ => "a hand let through",
        };
        (hand, what.to_string())
    }
}
