//! Years for the rules of random books (request U9 of document 02), and damage to them.

use super::{Draft, Rng};

/// Years to read the inputs of a book without years in.
pub(super) const ALL_YEARS: [u16; 3] = [0, 2008, u16::MAX];

/// Gives years to half of the rules of two books in three: one year, spans that adjoin or overlap around one year, or all
/// years. Returns the years to read the inputs in: that one, those at and beside the ends of some rule's span, the first
/// and the last.
pub(super) fn date(rng: &mut Rng, draft: &mut Draft) -> Vec<u16> {
    if rng.one_in(3) {
        return ALL_YEARS.to_vec();
    }
    let about: u16 = rng.pick(&[1, 255, 256, 2008, 2008, 65_280, 65_534]);
    let far = rng.pick(&[1, 2, 10, 300]);
    for number in 0..draft.rules.len() {
        if rng.one_in(2) {
            let (before, after) = (about.saturating_sub(far), about.saturating_add(far));
            let span = match rng.below(8) {
                0 => (about, about),
                1 => (rng.pick(&[0, before]), about - 1),
                2 => (about, rng.pick(&[after, u16::MAX])),
                3 => (before, about),
                4 => (rng.pick(&[0, before]), after),
                5 => (before, rng.pick(&[after, u16::MAX])),
                _ => (0, u16::MAX),
            };
            draft.years.insert(number, span);
        }
    }
    let spans: Vec<(u16, u16)> = draft.years.values().copied().collect();
    let (first, last) = if spans.is_empty() { (0, u16::MAX) } else { rng.pick(&spans) };
    let mut years = vec![about, first, last, first.saturating_sub(1), last.saturating_add(1), 0, u16::MAX];
    years.sort();
    years.dedup();
    years
}

/// A command 21; one in three has the first year above the last, and one in eight a kind over 31.
pub(super) fn dated_rule(rng: &mut Rng) -> [u8; 8] {
    let first: u16 = rng.pick(&[0, 1, 255, 256, 2008, 65_535]);
    let last = rng.pick(&[first, first.wrapping_add(1), first.wrapping_sub(1)]);
    let ([f0, f1], [l0, l1]) = (first.to_le_bytes(), last.to_le_bytes());
    [0x21, if rng.one_in(8) { 32 } else { rng.below(4) as u8 }, 5, 0, f0, f1, l0, l1]
}

/// Exchanges the two years of a command 21, or makes them equal or differ by one.
pub(super) fn exchange_years(rng: &mut Rng, book: &mut [u8]) {
    let rules: Vec<usize> = (7..book.len()).filter(|at| book[at - 7] == 0x21).map(|at| at - 3).collect();
    if !rules.is_empty() {
        let at = rng.pick(&rules);
        let (one, other) = book[at..at + 4].split_at_mut(2);
        match rng.below(4) {
            0 => one.copy_from_slice(other),
            1 => one.copy_from_slice(&u16::from_le_bytes([other[0], other[1]]).wrapping_add(1).to_le_bytes()),
            _ => one.swap_with_slice(other),
        }
    }
}
