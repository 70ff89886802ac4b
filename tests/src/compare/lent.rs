//! Counts of outcomes, rows to lend with canaries around them, and rubbish to fill what is lent for writing.

use crate::books::Rng;
use crate::reader::{FlatGrammar, Hand};
use std::collections::BTreeMap;
use std::fmt::Debug;

/// Canaries before and after everything lent.
const GUARD: usize = 8;

/// How often each outcome came up.
#[derive(Clone, Default)]
pub struct Counts(pub BTreeMap<String, u64>);

impl Counts {
    pub fn add(&mut self, name: &str) {
        *self.0.entry(name.to_string()).or_default() += 1;
    }
    pub fn get(&self, name: &str) -> u64 {
        self.0.get(name).copied().unwrap_or(0)
    }
    pub fn merge(&mut self, other: &Counts) {
        for (name, count) in &other.0 {
            *self.0.entry(name.clone()).or_default() += count;
        }
    }
}

/// A row to lend, with canaries on both sides.
#[derive(Clone, PartialEq)]
pub struct Lent<T> {
    pub(super) all: Vec<T>,
}

impl<T: Copy + PartialEq + Debug> Lent<T> {
    /// A row of the given length; `draw` fills it and the canaries.
    pub fn filled(length: usize, mut draw: impl FnMut() -> T) -> Lent<T> {
        Lent { all: (0..length + 2 * GUARD).map(|_| draw()).collect() }
    }
    pub fn of(row: &[T], canary: T) -> Lent<T> {
        let guard = [canary; GUARD];
        Lent { all: [&guard, row, &guard].concat() }
    }
    pub fn part(&self) -> &[T] {
        &self.all[GUARD..self.all.len() - GUARD]
    }
    pub fn part_mut(&mut self) -> &mut [T] {
        let end = self.all.len() - GUARD;
        &mut self.all[GUARD..end]
    }
    /// The first difference, including the canaries, if there is one.
    pub(super) fn against(&self, expected: &Lent<T>, what: &str) -> Result<(), String> {
        match self.all.iter().zip(&expected.all).position(|(a, b)| a != b) {
            None => Ok(()),
            Some(at) => {
                let (got, due, index) = (self.all[at], expected.all[at], at as i64 - GUARD as i64);
                Err(format!(
                    "{what}: index {index} holds {got:?}, due {due:?} (row {}, column {})",
                    index / 65,
                    index % 65
                ))
            }
        }
    }
}

/// A chart with rubbish in it.
pub fn rubbish(rng: &mut Rng, length: usize) -> Lent<u32> {
    Lent::filled(length, || rng.draw() as u32)
}

pub(super) fn same<T: PartialEq + Debug>(what: &str, got: T, due: T) -> Result<(), String> {
    if got == due {
        Ok(())
    } else {
        Err(format!("{what}: got {got:?}, due {due:?}"))
    }
}

/// Rubbish for a lent number: anything but zero, and in half of the cases more than a byte.
pub(super) fn number(rng: &mut Rng) -> u16 {
    let most = rng.pick(&[64, 255, 65_535, 65_535]);
    rng.within(1, most) as u16
}

/// A row of rubbish, into which a grammar is written.
pub(super) fn row(rng: &mut Rng) -> FlatGrammar {
    std::array::from_fn(|_| number(rng))
}

/// A row of rubbish, into which a hand is written.
pub(super) fn hand(rng: &mut Rng) -> Hand {
    std::array::from_fn(|_| number(rng))
}

/// Rubbish for an offset or a number of nodes: larger than any result here.
pub(super) fn offset(rng: &mut Rng) -> usize {
    1 << 40 | rng.draw() as usize
}

/// Rubbish for a length: larger than any result, positive or negative.
pub(super) fn tenths(rng: &mut Rng) -> i32 {
    let far = rng.within(2_000_000, i32::MAX as usize) as i32;
    if rng.one_in(2) {
        far
    } else {
        -far
    }
}
