//! How many derivations there are.

use crate::refusal::done;
use crate::{sys, Grammar, Refusal};
use std::fmt;

// What the lent place holds before the library writes it. No count is so large, so a place that the library fails to write is never
// mistaken for a result.
const NO_COUNT: usize = usize::MAX;

/// How many derivations an input has. Counts are ordered by size, `More` last. A count is displayed as a number or as `more`.
#[derive(Clone, Copy, Debug, PartialEq, Eq, PartialOrd, Ord, Hash)]
pub enum Count {
    /// This many, at most 4,096; 0 if the input has no tree at all.
    Exactly(usize),
    /// More than 4,096.
    More,
}

impl fmt::Display for Count {
    fn fmt(&self, f: &mut fmt::Formatter<'_>) -> fmt::Result {
        match self {
            Count::Exactly(count) => count.fmt(f),
            Count::More => f.pad("more"),
        }
    }
}

/// How many derivations the input has in a year. The chart is filled for the input and the year.
///
/// ```
/// # fn main() -> Result<(), filbozseg::Error> {
/// use filbozseg::{count, load, Count, CELLS};
/// // 0 -> 0 0, 0 -> A
/// let grammar = load(b"\x10\x00\x20\x00\x00\x00\x30\x00\x30\x00\x20\x00\x00\x00\x40A\x50")?;
/// let mut chart = vec![0; CELLS];
/// assert_eq!(count(&grammar, &[b'A'; 9], 2008, &mut chart)?, Count::Exactly(1430));
/// assert_eq!(count(&grammar, &[b'A'; 10], 2008, &mut chart)?, Count::More);
/// # Ok(())
/// # }
/// ```
///
/// The call needs as much stack as [`first`](crate::first).
///
/// # Errors
///
/// Refusals 8, 9 and 10, in this order, with the chart left as found; then 13 if the input has trees, but none of at most 512 nodes, with
/// the chart filled.
pub fn count(grammar: &Grammar, input: &[u8], year: u16, chart: &mut [u32]) -> Result<Count, Refusal> {
    let mut count = NO_COUNT;
    // SAFETY: the pointers point to live values of these lengths, and only this call borrows those that are written.
    let code = unsafe {
        let (cells, size) = (chart.as_mut_ptr(), chart.len());
        sys::filbozseg_count(grammar.row(), input.as_ptr(), input.len(), year, cells, size, &mut count)
    };
    match code {
        2 => Ok(Count::More),
        code => done(code).map(|()| Count::Exactly(count)),
    }
}
