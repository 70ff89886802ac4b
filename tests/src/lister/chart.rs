//! The chart (sheet) by its definition: opening, and a column as the least sets over the chart as found.
//! Independently of that: which nonterminals derive which spans.

use super::depth::{empty_heights, heights_in};
use super::grammar::{Grammar, Symbol};
use crate::reader::CELLS;
use crate::switches::{fault, Fault};

/// For each position a and nonterminal k, the set of positions b, as bits, such that k derives the span from a up to,
/// but not including, b.
pub type Ends = Vec<[u128; 32]>;

/// The number of the cell (word) of the span from i to j.
pub fn cell(i: usize, j: usize) -> usize {
    65 * i + j
}

/// The positions in a set, as numbers.
pub fn members(mut set: u128) -> impl Iterator<Item = usize> {
    std::iter::from_fn(move || {
        let first = set.trailing_zeros() as usize;
        set &= set.wrapping_sub(1);
        (first < 128).then_some(first)
    })
}

/// All positions b such that the places cut the span from i to b into pieces, each a fitting terminal or a
/// nonterminal that derives its piece.
pub fn ends_of_row(places: &[Symbol], i: usize, input: &[u8], ends: &Ends) -> u128 {
    let mut here = 1_u128 << i;
    for (p, place) in places.iter().enumerate() {
        let only_blank = p == 0 && fault(Fault::BlankFirstPlaceOnlyBlank);
        let mut next = 0;
        for a in members(here) {
            match *place {
                Symbol::Nonterminal(k) if only_blank && ends[a][usize::from(k)] >> a & 1 == 1 => next |= 1 << a,
                Symbol::Nonterminal(k) => next |= ends[a][usize::from(k)],
                place if a < input.len() && place.fits(input[a]) => next |= 1 << (a + 1),
                _ => (),
            }
        }
        here = next;
    }
    here
}

/// Fills the cells of column n, where n is the number of terminals, for i = 0 to n, and no others. Pieces that end
/// before n are those of the chart as found; this includes an empty piece at a < n, which is cell (a, a). Pieces that
/// end at n come from this column. The column begins empty and grows until no rule adds anything: these are the least
/// sets.
pub fn fill_column(grammar: &Grammar, input: &[u8], chart: &mut [u32]) {
    let n = input.len();
    let mut ends: Ends = vec![[0; 32]; n + 1];
    let nullable = if fault(Fault::EmptyPieceFromTheNullableSet) { empty_heights(grammar) } else { [None; 32] };
    for a in 0..n {
        for b in a..n + usize::from(fault(Fault::ColumnNotCleared)) {
            for k in 0..32 {
                let from_the_set = a == b && fault(Fault::EmptyPieceFromTheNullableSet);
                if if from_the_set { nullable[k].is_some() } else { chart[cell(a, b)] >> k & 1 == 1 } {
                    ends[a][k] |= 1 << b;
                }
            }
        }
    }
    loop {
        let mut changed = false;
        for i in 0..=n {
            for (_, rule) in grammar.numbered() {
                let left = usize::from(rule.left);
                let derived = ends_of_row(&rule.places, i, input, &ends) >> n & 1 == 1;
                if derived && ends[i][left] >> n & 1 == 0 {
                    ends[i][left] |= 1 << n;
                    changed = true;
                }
            }
        }
        if !changed || fault(Fault::OnePassColumn) {
            break;
        }
    }
    if fault(Fault::IdlesAfterTheFirst) && n > 1 {
        return;
    }
    for i in 0..=n - usize::from(fault(Fault::ForgetsTheEmptySpan)) {
        chart[cell(i, n)] = (0..32).filter(|k| ends[i][*k] >> n & 1 == 1).map(|k| 1 << k).sum();
    }
}

/// Opening fills all cells: the nullable nonterminals for the span 0 to 0, and zero elsewhere.
pub fn open(grammar: &Grammar, chart: &mut [u32]) {
    let heights = if fault(Fault::OnePassInOpening) { heights_in(grammar, 1) } else { empty_heights(grammar) };
    chart[..CELLS - usize::from(fault(Fault::OpeningLeavesTheLastWord))].fill(0);
    chart[0] = (0..32).filter(|k| heights[*k].is_some()).map(|k| 1 << k).sum();
}

/// Opening and then taking the whole input.
pub fn fill(grammar: &Grammar, input: &[u8], chart: &mut [u32]) {
    if fault(Fault::EmptyInputLeavesTheChart) && input.is_empty() {
        return;
    }
    open(grammar, chart);
    for n in 1..=input.len() {
        fill_column(grammar, &input[..n], chart);
    }
}

/// Which nonterminals derive which spans of the input, by trees of any size: the least sets over all spans at once.
/// Uses neither `open` nor `fill_column`.
pub fn derives(grammar: &Grammar, input: &[u8]) -> Ends {
    let mut ends: Ends = vec![[0; 32]; input.len() + 1];
    loop {
        let before = ends.clone();
        for i in 0..=input.len() {
            for (_, rule) in grammar.numbered() {
                ends[i][usize::from(rule.left)] |= ends_of_row(&rule.places, i, input, &ends);
            }
        }
        if ends == before {
            return ends;
        }
    }
}
