//! The lister's search for the nullable nonterminals (request U3 of document 02): against the reader's opening, and
//! against a table.

use super::lent::{self, same};
use super::Comparison;
use crate::books::Draft;
use crate::books::Sym::{self, N, T};
use crate::lister::grammar;
use crate::lister::search::{search, Sought};
use crate::reader::{record, FlatGrammar, RULES, YEARS};

impl Comparison<'_> {
    /// The lister's search finds what the reader's opening writes to cell (0, 0) if all rules are in force, in at most one
    /// pass more than finds.
    pub(super) fn searches(&mut self, flat: &FlatGrammar) -> Result<(), String> {
        let Sought { set, passes } = search(&grammar::from_flat(flat).expect("a loaded grammar passes check 8"));
        let (mut chart, mut hand) = (self.chart(), lent::hand(&mut self.rng));
        self.reader.open(&in_all_years(flat), 0, &mut hand, chart.part_mut());
        same("search: its set, and cell (0, 0) of the opening", set, chart.part()[0])?;
        let finds = set.count_ones();
        if passes > finds + 1 {
            return Err(format!("search: {passes} passes with {finds} finds"));
        }
        self.counts.add(match passes {
            1 => "search: 1 pass",
            2 => "search: 2 passes",
            3 => "search: 3 passes",
            _ => "search: 4 or more passes",
        });
        if finds > 1 && passes == finds + 1 {
            self.counts.add("search: two or more finds, one in each pass");
        }
        Ok(())
    }
}

/// The row in which all rules hold in all years.
fn in_all_years(flat: &FlatGrammar) -> FlatGrammar {
    let mut row = *flat;
    (0..RULES).for_each(|rule| row[record(rule) + YEARS..record(rule) + YEARS + 2].copy_from_slice(&[0, u16::MAX]));
    row
}

/// The books of the table of request U3, each with what its search gives back. The last has a rule that is out of force in
/// year 0.
fn table() -> Vec<(Draft, Sought)> {
    let line = |rules: Vec<(u8, Vec<Sym>)>, set: u32, passes: u32| {
        let rules = rules.into_iter().map(|(left, places)| (left, 0, places)).collect();
        (Draft { start: 0, rules, ..Draft::default() }, Sought { set, passes })
    };
    // 0 -> nothing, 1 -> 0, .., 31 -> 30
    let chain: Vec<(u8, Vec<Sym>)> = (0..32u8).map(|k| (k, k.checked_sub(1).map(N).into_iter().collect())).collect();
    let reversed = chain.iter().rev().cloned().collect();
    let mut dated = line(vec![(0, vec![]), (1, vec![N(0)])], 0b11, 2);
    dated.0.years.insert(0, (1998, 2007));
    vec![
        line(vec![], 0, 1),
        line(vec![(0, vec![T(b'A')])], 0, 1),
        line(vec![(0, vec![N(0)])], 0, 1),
        line(vec![(0, vec![])], 0b1, 2),
        line(chain, u32::MAX, 2),
        line(reversed, u32::MAX, 33),
        line(vec![(1, vec![N(0), N(0)]), (0, vec![N(2)]), (2, vec![])], 0b111, 4),
        line(vec![(2, vec![N(1), T(b'A')]), (1, vec![N(0)]), (0, vec![])], 0b11, 3),
        dated,
    ]
}

/// Compares a search, from the bytes of a book to set and passes, with the table.
pub fn compare_searches(search: impl Fn(&[u8]) -> (u32, u32)) -> Result<(), String> {
    for (draft, due) in table() {
        let book = draft.bytes();
        same(&format!("search: set and passes of book {book:02X?}"), search(&book), (due.set, due.passes))?;
    }
    Ok(())
}
