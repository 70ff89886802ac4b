//! The first readings of a plate, in order, without making the whole list. Every tree is tried from its front, first
//! the smaller cover and then the smaller rule.

use crate::lister::chart::{derives, ends_of_row, members, Ends};
use crate::lister::grammar::{Grammar, Rule, Symbol};
use crate::lister::listing::TooLarge;
use crate::lister::trees::Row;
use std::rc::Rc;

/// A node whose places from `place` on are still to be filled, from `at` to its end; then come the nodes that wait
/// after it.
struct Open {
    rule: usize,
    place: usize,
    at: usize,
    begin: usize,
    end: usize,
    /// Its own nonterminal and those of the nodes above it over the same span.
    above: u32,
    after: Option<Rc<Open>>,
}

struct Search<'a> {
    grammar: &'a Grammar,
    input: &'a [u8],
    derives: Ends,
    limit: usize,
    most: usize,
    steps_left: u64,
    row: Row,
    found: Vec<Row>,
}

/// The first `most` rows of the list of all readings, or the whole list if it is shorter. An error if finding them
/// takes too many steps.
pub fn in_order(grammar: &Grammar, input: &[u8], limit: usize, most: usize, steps: u64) -> Result<Vec<Row>, TooLarge> {
    let derives = derives(grammar, input);
    let mut search =
        Search { grammar, input, derives, limit, most, steps_left: steps, row: Row::new(), found: Vec::new() };
    search.node(grammar.start, 0, input.len(), 0, None)?;
    Ok(search.found)
}

impl Search<'_> {
    /// Tries each rule for a node, and then everything that waits after it.
    fn node(&mut self, k: u8, i: usize, j: usize, above: u32, after: Option<Rc<Open>>) -> Result<(), TooLarge> {
        if above >> k & 1 == 1 || self.row.len() == 2 * self.limit {
            return Ok(()); // superfluous recursion, or one node too many
        }
        let grammar = self.grammar;
        for (rule, Rule { places, .. }) in grammar.numbered().filter(|(_, rule)| rule.left == k) {
            if self.reaches(places, i, j) {
                self.row.extend([(j - i) as u16, rule as u16]);
                let (above, after) = (above | 1 << k, after.clone());
                self.rest(Some(Rc::new(Open { rule, place: 0, at: i, begin: i, end: j, above, after })))?;
                self.row.truncate(self.row.len() - 2);
            }
            if self.found.len() == self.most {
                break;
            }
        }
        Ok(())
    }

    /// Tries each cover of the next node; if no node is left, the row is a reading.
    fn rest(&mut self, mut open: Option<Rc<Open>>) -> Result<(), TooLarge> {
        self.steps_left = self.steps_left.checked_sub(1).ok_or(TooLarge)?;
        let grammar = self.grammar;
        loop {
            let Some(top) = open else {
                self.found.push(self.row.clone());
                return Ok(());
            };
            let places = &grammar.rule(top.rule).expect("a rule of the grammar").places;
            let filled = |at: usize| Some(Rc::new(Open { place: top.place + 1, at, after: top.after.clone(), ..*top }));
            match places.get(top.place) {
                None => open = top.after.clone(),
                // it fits: the places reach the end
                Some(Symbol::Terminal(_) | Symbol::Range(..)) => open = filled(top.at + 1),
                Some(Symbol::Nonterminal(k)) => {
                    let ends = self.derives[top.at][usize::from(*k)];
                    for end in members(ends).filter(|end| *end <= top.end) {
                        if self.reaches(&places[top.place + 1..], end, top.end) && self.found.len() < self.most {
                            let whole = top.at == top.begin && end == top.end;
                            self.node(*k, top.at, end, if whole { top.above } else { 0 }, filled(end))?;
                        }
                    }
                    return Ok(());
                }
            }
        }
    }

    /// Whether the places have trees over the span from a to j at all.
    fn reaches(&self, places: &[Symbol], a: usize, j: usize) -> bool {
        ends_of_row(places, a, self.input, &self.derives) >> j & 1 == 1
    }
}
