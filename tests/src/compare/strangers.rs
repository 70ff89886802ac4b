//! Rows that may be no derivations: of other inputs, of larger trees, of trees with superfluous recursion, and
//! modified rows.

use super::{Comparison, WIDER};
use crate::books::Rng;
use crate::lister::chart::{self, ends_of_row, Ends};
use crate::lister::grammar::{Grammar, Rule, Symbol};
use crate::lister::listing::derivations;
use crate::lister::trees::{Row, LIMIT};
use crate::lister::STEPS;
use crate::reader::INPUT;

impl Comparison<'_> {
    /// Rows that may or may not be derivations of the input.
    pub(super) fn strangers(
        &mut self,
        grammar: &Grammar,
        input: &[u8],
        readings: &[Row],
        mut wider: Vec<Row>,
    ) -> Vec<Row> {
        let mut rows = Vec::new();
        // Trees without superfluous recursion near the limit, including the smallest one over it.
        wider.retain(|row| row.len() > 2 * LIMIT);
        wider.sort_by_key(Vec::len);
        wider.truncate(4);
        rows.extend(wider);
        // The derivations of a similar input, and of the front of the input.
        let near = if input.is_empty() { self.one_terminal(grammar) } else { self.near(input) };
        let front = input[..self.rng.below(input.len().max(1))].to_vec();
        for near in [near, front].iter().filter(|near| *near != input) {
            let mut others = derivations(grammar, near, LIMIT, STEPS / 4).unwrap_or_default();
            self.thin(&mut others, 12);
            rows.extend(others);
        }
        // Trees of the input, with or without superfluous recursion, and trees of another nonterminal.
        let derives = chart::derives(grammar, input);
        for _ in 0..8 {
            let k = if self.rng.one_in(6) { self.rng.below(32) as u8 } else { grammar.start };
            let mut row = Vec::new();
            if random_tree(&mut self.rng, grammar, input, &derives, (k, 0, input.len()), &mut row).is_some() {
                rows.push(row);
            }
        }
        // Rows changed, cut, extended, or with numbers swapped; and odd ones.
        let bases: Vec<Row> = readings.iter().chain(&rows).cloned().collect();
        for _ in 0..bases.len().min(12) {
            let mut row = bases[self.rng.below(bases.len())].clone();
            for _ in 0..self.rng.within(1, 2) {
                mutate(&mut self.rng, grammar, &mut row);
            }
            rows.push(row);
        }
        let n = input.len() as u16;
        let odd =
            [vec![], vec![n], vec![n, 0], vec![n, 128], vec![u16::MAX; 2], vec![n; 1024], vec![0; 1026], vec![n, 0, 7]];
        rows.extend((0..2).map(|_| odd[self.rng.below(odd.len())].clone()));
        if input.is_empty() {
            rows.push(vec![]); // it covers as much as the input, and is no derivation: each tree has a node
        }
        rows
    }

    /// An input of one terminal, which fits a place of the grammar if there is one.
    fn one_terminal(&mut self, grammar: &Grammar) -> Vec<u8> {
        let places = grammar.numbered().flat_map(|(_, rule)| &rule.places);
        let fitting: Vec<u8> = places
            .filter_map(|place| match *place {
                Symbol::Terminal(mark) | Symbol::Range(mark, _) => Some(mark),
                Symbol::Nonterminal(_) => None,
            })
            .collect();
        vec![if fitting.is_empty() { 65 } else { self.rng.pick(&fitting) }]
    }

    /// The input with one terminal changed, dropped or added.
    fn near(&mut self, input: &[u8]) -> Vec<u8> {
        let mut near = input.to_vec();
        let (at, other) = (self.rng.below(near.len()), near[self.rng.below(near.len())]);
        match self.rng.below(3) {
            0 => near[at] = if other == near[at] { other ^ 3 } else { other },
            1 => drop(near.remove(at)),
            _ if near.len() < INPUT => near.insert(at, other),
            _ => drop(near.pop()),
        }
        near
    }
}

/// The row of a parse tree made by random choices, with or without superfluous recursion; None if it gets too large
/// or there is none.
fn random_tree(
    rng: &mut Rng,
    grammar: &Grammar,
    input: &[u8],
    derives: &Ends,
    (k, i, j): (u8, usize, usize),
    row: &mut Row,
) -> Option<()> {
    let reaches = |places: &[Symbol], a: usize| ends_of_row(places, a, input, derives) >> j & 1 == 1;
    let fits = |rule: &Rule| rule.left == k && reaches(&rule.places, i);
    let rules: Vec<(usize, &Rule)> = grammar.numbered().filter(|(_, rule)| fits(rule)).collect();
    if rules.is_empty() || row.len() > 2 * WIDER {
        return None;
    }
    let (number, Rule { places, .. }) = rng.pick(&rules);
    row.extend([(j - i) as u16, number as u16]);
    let mut at = i;
    for (p, place) in places.iter().enumerate() {
        match *place {
            Symbol::Terminal(_) | Symbol::Range(..) => at += 1,
            Symbol::Nonterminal(child) => {
                let fits = |b: &usize| derives[at][usize::from(child)] >> b & 1 == 1 && reaches(&places[p + 1..], *b);
                let ends: Vec<usize> = (at..=j).filter(fits).collect();
                let end = rng.pick(&ends);
                random_tree(rng, grammar, input, derives, (child, at, end), row)?;
                at = end;
            }
        }
    }
    Some(())
}

/// Changes a number, cuts or extends the row, or swaps two numbers.
fn mutate(rng: &mut Rng, grammar: &Grammar, row: &mut Row) {
    let at = rng.below(row.len().max(1));
    let pair = 2 * rng.below((row.len() / 2).max(1));
    match rng.below(10) {
        0 if !row.is_empty() => row[at] = row[at].wrapping_add(1),
        1 if !row.is_empty() => row[at] = row[at].wrapping_sub(1),
        2 | 3 if row.len() >= 2 => row[pair + 1] = rng.below(grammar.rules.len() + 1) as u16,
        4 if !row.is_empty() => row[at] = rng.pick(&[0, 1, 64, 128, 256, u16::MAX, row[at] ^ 256]),
        5 => row.truncate(at),
        6 => row.truncate(row.len().saturating_sub(rng.within(1, 2))),
        7 => row.extend((0..rng.within(1, 2)).map(|_| rng.below(3) as u16)),
        8 if !row.is_empty() => {
            let other = rng.below(row.len());
            row.swap(at, other);
        }
        _ if row.len() >= 4 => {
            // two nodes swapped, or a node dropped or doubled
            let other = 2 * rng.below(row.len() / 2);
            match rng.below(3) {
                0 => (0..2).for_each(|d| row.swap(pair + d, other + d)),
                1 => drop(row.drain(pair..pair + 2)),
                _ => drop(row.splice(pair..pair, [row[pair], row[pair + 1]])),
            }
        }
        _ => row.push(0),
    }
}
