//! Rows offered to check, length, same build and words.

use super::firsts::First;
use super::lent::{self, same, Lent};
use super::{Comparison, Plate, WIDER};
use crate::lister::grammar::{self, Grammar, Symbol};
use crate::lister::listing::derivations;
use crate::lister::trees::{self, Child, Node, Row, LIMIT};
use crate::lister::walk::Walk;
use crate::lister::{has_tree, STEPS};
use crate::reader::{Answer, FlatGrammar, CELLS};
use crate::text::{in_order, MOST};
use std::collections::BTreeSet;

/// How many derivations of one input are offered to each call at most.
const MOST_OFFERED: usize = 400;
/// Steps of the search for the first derivations in order, if the list is too large.
const SEARCH_STEPS: u64 = 200_000;

/// An input with its year and its filled chart, and one row or two that are offered for it.
#[derive(Clone, Copy)]
struct Offer<'a> {
    plate: Plate<'a>,
    one: &'a [u16],
    other: &'a [u16],
}

/// What came up with two rows, by the answer that is due for them.
fn compared(due: Answer, one: &[u16], other: &[u16]) -> &'static str {
    let [mut a, mut b] = [one, other].map(trees::rules_used);
    a.sort();
    b.sort();
    match due {
        Answer::Yes if one == other => "a derivation and itself",
        Answer::Yes if trees::covers_used(one) == trees::covers_used(other) => {
            "two derivations, yes, other empty nodes"
        }
        Answer::Yes => "two derivations, yes, other covers",
        Answer::No if a == b => "two derivations, no, the same bag",
        Answer::No => "two derivations, no, another bag",
        _ => "refused 12",
    }
}

impl Comparison<'_> {
    /// Offers the derivations of an input, and rows that are none, to check, length, words
    /// and same build; then calls first, next and count.
    pub(super) fn rows(&mut self, flat: &FlatGrammar, grammar: &Grammar, plate: Plate<'_>) -> Result<(), String> {
        let input = plate.input;
        let (list, front) = self.listed(grammar, input);
        let wider = derivations(grammar, input, WIDER, STEPS).ok();
        let tree = has_tree(grammar, input);
        match &list {
            _ if !tree => self.add(input, "no tree"),
            None if front.is_some() => self.add(input, "more than 4,096"),
            None => self.add(input, "skipped: too large to list"),
            Some(list) => {
                let which = ["only trees over the limit", "one derivation", "two or more"][list.len().min(2)];
                self.add(input, which);
                if list.len() > MOST {
                    self.add(input, "more than 4,096");
                }
                if !list.is_empty() && wider.as_ref().is_some_and(|wider| wider.len() > list.len()) {
                    self.add(input, "the limit cuts some");
                }
            }
        }
        let mut readings = list.clone().unwrap_or_default();
        if readings.len() > MOST_OFFERED {
            self.counts.add("not every derivation offered");
            self.thin(&mut readings, MOST_OFFERED);
        }
        let mut offered = readings.clone();
        offered.extend(self.strangers(grammar, input, &readings, wider.unwrap_or_default()));
        let mut pairs = 12;
        if input.len().pow(2) * grammar.rules.len() > 10_000 {
            // each call fills the chart, which takes long here
            self.thin(&mut offered, 6);
            pairs = 2;
        }
        let mut forbidden = false;
        let whole = grammar::from_flat(flat).expect("a loaded grammar passes check 8");
        for row in &offered {
            let yes = trees::is_derivation(grammar, input, row);
            if let Some(list) = &list {
                same("the lister's check against its list", yes, list.binary_search(row).is_ok())?;
            }
            let superfluous = self.classify(grammar, input, row, yes);
            let last = list.as_ref().and_then(|list| list.last());
            forbidden |= superfluous && row.len() <= 2 * LIMIT && last.is_some_and(|last| row < last);
            let offer = Offer { plate, one: row, other: row };
            self.offered(flat, offer, "check", if yes { Answer::Yes } else { Answer::No }, None)?;
            if yes {
                self.ranges_read(grammar, input, row);
                self.halves(trees::hundredths(grammar, row));
                self.offered(flat, offer, "length", Answer::Yes, Some(trees::tenths(grammar, row)))?;
                self.words(flat, &whole, grammar, plate, row)?;
            } else if self.rng.one_in(4) {
                self.offered(flat, offer, "length", Answer::Refused(12), None)?;
                self.no_words(flat, plate, row)?;
            }
        }
        if forbidden {
            self.counts.add("the forbidden ancestor");
        }
        for _ in 0..offered.len().min(pairs) {
            let from = if self.rng.one_in(4) || readings.is_empty() { &offered } else { &readings };
            let (one, other) = (&from[self.rng.below(from.len())], &from[self.rng.below(from.len())]);
            let due = match [one, other].iter().all(|row| trees::is_derivation(grammar, input, row)) {
                false => Answer::Refused(12),
                true if trees::same_build(one, other) => Answer::Yes,
                true => Answer::No,
            };
            self.add(input, &format!("same build: {}", compared(due, one, other)));
            self.offered(flat, Offer { plate, one, other }, "same build", due, None)?;
        }
        let known = First { list: list.as_deref(), front: front.as_deref(), tree, offered: &offered };
        self.first(flat, grammar, plate, known)?;
        let quick = !self.reader.by_listing() || derivations(grammar, input, LIMIT, STEPS / 10).is_ok();
        if quick {
            self.nexts(flat, grammar, plate, known, &readings)?;
        }
        let list = if quick { list.or(front) } else { None };
        if let Some(list) = list {
            let calls = list.len().min(8) + 4;
            self.walk(flat, plate, Walk { list, tree, place: 0 }, &offered, calls)?;
        }
        Ok(())
    }

    /// All derivations of an input. If the list is too large, and the reader does not make
    /// it either: the first 4,097 of them, unless that also takes too long.
    fn listed(&self, grammar: &Grammar, input: &[u8]) -> (Option<Vec<Row>>, Option<Vec<Row>>) {
        match derivations(grammar, input, LIMIT, STEPS) {
            Ok(list) => (Some(list), None),
            Err(_) if self.reader.by_listing() => (None, None),
            Err(_) => match in_order(grammar, input, LIMIT, MOST + 1, SEARCH_STEPS) {
                Ok(list) if list.len() <= MOST => (Some(list), None), // fewer than asked for: all of them
                front => (None, front.ok()),
            },
        }
    }

    /// Thins the rows out to at most this many, including the first and the last.
    pub(super) fn thin(&mut self, rows: &mut Vec<Row>, most: usize) {
        if rows.len() > most {
            let last = rows.pop().expect("more than none");
            for at in 1..most - 1 {
                let other = self.rng.within(at, rows.len() - 1);
                rows.swap(at, other);
            }
            rows.truncate(most - 1);
            rows.push(last);
        }
    }

    /// Calls check, length or same build on the reader. The chart must be the filled one,
    /// and the tenths must be as expected, or as found if there are none.
    fn offered(
        &mut self,
        flat: &FlatGrammar,
        offer: Offer<'_>,
        name: &str,
        due: Answer,
        tenths: Option<i32>,
    ) -> Result<(), String> {
        let (mine, mut chart, found) = (self.either(flat), self.chart(), lent::tenths(&mut self.rng));
        let mut expected = chart.clone();
        let year = offer.plate.year;
        expected.part_mut()[..CELLS].copy_from_slice(offer.plate.filled);
        let (input, one, other) = (Lent::of(offer.plate.input, 0x41), Lent::of(offer.one, 0), Lent::of(offer.other, 0));
        let before = (input.clone(), one.clone(), other.clone());
        let mut left = found;
        let got = match name {
            "check" => self.reader.check(&mine, input.part(), year, one.part(), chart.part_mut()),
            "length" => self.reader.length(&mine, input.part(), year, one.part(), chart.part_mut(), &mut left),
            _ => self.reader.same_build(&mine, input.part(), year, one.part(), other.part(), chart.part_mut()),
        };
        let all_same = || {
            same("answer and tenths", (got, left), (due, tenths.unwrap_or(found)))?;
            chart.against(&expected, "chart")?;
            input.against(&before.0, "the input lent")?;
            one.against(&before.1, "the row lent")?;
            other.against(&before.2, "the other row lent")
        };
        all_same().map_err(|what| format!("{name} of {:?} and {:?}: {what}", one.part(), other.part()))?;
        let what = match due {
            Answer::Refused(number) => format!("{name}: refused {number}"),
            answer => format!("{name}: {answer:?}"),
        };
        self.add(offer.plate.input, &what);
        Ok(())
    }

    /// Counts a sum that is an exact half, by its sign and by the tenth that it goes to.
    fn halves(&mut self, sum: i32) {
        if sum % 10 == 5 || sum % 10 == -5 {
            let side = if sum > 0 { "above" } else { "below" };
            let up = trees::round(sum) * 10 > sum;
            self.counts.add(&format!("a half {side} zero, rounded {}", if up { "up" } else { "down" }));
            if sum.abs() == 5 {
                self.counts.add(&format!("a half of {sum}"));
            }
        }
    }

    /// Counts a derivation that reads marks through ranges, and where in a range they are.
    fn ranges_read(&mut self, grammar: &Grammar, input: &[u8], row: &[u16]) {
        let (tree, _) = trees::tree_of(grammar, grammar.start, input, row).expect("a derivation");
        let mut read = BTreeSet::new();
        marks_in_ranges(grammar, &tree, &mut read);
        if !read.is_empty() {
            self.counts.add("a reading through a range");
        }
        for at in read {
            self.counts.add(&format!("a reading through a range: {at}"));
        }
    }

    /// Why a row is no derivation, if it is the row of a tree of the input: whether the
    /// tree has superfluous recursion.
    fn classify(&mut self, grammar: &Grammar, input: &[u8], row: &[u16], yes: bool) -> bool {
        if let (false, Some((tree, _))) = (yes, trees::tree_of(grammar, grammar.start, input, row)) {
            if tree.terminals() == input && tree.row() == row {
                if tree.nodes > LIMIT {
                    self.add(input, "offered: a tree over the limit");
                }
                if tree.has_superfluous_recursion() {
                    self.add(input, "offered: superfluous recursion");
                    return true;
                }
            }
        }
        false
    }
}

/// Where the marks below a node are in the ranges that they fit.
fn marks_in_ranges(grammar: &Grammar, node: &Node, read: &mut BTreeSet<&'static str>) {
    let rule = grammar.rule(node.rule).expect("a rule of the grammar");
    for (place, child) in rule.places.iter().zip(&node.children) {
        match (place, child) {
            (_, Child::Below(node)) => marks_in_ranges(grammar, node, read),
            (Symbol::Range(low, high), Child::Leaf(mark)) => {
                read.insert(match (mark == low, mark == high) {
                    (true, true) => "of one byte",
                    (true, false) => "at its low end",
                    (false, true) => "at its high end",
                    (false, false) => "between its ends",
                });
            }
            _ => (),
        }
    }
}
