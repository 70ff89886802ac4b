//! All derivations (readings) of an input, built as explicit trees from short spans to long ones.

use super::chart::{derives, ends_of_row, members, Ends};
use super::grammar::{Grammar, Rule, Symbol};
use super::trees::{Child, Node, Row};
use crate::switches::{fault, Fault};
use std::rc::Rc;

/// Returned instead of a list if building it would take too many steps.
#[derive(Clone, Copy, PartialEq, Eq, Debug)]
pub struct TooLarge;

/// The places of a rule, filled from the left up to position `at`; a whole tree once all of them are filled. The
/// level is the number of nodes at the top, one above the other, that cover the tree's whole span: 1 if all children
/// are shorter.
#[derive(Clone)]
struct Partial {
    children: Vec<Child>,
    at: usize,
    nodes: usize,
    level: usize,
}

/// A finished tree with its level.
struct Built {
    node: Rc<Node>,
    level: usize,
}

struct Builder<'a> {
    grammar: &'a Grammar,
    input: &'a [u8],
    limit: usize,
    derives: Ends,
    /// All trees found so far, by span and nonterminal: trees[i][j][k].
    trees: Vec<Vec<Vec<Vec<Built>>>>,
    steps_left: u64,
}

/// All rows of trees of the start nonterminal over the whole input that have no superfluous recursion and at most
/// `limit` nodes, each once, in rising order. Trees are left out early only for these reasons, each from the
/// definition:
/// - A subtree's superfluous recursion and its nodes belong to the whole tree. So nothing is built on trees with
///   superfluous recursion or too many nodes.
/// - The root of a reading's tree has the start nonterminal over the whole input, so no other node does. Trees with
///   such a node below are not built.
/// - A nonterminal that occurs at a span in no parse tree of the input is not needed.
pub fn derivations(grammar: &Grammar, input: &[u8], limit: usize, steps: u64) -> Result<Vec<Row>, TooLarge> {
    let limit = limit + usize::from(fault(Fault::ListingLimit513)) - usize::from(fault(Fault::ListingLimit511));
    let n = input.len();
    let start = usize::from(grammar.start);
    let derives = derives(grammar, input);
    if derives[0][start] >> n & 1 == 0 {
        return Ok(Vec::new());
    }
    let trees = (0..=n).map(|_| (0..=n).map(|_| (0..32).map(|_| Vec::new()).collect()).collect()).collect();
    let mut builder = Builder { grammar, input, limit, derives, trees, steps_left: steps };
    let useful = builder.useful()?;
    for cover in 0..=n {
        for i in 0..=n - cover {
            builder.build(i, i + cover, &useful)?;
        }
    }
    let mut rows: Vec<Row> = builder.trees[0][n][start].iter().map(|built| built.node.row()).collect();
    rows.sort();
    // Each row occurs once, and no row is the beginning of another, so "the first number that differs" orders them.
    assert!(rows.windows(2).all(|two| !two[1].starts_with(&two[0])));
    out_of_order(&mut rows);
    Ok(rows)
}

/// The faults of the order. Without a fault the rows stay as they are.
fn out_of_order(rows: &mut [Row]) {
    if fault(Fault::OrderReversed) {
        rows.reverse();
    }
    if fault(Fault::FewerNodesFirst) {
        rows.sort_by_key(Vec::len);
    }
    if fault(Fault::RuleBeforeCover) {
        rows.sort_by_key(|row| row.chunks(2).flat_map(|node| [node[1], node[0]]).collect::<Row>());
    }
    if fault(Fault::NumbersOrderedAsText) {
        rows.sort_by_key(|row| row.iter().map(u16::to_string).collect::<Vec<_>>());
    }
}

impl Builder<'_> {
    /// useful[i][k]: the ends j such that k over i..j is in some parse tree of the input.
    fn useful(&mut self) -> Result<Ends, TooLarge> {
        let n = self.input.len();
        let mut useful: Ends = vec![[0; 32]; n + 1];
        let mut waiting = vec![(self.grammar.start, 0, n)];
        while let Some((k, i, j)) = waiting.pop() {
            if useful[i][usize::from(k)] >> j & 1 == 1 {
                continue;
            }
            useful[i][usize::from(k)] |= 1 << j;
            for (_, rule) in self.grammar.numbered().filter(|(_, rule)| rule.left == k) {
                self.step()?;
                for (p, place) in rule.places.iter().enumerate() {
                    let Symbol::Nonterminal(child) = *place else { continue };
                    let begins = ends_of_row(&rule.places[..p], i, self.input, &self.derives);
                    for a in members(begins).filter(|a| *a <= j) {
                        for b in members(self.derives[a][usize::from(child)]).filter(|b| *b <= j) {
                            self.step()?;
                            if self.reaches(&rule.places[p + 1..], b, j) {
                                waiting.push((child, a, b));
                            }
                        }
                    }
                }
            }
        }
        Ok(useful)
    }

    /// A fault: whether the rule is taken to be an earlier one, because `Range(a, a)` is taken to be `Terminal(a)`.
    fn merged(&self, number: usize) -> bool {
        let rule = |number: usize| self.grammar.rule(number);
        let one = |place: &Symbol| match *place {
            Symbol::Range(low, high) if low == high => Symbol::Terminal(low),
            place => place,
        };
        let same = |a: &Rule, b: &Rule| a.left == b.left && a.places.iter().map(one).eq(b.places.iter().map(one));
        let merged = |other: usize| match (rule(other), rule(number)) {
            (Some(other), Some(rule)) => same(other, rule) && other.places != rule.places,
            _ => false,
        };
        fault(Fault::TwinsWithARangeMerged) && (0..number).any(merged)
    }

    /// A fault: whether the node is the root of a tree of the empty input, with superfluous recursion right below it.
    fn let_through(&self, node: &Node, level: usize) -> bool {
        let root = self.input.is_empty() && node.nonterminal == self.grammar.start;
        fault(Fault::EmptyRootRecursionListed) && root && level == 2
    }

    /// Uses up one step of the budget.
    fn step(&mut self) -> Result<(), TooLarge> {
        self.steps_left = self.steps_left.checked_sub(1).ok_or(TooLarge)?;
        Ok(())
    }

    /// Whether the places have trees over the span from a to j at all.
    fn reaches(&self, places: &[Symbol], a: usize, j: usize) -> bool {
        ends_of_row(places, a, self.input, &self.derives) >> j & 1 == 1
    }

    /// Builds all trees over the span from i to j, after all shorter spans. Round r builds those of level r, from
    /// children over the same span of levels below r, so each tree is built once. A round that finds nothing is the
    /// last.
    fn build(&mut self, i: usize, j: usize, useful: &Ends) -> Result<(), TooLarge> {
        for level in 1.. {
            let mut found = Vec::new();
            for (number, rule) in self.grammar.numbered() {
                if useful[i][usize::from(rule.left)] >> j & 1 == 0 || self.merged(number) {
                    continue;
                }
                for row in self.rows(&rule.places, i, j)? {
                    if row.level != level {
                        continue; // built in an earlier round
                    }
                    let node = Node::new(self.grammar, number, row.children);
                    // It is enough to look at the children: no tree with such a node deeper down was kept.
                    let whole = i == 0 && j == self.input.len();
                    let root_below = whole && node.below().any(|n| n.nonterminal == self.grammar.start && n.cover == j);
                    if (!node.recurs() && !root_below) || self.let_through(&node, level) {
                        found.push(Built { node: Rc::new(node), level });
                    }
                }
            }
            if found.is_empty() {
                break;
            }
            for built in found {
                self.trees[i][j][usize::from(built.node.nonterminal)].push(built);
            }
        }
        Ok(())
    }

    /// All ways to fill the places over the span from i to j with the trees found so far.
    fn rows(&mut self, places: &[Symbol], i: usize, j: usize) -> Result<Vec<Partial>, TooLarge> {
        let mut rows = vec![Partial { children: Vec::new(), at: i, nodes: 1, level: 1 }];
        for (p, place) in places.iter().enumerate() {
            let mut longer = Vec::new();
            for row in rows {
                for b in row.at..=j {
                    self.step()?;
                    if !self.reaches(&places[p + 1..], b, j) {
                        continue;
                    }
                    match *place {
                        Symbol::Terminal(_) | Symbol::Range(..) => {
                            if b == row.at + 1 && place.fits(self.input[row.at]) {
                                let mut more = row.clone();
                                more.children.push(Child::Leaf(self.input[row.at]));
                                more.at = b;
                                longer.push(more);
                            }
                        }
                        Symbol::Nonterminal(k) => {
                            for built in &self.trees[row.at][b][usize::from(k)] {
                                self.steps_left = self.steps_left.checked_sub(1).ok_or(TooLarge)?;
                                if row.nodes + built.node.nodes > self.limit {
                                    continue;
                                }
                                let mut more = row.clone();
                                more.children.push(Child::Below(Rc::clone(&built.node)));
                                more.at = b;
                                more.nodes += built.node.nodes;
                                if built.node.cover == j - i {
                                    more.level = more.level.max(built.level + 1);
                                }
                                longer.push(more);
                            }
                        }
                    }
                }
            }
            rows = longer;
        }
        rows.retain(|row| row.at == j && row.nodes <= self.limit);
        Ok(rows)
    }
}
