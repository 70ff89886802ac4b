//! Explicit parse trees, superfluous recursion in the words of document 01, and the preorder row of a tree.

use super::grammar::{Grammar, Symbol};
use crate::switches::{fault, Fault};
use std::rc::Rc;

/// A derivation (reading) as it is written: for each node in preorder, how many terminals it covers, then its rule.
pub type Row = Vec<u16>;

/// The most nodes (parts) of a derivation (reading).
pub const LIMIT: usize = 512;

/// What a place holds: a terminal (mark), which is no node, or a node.
#[derive(Clone)]
pub enum Child {
    Leaf(u8),
    Below(Rc<Node>),
}

/// A node (part) with the tree below it. The rule and the children are the tree; the nonterminal, the cover and the
/// number of nodes are stored with them.
pub struct Node {
    pub rule: usize,
    pub children: Vec<Child>,
    pub nonterminal: u8,
    pub cover: usize,
    pub nodes: usize,
}

impl Node {
    pub fn new(grammar: &Grammar, rule: usize, children: Vec<Child>) -> Node {
        let (mut cover, mut nodes) = (0, 1);
        for child in &children {
            match child {
                Child::Leaf(_) => cover += 1,
                Child::Below(node) => {
                    cover += node.cover;
                    nodes += node.nodes;
                }
            }
        }
        if fault(Fault::LimitCountsTerminals) {
            nodes += children.iter().filter(|child| matches!(child, Child::Leaf(_))).count();
        }
        let nonterminal = grammar.rule(rule).expect("a rule of the grammar").left;
        Node { rule, children, nonterminal, cover, nodes }
    }

    /// The nodes that are children of this one.
    pub fn below(&self) -> impl Iterator<Item = &Node> {
        self.children.iter().filter_map(|child| match child {
            Child::Leaf(_) => None,
            Child::Below(node) => Some(&**node),
        })
    }

    /// Whether a proper descendant node has this node's nonterminal and covers the same terminals. A descendant is
    /// inside its ancestor, so equally many terminals are the same ones; two empty nodes need only the same
    /// nonterminal. Covers never grow downward, so only nodes of equal cover are searched.
    pub fn recurs(&self) -> bool {
        fn inside(node: &Node, nonterminal: u8, cover: usize) -> bool {
            let mut equal = node.below().filter(|n| n.cover == cover || fault(Fault::FewerTerminalsSuperfluous));
            equal.any(|n| n.nonterminal == nonterminal || inside(n, nonterminal, cover))
        }
        if fault(Fault::ChildOfItsOwnKindLetThrough) {
            return self.below().any(|n| n.cover == self.cover && inside(n, self.nonterminal, self.cover));
        }
        inside(self, self.nonterminal, self.cover) || (fault(Fault::EmptySiblingsSuperfluous) && self.twin_blanks())
    }

    /// Whether two children are empty and of one kind. This is no recursion; a fault takes it for one.
    fn twin_blanks(&self) -> bool {
        let blanks: Vec<u8> = self.below().filter(|n| n.cover == 0).map(|n| n.nonterminal).collect();
        (1..blanks.len()).any(|at| blanks[..at].contains(&blanks[at]))
    }

    /// Document 01: some part has a proper descendant part of the same kind that
    /// covers the same marks.
    pub fn has_superfluous_recursion(&self) -> bool {
        if fault(Fault::NoForbiddenSet) || (fault(Fault::EmptyRecursionLetThrough) && self.cover == 0) {
            return false;
        }
        self.recurs() || self.below().any(Node::has_superfluous_recursion)
    }

    /// The terminals of the tree from left to right.
    pub fn terminals(&self) -> Vec<u8> {
        let mut all = Vec::new();
        for child in &self.children {
            match child {
                Child::Leaf(t) => all.push(*t),
                Child::Below(node) => all.extend(node.terminals()),
            }
        }
        all
    }

    /// The preorder row.
    pub fn row(&self) -> Row {
        let mut row = vec![self.cover as u16, self.rule as u16];
        for node in self.below() {
            row.extend(node.row());
        }
        row
    }
}

/// The tree that an offered row may describe at the front of the input: follows the rules in preorder and ignores the
/// covers. A row does not say which mark is in a range, so the marks are those of the input. None if a rule does not
/// exist or does not fit its place, if a mark does not fit its place, or if the row or the input is too short. Also
/// returns the rest of the row.
pub fn tree_of<'a>(grammar: &Grammar, nonterminal: u8, input: &[u8], row: &'a [u16]) -> Option<(Node, &'a [u16])> {
    let number = usize::from(*row.get(1)?);
    let rule = grammar.rule(number)?;
    if rule.left != nonterminal {
        return None;
    }
    let (mut rest, mut marks) = (&row[2..], input);
    let mut children = Vec::new();
    for place in &rule.places {
        if let Symbol::Nonterminal(k) = *place {
            let (node, after) = tree_of(grammar, k, marks, rest)?;
            (rest, marks) = (after, &marks[node.cover..]);
            children.push(Child::Below(Rc::new(node)));
        } else {
            let (mark, after) = marks.split_first().filter(|(mark, _)| place.fits(**mark))?;
            children.push(Child::Leaf(*mark));
            marks = after;
        }
    }
    Some((Node::new(grammar, number, children), rest))
}

/// Whether an offered row is a derivation (reading) of the input: exactly the row of a tree of the start nonterminal
/// over the whole input, without superfluous recursion, of at most 512 nodes.
pub fn is_derivation(grammar: &Grammar, input: &[u8], row: &[u16]) -> bool {
    let limit = LIMIT + usize::from(fault(Fault::Limit513)) - usize::from(fault(Fault::Limit511));
    if row.len() > 2 * limit || fault(Fault::CheckAlwaysNo) {
        return false; // two numbers for each node: more than 512 nodes, or no tree's row
    }
    if fault(Fault::EmptyRowOfTheEmptyInputAccepted) && input.is_empty() && row.is_empty() {
        return true;
    }
    let superfluous = |tree: &Node| {
        tree.has_superfluous_recursion() && !(fault(Fault::EmptyRootRecursionAccepted) && input.is_empty())
    };
    match tree_of(grammar, root(grammar, row), input, row) {
        None => false,
        Some((tree, _)) => covers(&tree, input) && tree.nodes <= limit && !superfluous(&tree) && written(&tree, row),
    }
}

/// The nonterminal of the root: the start.
fn root(grammar: &Grammar, row: &[u16]) -> u8 {
    let first = row.get(1).and_then(|rule| grammar.rule(usize::from(*rule)));
    match first {
        Some(rule) if fault(Fault::AnyStartAccepted) => rule.left,
        _ => grammar.start,
    }
}

/// Whether the tree's terminals are the input.
fn covers(tree: &Node, input: &[u8]) -> bool {
    tree.terminals() == input || (fault(Fault::FrontStretchAccepted) && input.starts_with(&tree.terminals()))
}

/// Whether the row is the tree's, number by number.
fn written(tree: &Node, row: &[u16]) -> bool {
    tree.row() == row
        || (fault(Fault::TailAccepted) && row.starts_with(&tree.row()))
        || (fault(Fault::CoversNotCompared) && row.len() == 2 * tree.nodes)
}

/// The stack length in tenths.
pub fn tenths(grammar: &Grammar, row: &[u16]) -> i32 {
    if fault(Fault::EmptyInputHasNoLength) && of_the_empty_input(row) {
        return 0;
    }
    round(hundredths(grammar, row))
}

/// Whether the root covers nothing. Only faults ask.
fn of_the_empty_input(row: &[u16]) -> bool {
    row.first() == Some(&0)
}

/// The stack length before it is rounded: the sum of the rule lengths of all nodes of a row, including empty ones.
pub fn hundredths(grammar: &Grammar, row: &[u16]) -> i32 {
    let measured = row.chunks(2).filter(|node| node[0] > 0 || !fault(Fault::EmptyLengthsLeftOut));
    measured.map(|node| grammar.rule(usize::from(node[1])).expect("a rule of the grammar").length).sum()
}

/// Hundredths rounded to tenths, by request U5 of document 02: an exact half goes to the even tenth, on both sides of
/// zero.
pub fn round(sum: i32) -> i32 {
    let below = sum.div_euclid(10); // the tenth at or below the sum
    match sum.rem_euclid(10) {
        0..=4 => below,
        5 => half(below),
        _ => below + 1,
    }
}

/// The tenth for the half above this one.
fn half(below: i32) -> i32 {
    let above = below + 1;
    let (even, odd) = if below % 2 == 0 { (below, above) } else { (above, below) };
    let (toward_zero, away) = if below >= 0 { (below, above) } else { (above, below) };
    match () {
        _ if fault(Fault::HalfAwayFromZero) => away,
        _ if fault(Fault::HalfTowardZero) => toward_zero,
        _ if fault(Fault::HalfUpward) => above,
        _ if fault(Fault::HalfToTheOddTenth) => odd,
        _ if fault(Fault::EvenOnlyAboveZero) && below < 0 => away,
        _ => even,
    }
}

/// The rules of the non-empty nodes, in preorder.
pub fn rules_used(row: &[u16]) -> Vec<u16> {
    let all =
        fault(Fault::EmptyNodesInTheBuild) || (fault(Fault::BuildsOfTheEmptyInputDiffer) && of_the_empty_input(row));
    let counts = |node: &&[u16]| node[0] > 0 || all;
    row.chunks_exact(2).filter(counts).map(|node| node[1]).collect()
}

/// Same build, by request U7 of document 02: the rules of the non-empty nodes agree in preorder.
pub fn same_build(one: &[u16], other: &[u16]) -> bool {
    let [mut a, mut b] = [one, other].map(rules_used);
    for rules in [&mut a, &mut b] {
        if fault(Fault::BuildAsABag) || fault(Fault::BuildAsASet) {
            rules.sort();
        }
        if fault(Fault::BuildAsASet) {
            rules.dedup();
        }
        if fault(Fault::LastRuleNotCompared) {
            rules.pop();
        }
    }
    match () {
        _ if fault(Fault::OnlyTheNumberOfRules) => a.len() == b.len(),
        _ if fault(Fault::CoversInTheBuild) => a == b && covers_used(one) == covers_used(other),
        _ => a == b,
    }
}

/// The covers of the non-empty nodes, in preorder.
pub fn covers_used(row: &[u16]) -> Vec<u16> {
    row.chunks_exact(2).map(|node| node[0]).filter(|cover| *cover > 0).collect()
}
