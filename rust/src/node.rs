//! The nodes of a reading, as a tree. Nothing here is recursive, because a reading may be nested 512 deep.

use crate::span::Span;
use crate::{Reading, Rule};
use std::fmt;
use std::iter::FusedIterator;
use std::ops::Range;

/// A node of a reading. Two are equal if they have the same number in equal readings.
#[derive(Clone, Copy, PartialEq, Eq, Hash)]
pub struct Node<'a> {
    reading: &'a Reading,
    number: usize,
}

impl<'a> Node<'a> {
    pub(crate) fn root(reading: &'a Reading) -> Node<'a> {
        Node { reading, number: 0 }
    }

    fn span(self) -> Span {
        self.reading.spans[self.number]
    }

    /// The number of the node in preorder. The root has number 0.
    pub fn number(self) -> usize {
        self.number
    }

    /// The node's rule; [`Rule::number`] is its number.
    pub fn rule(self) -> Rule<'a> {
        self.reading.rule(self.reading.numbers[2 * self.number + 1])
    }

    /// How many bytes the node covers.
    pub fn cover(self) -> usize {
        usize::from(self.reading.numbers[2 * self.number])
    }

    /// Which bytes of the input (marks of the plate) the node covers. If it covers none, the range is empty and begins where the node is.
    pub fn marks(self) -> Range<usize> {
        let start = usize::from(self.span().start);
        start..start + self.cover()
    }

    /// How many nodes are above it: 0 for the root.
    pub fn depth(self) -> usize {
        usize::from(self.span().depth)
    }

    /// Its children, from the left: one for each nonterminal of its rule.
    pub fn children(self) -> Children<'a> {
        let mut nodes = self.nodes();
        nodes.next();
        Children { nodes }
    }

    /// The node itself and all nodes below it, in preorder.
    pub fn nodes(self) -> Nodes<'a> {
        Nodes { reading: self.reading, numbers: self.number..usize::from(self.span().end) }
    }
}

impl fmt::Debug for Node<'_> {
    fn fmt(&self, f: &mut fmt::Formatter<'_>) -> fmt::Result {
        f.debug_struct("Node")
            .field("number", &self.number)
            .field("rule", &self.rule().number())
            .field("marks", &self.marks())
            .finish()
    }
}

/// Nodes in preorder: see [`Reading::nodes`] and [`Node::nodes`].
#[derive(Clone, Debug)]
pub struct Nodes<'a> {
    reading: &'a Reading,
    numbers: Range<usize>,
}

impl<'a> Iterator for Nodes<'a> {
    type Item = Node<'a>;

    fn next(&mut self) -> Option<Node<'a>> {
        self.numbers.next().map(|number| Node { reading: self.reading, number })
    }

    fn size_hint(&self) -> (usize, Option<usize>) {
        self.numbers.size_hint()
    }
}

impl DoubleEndedIterator for Nodes<'_> {
    fn next_back(&mut self) -> Option<Self::Item> {
        self.numbers.next_back().map(|number| Node { reading: self.reading, number })
    }
}

impl ExactSizeIterator for Nodes<'_> {}

impl FusedIterator for Nodes<'_> {}

/// The children of a node, from the left: see [`Node::children`].
#[derive(Clone, Debug)]
pub struct Children<'a> {
    nodes: Nodes<'a>,
}

impl<'a> Iterator for Children<'a> {
    type Item = Node<'a>;

    fn next(&mut self) -> Option<Node<'a>> {
        let child = self.nodes.next()?;
        self.nodes.numbers.start = usize::from(child.span().end);
        Some(child)
    }
}

impl FusedIterator for Children<'_> {}
