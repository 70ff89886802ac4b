//! A reading (derivation). Nothing here is recursive, because a reading may be nested 512 deep.

use crate::span::{spans, Span};
use crate::{length, words, Grammar, Node, Nodes, Rule, CELLS, TEXT};
use std::cmp::Ordering;
use std::fmt;
use std::hash::{Hash, Hasher};

/// A reading (derivation) of an input: a parse tree without superfluous recursion and with at most 512 nodes.
///
/// [`Grammar::readings`] finds them all, and [`Grammar::reading`] makes one from its numbers. A reading is displayed as document 01
/// prints it: for each node the number of bytes that it covers, a point, and its rule. Readings of one input are ordered as in document
/// 01, by the first number in which they differ; none of them is the beginning of another.
///
/// ```
/// # fn main() -> Result<(), filbozseg::Error> {
/// // 0 -> 0 0, 0 -> A
/// let grammar = filbozseg::load(b"\x10\x00\x20\x00\x00\x00\x30\x00\x30\x00\x20\x00\x00\x00\x40A\x50")?;
/// let one = grammar.reading(b"AAA", 2008, &[3, 0, 1, 1, 2, 0, 1, 1, 1, 1])?;
/// let other = grammar.reading(b"AAA", 2008, &[3, 0, 2, 0, 1, 1, 1, 1, 1, 1])?;
/// assert_eq!(one.to_string(), "3.0 1.1 2.0 1.1 1.1");
/// assert!(one < other);
/// assert_eq!(one.parts().next(), Some((3, 0)));
/// assert_eq!(one.nodes().map(|node| node.marks()).collect::<Vec<_>>(), [0..3, 0..1, 1..3, 1..2, 2..3]);
/// assert_eq!(one.root().children().map(|child| child.cover()).collect::<Vec<_>>(), [1, 2]);
/// assert_eq!(one.root().rule().to_string(), "0 -> 0 0");
/// # Ok(())
/// # }
/// ```
#[derive(Clone)]
pub struct Reading {
    grammar: Grammar,
    input: Box<[u8]>,
    year: u16,
    pub(crate) numbers: Box<[u16]>,
    pub(crate) spans: Box<[Span]>,
}

impl Reading {
    /// The reading with these numbers, which the library has handed out or accepted as one of this input in this year.
    pub(crate) fn new(grammar: &Grammar, input: &[u8], year: u16, numbers: &[u16]) -> Reading {
        let (numbers, spans) = (numbers.into(), spans(grammar, numbers));
        Reading { grammar: grammar.clone(), input: input.into(), year, numbers, spans }
    }

    /// The numbers of the reading, as [`check`](crate::check), [`length`](crate::length), [`same_build`](crate::same_build) and
    /// [`next`](crate::next) take them: for each node, in preorder, how many bytes it covers and its rule.
    pub fn numbers(&self) -> &[u16] {
        &self.numbers
    }

    /// The nodes in preorder, each as the number of bytes that it covers and its rule.
    pub fn parts(&self) -> impl ExactSizeIterator<Item = (u16, u16)> + DoubleEndedIterator + '_ {
        self.numbers.chunks_exact(2).map(|part| (part[0], part[1]))
    }

    /// The rules of the nodes, in preorder.
    ///
    /// ```
    /// # fn main() -> Result<(), filbozseg::Error> {
    /// // 0 -> 1 1 (46 mm), 1 -> nothing (0 mm), 1 -> A (0.25 mm)
    /// let grammar = filbozseg::load(b"\x10\x00\x20\x00\xf8\x11\x30\x01\x30\x01\x20\x01\x00\x00\x20\x01\x19\x00\x40A\x50")?;
    /// let reading = grammar.reading(b"A", 2008, &[1, 0, 0, 1, 1, 2])?;
    /// assert_eq!(reading.rules().map(|rule| rule.to_string()).collect::<Vec<_>>(), ["0 -> 1 1", "1 -> -", "1 -> 'A'"]);
    /// assert_eq!(reading.rules().map(|rule| rule.number()).collect::<Vec<_>>(), [0, 1, 2]);
    /// assert_eq!(reading.length(), 462);
    /// # Ok(())
    /// # }
    /// ```
    pub fn rules(&self) -> impl ExactSizeIterator<Item = Rule<'_>> + DoubleEndedIterator + '_ {
        self.parts().map(|(_, rule)| self.rule(rule))
    }

    /// The rule with a number that the reading has.
    pub(crate) fn rule(&self, number: u16) -> Rule<'_> {
        self.grammar.rule(usize::from(number)).expect("a reading has only rules of its grammar")
    }

    /// The length in tenths of a millimetre; an exact half goes to the even tenth. It is that of the proved [`length`], which this calls
    /// with a chart of its own and the grammar, the input and the year that the reading was found with. So it costs a fill of the chart.
    pub fn length(&self) -> i32 {
        let tenths = length(&self.grammar, &self.input, self.year, &self.numbers, &mut vec![0; CELLS]);
        tenths.expect("the library has said that this is a reading")
    }

    /// The text of the reading, with the names of its rules. It is that of the proved [`words`], called as [`length`](Reading::length)
    /// calls its own. So it costs a fill of the chart, and up to 152 KiB of stack.
    ///
    /// ```
    /// # fn main() -> Result<(), filbozseg::Error> {
    /// // 0 -> 1 1, named BODY, 1 -> nothing, and 1 -> A
    /// let book = b"\x10\x00\x20\x00\x00\x00\x60BODY    \x30\x01\x30\x01\x20\x01\x00\x00\x20\x01\x00\x00\x40A\x50";
    /// let grammar = filbozseg::load(book)?;
    /// let texts = grammar.readings(b"A", 2008).map(|reading| Ok(reading?.words())).collect::<Result<Vec<_>, filbozseg::Error>>()?;
    /// assert_eq!(texts, ["BODY(#001(),#002(=41))", "BODY(#002(=41),#001())"]);
    /// # Ok(())
    /// # }
    /// ```
    pub fn words(&self) -> String {
        let (mut chart, mut buffer) = (vec![0; CELLS], vec![0; TEXT]);
        let text = words(&self.grammar, &self.input, self.year, &self.numbers, &mut chart, &mut buffer);
        let text = text.expect("the library has said that this is a reading, and no text is longer than the buffer");
        text.iter().copied().map(char::from).collect()
    }

    /// The node that covers the whole input.
    pub fn root(&self) -> Node<'_> {
        Node::root(self)
    }

    /// All nodes, in preorder: the root first.
    pub fn nodes(&self) -> Nodes<'_> {
        self.root().nodes()
    }
}

impl AsRef<[u16]> for Reading {
    fn as_ref(&self) -> &[u16] {
        self.numbers()
    }
}

impl PartialEq for Reading {
    fn eq(&self, other: &Reading) -> bool {
        self.numbers == other.numbers
    }
}

impl Eq for Reading {}

impl PartialOrd for Reading {
    fn partial_cmp(&self, other: &Reading) -> Option<Ordering> {
        Some(self.cmp(other))
    }
}

impl Ord for Reading {
    fn cmp(&self, other: &Reading) -> Ordering {
        self.numbers.cmp(&other.numbers)
    }
}

impl Hash for Reading {
    fn hash<H: Hasher>(&self, state: &mut H) {
        self.numbers.hash(state);
    }
}

impl fmt::Display for Reading {
    fn fmt(&self, f: &mut fmt::Formatter<'_>) -> fmt::Result {
        for (at, (cover, rule)) in self.parts().enumerate() {
            let space = if at == 0 { "" } else { " " };
            write!(f, "{space}{cover}.{rule}")?;
        }
        Ok(())
    }
}

impl fmt::Debug for Reading {
    fn fmt(&self, f: &mut fmt::Formatter<'_>) -> fmt::Result {
        write!(f, "Reading({self})")
    }
}
