//! Where the nodes of a reading are. Nothing here is recursive, because a reading may be nested 512 deep.

use crate::{Grammar, Rule, Symbol};

/// Where a node is: the byte at which it begins, how many nodes are above it, and the first later node that is not below it.
#[derive(Clone, Copy)]
pub(crate) struct Span {
    pub(crate) start: u16,
    pub(crate) depth: u16,
    pub(crate) end: u16,
}

/// A node whose places are being read: its number, its rule, how many places have been read, and the next byte.
struct Open<'a> {
    node: usize,
    rule: Rule<'a>,
    places: usize,
    byte: u16,
}

/// Closes nodes until one has a place for a child that covers this many bytes. Returns the byte at which the child begins.
fn child_start(open: &mut Vec<Open<'_>>, cover: u16, spans: &mut [Span]) -> u16 {
    while let Some(parent) = open.last_mut() {
        let place = parent.rule.places().nth(parent.places);
        let byte = parent.byte;
        parent.places += 1;
        match place {
            Some(Symbol::Nonterminal(_)) => {
                parent.byte += cover;
                return byte;
            }
            Some(Symbol::Terminal(_) | Symbol::Range(..)) => parent.byte += 1,
            None => {
                spans[parent.node].end = spans.len() as u16;
                open.pop();
            }
        }
    }
    0
}

/// The span of each node of a reading for this grammar, in preorder.
pub(crate) fn spans(grammar: &Grammar, numbers: &[u16]) -> Box<[Span]> {
    let (mut spans, mut open) = (Vec::with_capacity(numbers.len() / 2), Vec::new());
    for part in numbers.chunks_exact(2) {
        let start = child_start(&mut open, part[0], &mut spans);
        let rule = grammar.rule(usize::from(part[1])).expect("a reading has only rules of its grammar");
        open.push(Open { node: spans.len(), rule, places: 0, byte: start });
        spans.push(Span { start, depth: open.len() as u16 - 1, end: numbers.len() as u16 / 2 });
    }
    spans.into()
}
