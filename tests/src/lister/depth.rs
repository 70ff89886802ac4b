//! The empty trees of the nullable nonterminals (blank kinds), and the nullable depth (blank depth) by request U13 of
//! document 02.

use super::grammar::{Grammar, Symbol};
use crate::switches::{fault, Fault};

/// For each nonterminal the height of its lowest empty tree; None if it is not nullable.
pub fn empty_heights(grammar: &Grammar) -> [Option<u16>; 32] {
    heights_in(grammar, if fault(Fault::OnePassNullable) { 1 } else { u16::MAX })
}

/// The same in at most this many passes over the rules. A rule whose places hold nonterminals with an empty tree each
/// makes a tree that is one higher than the highest of these, and of height 1 if it has no places. The lowest tree is
/// kept. A pass that finds no lower one is the last.
pub fn heights_in(grammar: &Grammar, passes: u16) -> [Option<u16>; 32] {
    let mut lowest: [Option<u16>; 32] = [None; 32];
    for _ in 0..passes {
        let before = lowest;
        for (_, rule) in grammar.numbered() {
            let below = rule.places.iter().try_fold(0, |highest: u16, place| match place {
                Symbol::Nonterminal(k) => lowest[usize::from(*k)].map(|height| highest.max(height)),
                Symbol::Terminal(_) | Symbol::Range(..) => None,
            });
            if let Some(below) = below {
                let known = &mut lowest[usize::from(rule.left)];
                *known = Some(known.map_or(below + 1, |lower| lower.min(below + 1)));
            }
        }
        if lowest == before {
            break;
        }
    }
    lowest
}

/// The greatest, over the nullable nonterminals, of the height of the lowest empty tree; 0 if none is nullable. It is
/// that of the whole book, whatever the years of its rules.
pub fn nullable_depth(grammar: &Grammar) -> u16 {
    if fault(Fault::DepthByTheYear) {
        return empty_heights(&grammar.clone().in_year(0)).into_iter().flatten().max().unwrap_or(0);
    }
    let mut heights = empty_heights(grammar);
    if fault(Fault::DepthOfWhatTheStartReaches) {
        let reached = reached(grammar);
        (0..32).filter(|k| reached >> k & 1 == 0).for_each(|k| heights[k] = None);
    }
    match () {
        _ if fault(Fault::DepthCountsTheNullable) => heights.iter().flatten().count() as u16,
        _ if fault(Fault::DepthInPlace) => passes_in_place(grammar),
        _ => heights.into_iter().flatten().max().unwrap_or(0),
    }
}

/// A fault: how many passes it takes until all nullable nonterminals are found, if a find counts at once.
fn passes_in_place(grammar: &Grammar) -> u16 {
    let found = |passes| heights_in(grammar, passes).map(|height| height.is_some());
    (0..).find(|passes| found(*passes) == found(32)).expect("each pass before the last finds one of 32")
}

/// Another: the nonterminals, as bits, that occur in a tree of the start, which need not be complete.
fn reached(grammar: &Grammar) -> u32 {
    let mut reached = 1 << grammar.start;
    for _ in 0..32 {
        for (_, rule) in grammar.numbered() {
            for place in &rule.places {
                match place {
                    Symbol::Nonterminal(k) if reached >> rule.left & 1 == 1 => reached |= 1 << k,
                    _ => (),
                }
            }
        }
    }
    reached
}
