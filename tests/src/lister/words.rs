//! Readings in words, by request U4 of document 02: the text of a tree.

use super::grammar::{Grammar, Symbol};
use super::names;
use super::trees::{Child, Node};
use crate::switches::{fault, Fault};

/// The text of a tree: what its rule is called, and in parentheses its places with commas between them.
pub fn text(grammar: &Grammar, node: &Node) -> String {
    let mut texts: Vec<String> = Vec::new();
    for (at, child) in node.children.iter().enumerate() {
        match child {
            Child::Leaf(mark) => texts.push(leaf(written(grammar, node.rule, at, *mark))),
            Child::Below(below) if fault(Fault::EmptyPartsUnwritten) && below.cover == 0 => (),
            Child::Below(below) => texts.push(text(grammar, below)),
        }
    }
    if fault(Fault::PlacesWrittenBackwards) {
        texts.reverse();
    }
    let places = texts.join(if fault(Fault::NoCommaBetween) { "" } else { "," });
    match () {
        _ if fault(Fault::NoParenthesesWithoutPlaces) && texts.is_empty() => called(grammar, node.rule),
        _ if fault(Fault::CommaAfterTheLastPlace) && !texts.is_empty() => {
            format!("{}({places},)", called(grammar, node.rule))
        }
        _ => format!("{}({places})", called(grammar, node.rule)),
    }
}

/// What a rule is called: its name, or `#` and three digits.
fn called(grammar: &Grammar, rule: usize) -> String {
    let name = grammar.rule(rule).expect("a rule of the grammar").name;
    match &name {
        Some(name) if fault(Fault::FillingWritten) => String::from_utf8_lossy(name).into_owned(),
        Some(name) if !fault(Fault::NamesUnread) => String::from_utf8_lossy(names::bare(name)).into_owned(),
        _ if fault(Fault::RuleInTwoDigits) => format!("#{rule:02}"),
        _ if fault(Fault::RuleInHexadecimal) => format!("#{rule:03X}"),
        _ => format!("#{rule:03}"),
    }
}

/// The mark that is written for a place: that of the input, also where the place holds a range. A fault writes its low end.
fn written(grammar: &Grammar, rule: usize, place: usize, mark: u8) -> u8 {
    match grammar.rule(rule).expect("a rule of the grammar").places[place] {
        Symbol::Range(low, _) if fault(Fault::LowEndOfARangeWritten) => low,
        _ => mark,
    }
}

/// A mark: `=` and two hexadecimal digits in capitals.
fn leaf(mark: u8) -> String {
    match () {
        _ if fault(Fault::LowerCaseDigits) => format!("={mark:02x}"),
        _ if fault(Fault::DigitsSwapped) => format!("={:02X}", mark.rotate_left(4)),
        _ if fault(Fault::DigitsWithoutZeros) => format!("={mark:X}"),
        _ => format!("={mark:02X}"),
    }
}
