//! The search for the nullable nonterminals (blank kinds), by request U3 of document 02. Loading in the library makes
//! the same search; no call shows its passes.

use super::grammar::{Grammar, Symbol};
use crate::switches::{fault, Fault};

/// What the search gives back: the nonterminals that it found, as bits, and how many passes it made.
#[derive(Clone, Copy, PartialEq, Eq, Debug)]
pub struct Sought {
    pub set: u32,
    pub passes: u32,
}

/// Passes through the rules in order, in which a nonterminal found counts at once. The first pass that adds none is the
/// last. All rules of the book count, whatever their years.
pub fn search(grammar: &Grammar) -> Sought {
    let mut rules: Vec<_> = grammar.numbered().map(|(_, rule)| rule).collect();
    if fault(Fault::SearchByTheYear) {
        rules.retain(|rule| rule.in_force(0));
    }
    if fault(Fault::SearchFromTheLastRule) {
        rules.reverse();
    }
    if fault(Fault::SearchWithoutTheFirstRule) && !rules.is_empty() {
        rules.remove(0);
    }
    let mut sought = Sought { set: 0, passes: 0 };
    loop {
        let before = sought.set;
        for rule in &rules {
            let known = if fault(Fault::FindsCountInTheNextPass) { before } else { sought.set };
            if rule.places.iter().all(|place| matches!(place, Symbol::Nonterminal(k) if known >> k & 1 == 1)) {
                sought.set |= 1 << rule.left;
            }
        }
        sought.passes += 1;
        if sought.set == before {
            sought.passes -= u32::from(fault(Fault::LastPassUncounted));
            return sought;
        }
        if fault(Fault::SearchOfOnePass) || (fault(Fault::SearchEndsWithAllFound) && sought.set == u32::MAX) {
            return sought;
        }
    }
}
