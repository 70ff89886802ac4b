//! The algorithms of the proved library in plain Rust. Where the proved code passes structs by value, this code uses
//! references. It uses iterators and slices with their ordinary bounds checks, and nothing unsafe. It computes the same,
//! in the same order.

pub mod checker;
pub mod enumerator;
pub mod flat;
pub mod hand;
pub mod learn;
pub mod listing;
pub mod loader;
pub mod names;
pub mod packed;
pub mod points;
pub mod recognizer;
pub mod spans;
pub mod tables;
pub mod words;

pub use filbozseg::Refusal;
pub use names::Name;

pub const RULES: usize = 128;
pub const PLACES: usize = 8;
pub const INPUT: usize = 64;
pub const CHART: usize = 4225;

#[derive(Clone, Copy, Debug, PartialEq)]
pub enum Symbol {
    Nonterminal(u8),
    Terminal(u8),
    Range(u8, u8),
}

impl Symbol {
    fn valid(&self) -> bool {
        match *self {
            Symbol::Nonterminal(k) => k < 32,
            Symbol::Terminal(_) => true,
            Symbol::Range(low, high) => low <= high,
        }
    }
}

#[derive(Clone, Copy, Debug, PartialEq)]
pub struct Rule {
    pub left: u8,
    pub length: i16,
    pub count: usize,
    pub places: [Symbol; PLACES],
    pub first: u16,
    pub last: u16,
    pub name: Name,
}

#[derive(Clone, Debug, PartialEq)]
pub struct Grammar {
    pub start: u8,
    pub count: usize,
    pub depth: u8,
    pub rules: [Rule; RULES],
}

impl Rule {
    pub const ZERO: Rule = Rule {
        left: 0,
        length: 0,
        count: 0,
        places: [Symbol::Nonterminal(0); PLACES],
        first: 0,
        last: 0,
        name: names::NONE,
    };

    fn valid(&self) -> bool {
        self.left < 32
            && self.count <= PLACES
            && self.places[..self.count].iter().all(Symbol::valid)
            && self.first <= self.last
            && (self.name == names::NONE || names::valid(&self.name))
    }

    /// Whether the rule is in force in the year.
    pub fn in_force(&self, year: u16) -> bool {
        self.first <= year && year <= self.last
    }
}

impl Grammar {
    pub const ZERO: Grammar = Grammar { start: 0, count: 0, depth: 0, rules: [Rule::ZERO; RULES] };

    /// Check 8.
    pub fn valid(&self) -> bool {
        self.start < 32
            && self.count <= RULES
            && self.rules[..self.count].iter().all(Rule::valid)
            && names::distinct(&self.rules[..self.count])
    }
}

#[cfg(test)]
mod tests;
