//! The copy of a grammar for inner loops: 128 rows of 26 bytes. The rows of unused rules have the left side 255.

use super::{Grammar, Symbol, PLACES, RULES};

/// Tag 0 is a nonterminal, 1 a terminal, 2 a range from `value` to `high`.
#[derive(Clone, Copy)]
pub struct Place {
    pub tag: u8,
    pub value: u8,
    high: u8,
}

#[derive(Clone, Copy)]
pub struct Rule {
    pub left: u8,
    count: u8,
    places: [Place; PLACES],
}

#[derive(Clone)]
pub struct Packed {
    pub rules: [Rule; RULES],
}

impl Place {
    pub fn is_nonterminal(self) -> bool {
        self.tag == 0
    }

    pub fn fits(self, mark: u8) -> bool {
        match self.tag {
            1 => self.value == mark,
            2 => self.value <= mark && mark <= self.high,
            _ => false,
        }
    }
}

impl Rule {
    /// The places; none if there is no such rule.
    pub fn places(&self) -> &[Place] {
        if self.left < 32 {
            &self.places[..(self.count as usize).min(PLACES)]
        } else {
            &[]
        }
    }
}

impl Packed {
    /// The copy for a year. The row of a rule out of force is that of an unused one.
    pub fn new(g: &Grammar, year: u16) -> Packed {
        let none = Rule { left: 255, count: 255, places: [Place { tag: 255, value: 255, high: 255 }; PLACES] };
        let mut p = Packed { rules: [none; RULES] };
        for (row, rule) in p.rules.iter_mut().zip(&g.rules[..g.count]).filter(|(_, rule)| rule.in_force(year)) {
            row.left = rule.left;
            row.count = rule.count as u8;
            for (place, symbol) in row.places.iter_mut().zip(&rule.places[..rule.count]) {
                *place = match *symbol {
                    Symbol::Nonterminal(k) => Place { tag: 0, value: k, high: 0 },
                    Symbol::Terminal(m) => Place { tag: 1, value: m, high: 0 },
                    Symbol::Range(low, high) => Place { tag: 2, value: low, high },
                };
            }
        }
        p
    }

    /// The rules up to the last one in use.
    pub fn used(&self) -> &[Rule] {
        let end = self.rules.iter().rposition(|rule| rule.left < 32).map_or(0, |last| last + 1);
        &self.rules[..end]
    }
}

pub fn contains(set: u32, k: usize) -> bool {
    k < 32 && set >> k & 1 == 1
}
