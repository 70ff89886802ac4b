//! Names of rules: eight bytes, which are compared as one number of 64 bits; and the lookup of a name in a book.

use super::{loader, Rule, RULES};
use std::ops::Range;

pub type Name = [u8; 8];

/// The name of a rule without one.
pub const NONE: Name = [0; 8];

/// Where the filling of a name begins.
pub fn end(name: &Name) -> usize {
    name.iter().position(|&byte| byte == b' ').unwrap_or(8)
}

/// A name is one to eight capitals and digits, and then blanks.
pub fn valid(name: &Name) -> bool {
    let (front, filling) = name.split_at(end(name));
    let letter = |&byte: &u8| byte.is_ascii_uppercase() || byte.is_ascii_digit();
    !front.is_empty() && front.iter().all(letter) && filling.iter().all(|&byte| byte == b' ')
}

/// The names of the rules so far, each as a number: 0 for none.
pub struct Names {
    numbers: [u64; RULES],
}

impl Names {
    pub const EMPTY: Names = Names { numbers: [0; RULES] };

    pub fn of(rules: &[Rule]) -> Names {
        let mut names = Names::EMPTY;
        names.numbers.iter_mut().zip(rules).for_each(|(number, rule)| *number = u64::from_le_bytes(rule.name));
        names
    }

    /// Whether one of the first n rules has this name.
    pub fn has(&self, name: &Name, n: usize) -> bool {
        self.numbers[..n].contains(&u64::from_le_bytes(*name))
    }

    pub fn set(&mut self, rule: usize, name: &Name) {
        self.numbers[rule] = u64::from_le_bytes(*name);
    }
}

/// Whether no two of the rules have one name.
pub fn distinct(rules: &[Rule]) -> bool {
    let mut names = Names::EMPTY;
    rules.iter().enumerate().all(|(n, rule)| {
        let new = rule.name == NONE || !names.has(&rule.name, n);
        names.set(n, &rule.name);
        new
    })
}

/// Where the name of a rule is in the bytes of its book, without its filling. None if the bytes do not load, or there
/// is no such rule, or it has no name.
pub fn lookup(book: &[u8], rule: usize) -> Option<Range<usize>> {
    let mut parts = [0; RULES];
    let g = loader::load_with(book, &mut parts).ok()?;
    let name = g.rules[..g.count].get(rule).map(|rule| rule.name).filter(|name| *name != NONE)?;
    Some(parts[rule]..parts[rule] + end(&name))
}
