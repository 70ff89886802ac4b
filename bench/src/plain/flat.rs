//! A grammar as the row of 3,715 numbers that C passes: start, count, depth, then 29 numbers for each rule.

use super::{Grammar, Rule, Symbol};

pub const FLAT: usize = 3715;

/// How many numbers a rule has, where its first year is, and where its name begins.
const RULE: usize = 29;
const FIRST: usize = 19;
const NAME: usize = FIRST + 2;

/// A number as a byte: a number over 255 becomes 255, which check 8 refuses.
fn byte(number: u16) -> u8 {
    number.min(255) as u8
}

/// The symbol of a tag and a value. If they are no symbol, the nonterminal 255, which check 8 refuses.
fn symbol(tag: u16, value: u16) -> Symbol {
    match tag {
        0 => Symbol::Nonterminal(byte(value)),
        1 if value <= 255 => Symbol::Terminal(byte(value)),
        2 => {
            let [low, high] = value.to_le_bytes();
            Symbol::Range(low, high)
        }
        _ => Symbol::Nonterminal(255),
    }
}

/// The grammar in a row. All 16 bits of each number count: one too large for its field is read as a value that check
/// 8 refuses.
pub fn read(flat: &[u16; FLAT]) -> Grammar {
    let mut g = Grammar::ZERO;
    g.start = byte(flat[0]);
    g.count = flat[1] as usize;
    g.depth = byte(flat[2]);
    for (rule, f) in g.rules.iter_mut().zip(flat[3..].chunks_exact(RULE)) {
        rule.left = byte(f[0]);
        rule.length = f[1] as i16;
        rule.count = f[2] as usize;
        for (place, f) in rule.places.iter_mut().zip(f[3..FIRST].chunks_exact(2)) {
            *place = symbol(f[0], f[1]);
        }
        (rule.first, rule.last) = (f[FIRST], f[FIRST + 1]);
        for (letter, &number) in rule.name.iter_mut().zip(&f[NAME..]) {
            *letter = byte(number);
        }
    }
    g
}

fn write_rule(rule: &Rule, f: &mut [u16]) {
    f[0] = rule.left as u16;
    f[1] = rule.length as u16;
    f[2] = rule.count as u16;
    (f[FIRST], f[FIRST + 1]) = (rule.first, rule.last);
    for (number, &letter) in f[NAME..].iter_mut().zip(&rule.name) {
        *number = letter.into();
    }
    for (place, f) in rule.places.iter().zip(f[3..FIRST].chunks_exact_mut(2)) {
        (f[0], f[1]) = match *place {
            Symbol::Nonterminal(k) => (0, k as u16),
            Symbol::Terminal(m) => (1, m as u16),
            Symbol::Range(low, high) => (2, u16::from_le_bytes([low, high])),
        };
    }
}

pub fn write(g: &Grammar, flat: &mut [u16; FLAT]) {
    flat[0] = g.start as u16;
    flat[1] = g.count as u16;
    flat[2] = g.depth as u16;
    for (rule, f) in g.rules.iter().zip(flat[3..].chunks_exact_mut(RULE)) {
        write_rule(rule, f);
    }
}
