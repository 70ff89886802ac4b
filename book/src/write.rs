//! The text of a book, always written in the same way.

use crate::grammar::{Grammar, Name, Rule, Symbol};

/// The text: the start kind, then a line for each rule.
pub fn text(grammar: &Grammar) -> String {
    let rules: String = grammar.rules.iter().map(line).collect();
    format!("start {}\n{rules}", grammar.start)
}

/// A rule's line.
fn line(rule: &Rule) -> String {
    let mut places: Vec<String> = rule.places.iter().map(place).collect();
    if places.is_empty() {
        places.push("-".to_string());
    }
    let years = rule.years.map_or(String::new(), |(first, last)| format!(" years {first} {last}"));
    let name = rule.name.as_ref().map_or(String::new(), |Name { letters, after }| match *after {
        after if after == rule.places.len() => format!(" name {letters}"),
        after => format!(" name {letters} after {after}"),
    });
    format!("{} -> {} : {}{years}{name}\n", rule.left, places.join(" "), millimetres(rule.length))
}

/// A place: a kind in decimal, a mark, or a range as two marks.
fn place(symbol: &Symbol) -> String {
    match *symbol {
        Symbol::Nonterminal(kind) => kind.to_string(),
        Symbol::Terminal(byte) => mark(byte),
        Symbol::Range(low, high) => format!("{}..{}", mark(low), mark(high)),
    }
}

/// A mark: in quotes if it is printable ASCII other than the quote and the backslash, otherwise in hexadecimal.
fn mark(byte: u8) -> String {
    match byte {
        b'\'' | b'\\' => format!("={byte:02X}"),
        b' '..=b'~' => format!("'{}'", char::from(byte)),
        _ => format!("={byte:02X}"),
    }
}

/// A length in millimetres with two decimals.
fn millimetres(length: i16) -> String {
    let sign = if length < 0 { "-" } else { "" };
    let hundredths = length.unsigned_abs();
    format!("{sign}{}.{:02}", hundredths / 100, hundredths % 100)
}
