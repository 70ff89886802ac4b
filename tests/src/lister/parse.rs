//! The way back from a text to the plate and the reading that it is of. It goes by the text alone; the grammar only says which
//! rule has which name.

use super::grammar::Grammar;
use super::names;
use super::trees::Row;

/// The plate and the reading of a text; None if it is no text of a reading.
pub fn parsed(grammar: &Grammar, text: &[u8]) -> Option<(Vec<u8>, Row)> {
    let mut parser = Parser { grammar, rest: text, plate: Vec::new(), row: Row::new() };
    parser.node()?;
    parser.rest.is_empty().then_some((parser.plate, parser.row))
}

/// A text being parsed: what is left of it, and plate and reading so far.
struct Parser<'a> {
    grammar: &'a Grammar,
    rest: &'a [u8],
    plate: Vec<u8>,
    row: Row,
}

impl Parser<'_> {
    /// A node: what its rule is called, `(`, its places with commas between, and `)`.
    fn node(&mut self) -> Option<()> {
        let end = self.rest.iter().position(|byte| *byte == b'(')?;
        let (called, rest) = self.rest.split_at(end);
        let (at, marks) = (self.row.len(), self.plate.len());
        self.row.extend([0, rule(self.grammar, called)?]);
        self.rest = &rest[1..];
        if self.rest.first() != Some(&b')') {
            self.place()?;
            while self.rest.first() == Some(&b',') {
                self.rest = &self.rest[1..];
                self.place()?;
            }
        }
        self.rest = self.rest.strip_prefix(b")")?;
        self.row[at] = (self.plate.len() - marks) as u16;
        Some(())
    }

    /// A place: `=` and two digits, or a node.
    fn place(&mut self) -> Option<()> {
        match *self.rest {
            [b'=', high, low, ref rest @ ..] => {
                self.plate.push(16 * digit(high)? + digit(low)?);
                self.rest = rest;
                Some(())
            }
            _ => self.node(),
        }
    }
}

/// The value of a hexadecimal digit; letters are capitals.
fn digit(byte: u8) -> Option<u8> {
    match byte {
        b'0'..=b'9' => Some(byte - b'0'),
        b'A'..=b'F' => Some(byte - b'A' + 10),
        _ => None,
    }
}

/// The only rule that is called so: by its name, or by `#` and three digits if it has none.
fn rule(grammar: &Grammar, called: &[u8]) -> Option<u16> {
    if let [b'#', digits @ ..] = called {
        let decimal = digits.len() == 3 && digits.iter().all(u8::is_ascii_digit);
        let number = std::str::from_utf8(digits).ok().filter(|_| decimal)?.parse().ok()?;
        return grammar.rule(usize::from(number)).filter(|rule| rule.name.is_none()).map(|_| number);
    }
    let has_name = |name: &Option<names::Name>| name.as_ref().is_some_and(|name| names::bare(name) == called);
    let mut named = grammar.numbered().filter(|(_, rule)| has_name(&rule.name));
    let (number, _) = named.next()?;
    named.next().is_none().then_some(number as u16)
}
