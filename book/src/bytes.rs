//! The bytes of a book: reading and writing the commands of document 01, and of requests U1, U4 and U9 of document 02.

use crate::fault::Refusal;
use crate::grammar::{self, is_name, Grammar, Rule, Symbol, KINDS, PLACES, RULES};

pub const START: u8 = 0x10;
const RULE: u8 = 0x20;
const DATED_RULE: u8 = 0x21;
const KIND: u8 = 0x30;
const MARK: u8 = 0x40;
const RANGE: u8 = 0x41;
const END: u8 = 0x50;
const NAME: u8 = 0x60;
/// What a name is filled up with.
const BLANK: char = ' ';

/// Reads a book from the left. The first fault counts. At one command the faults are checked in the order 2, 3, 1,
/// then 4, 16 or 17, then 21, then 5 or 6.
pub fn loaded(book: &[u8]) -> Result<Grammar, Refusal> {
    let mut grammar = Grammar { start: 0, rules: Vec::new() };
    let mut at = 0;
    loop {
        let operands = operands(book, at, grammar.rules.last())?;
        if book[at] == END {
            break;
        }
        obey(&mut grammar, book[at], operands).map_err(|number| Refusal { number, offset: at })?;
        at += 1 + operands.len();
    }
    match at + 1 == book.len() {
        true => Ok(grammar),
        false => Err(Refusal { number: 7, offset: at + 1 }),
    }
}

/// The operands of the command at the offset. Or the fault that there is no command (1), that its byte is unknown
/// (2), that it is out of turn (3), or that the book ends inside it (1).
fn operands<'a>(book: &'a [u8], at: usize, open: Option<&Rule>) -> Result<&'a [u8], Refusal> {
    let ended = Refusal { number: 1, offset: book.len() };
    let command = *book.get(at).ok_or(ended)?;
    let (count, in_turn) = match command {
        START => (1, at == 0),
        RULE => (3, at > 0),
        DATED_RULE => (7, at > 0),
        KIND | MARK => (1, open.is_some()),
        RANGE => (2, open.is_some()),
        NAME => (grammar::NAME, open.is_some_and(|rule| rule.name.is_none())),
        END => (0, at > 0),
        _ => return Err(Refusal { number: 2, offset: at }),
    };
    if !in_turn {
        return Err(Refusal { number: 3, offset: at });
    }
    book.get(at + 1..at + 1 + count).ok_or(ended)
}

/// Adds to the grammar what a command in turn with all its operands says. Or the fault that its kind is over 31 (4),
/// that its range is reversed (16), its name is none or given before (17) or its years are reversed (21), that its rule
/// is the 129th (5), or that its place is the rule's ninth (6).
fn obey(grammar: &mut Grammar, command: u8, operands: &[u8]) -> Result<(), u8> {
    match (command, operands) {
        (START | RULE | DATED_RULE | KIND, [kind, ..]) if *kind >= KINDS => return Err(4),
        (RANGE, [low, high]) if low > high => return Err(16),
        _ => (),
    }
    match (command, operands) {
        (START, _) => grammar.start = operands[0],
        (RULE | DATED_RULE, &[left, low, high, ref years @ ..]) => {
            let years = years_of(years)?;
            if grammar.rules.len() == RULES {
                return Err(5);
            }
            let length = i16::from_le_bytes([low, high]);
            grammar.rules.push(Rule { left, length, years, places: Vec::new(), name: None });
        }
        (NAME, _) => {
            let letters = letters(operands).filter(|letters| !grammar.has_name(letters)).ok_or(17)?;
            let rule = grammar.rules.last_mut().expect("a name comes in turn");
            rule.name = Some(grammar::Name { letters, after: rule.places.len() });
        }
        _ => {
            let places = &mut grammar.rules.last_mut().expect("a place comes in turn").places;
            if places.len() == PLACES {
                return Err(6);
            }
            places.push(match command {
                KIND => Symbol::Nonterminal(operands[0]),
                MARK => Symbol::Terminal(operands[0]),
                _ => Symbol::Range(operands[0], operands[1]),
            });
        }
    }
    Ok(())
}

/// The years after the length of a rule, if there are any. Or the fault that they are reversed (21).
fn years_of(operands: &[u8]) -> Result<Option<(u16, u16)>, u8> {
    let &[first_low, first_high, last_low, last_high] = operands else { return Ok(None) };
    let (first, last) = (u16::from_le_bytes([first_low, first_high]), u16::from_le_bytes([last_low, last_high]));
    match first > last {
        true => Err(21),
        false => Ok(Some((first, last))),
    }
}

/// The letters and digits of a name with its filling; none if it is no name.
fn letters(operands: &[u8]) -> Option<String> {
    let letters = String::from_utf8(operands.to_vec()).ok()?;
    Some(letters.trim_end_matches(BLANK).to_string()).filter(|letters| is_name(letters))
}

/// The bytes of the book.
pub fn written(grammar: &Grammar) -> Vec<u8> {
    let mut book = vec![START, grammar.start];
    for rule in &grammar.rules {
        let [low, high] = rule.length.to_le_bytes();
        book.extend([if rule.years.is_some() { DATED_RULE } else { RULE }, rule.left, low, high]);
        if let Some((first, last)) = rule.years {
            book.extend([first.to_le_bytes(), last.to_le_bytes()].concat());
        }
        for at in 0..=rule.places.len() {
            if let Some(name) = rule.name.as_ref().filter(|name| name.after == at) {
                book.push(NAME);
                book.extend(format!("{:width$}", name.letters, width = grammar::NAME).bytes());
            }
            match rule.places.get(at) {
                None => (),
                Some(Symbol::Nonterminal(kind)) => book.extend([KIND, *kind]),
                Some(Symbol::Terminal(mark)) => book.extend([MARK, *mark]),
                Some(Symbol::Range(low, high)) => book.extend([RANGE, *low, *high]),
            }
        }
    }
    book.push(END);
    book
}
