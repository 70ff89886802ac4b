//! Loading a book: one command after the other, by a match over its first byte; then the nullable kinds, by passes
//! until one adds nothing; then their depth, level by level.

use super::names::{self, Name, Names};
use super::{Grammar, Refusal, Rule, Symbol, PLACES, RULES};

/// A rule and a place have as many operands as they say, a name has eight.
pub(super) enum Command {
    Start(u8),
    Rule(Rule, usize),
    Place(Symbol, usize),
    Name(Name),
    End,
}

/// What is known of a grammar being read: how many rules it has, and of the open one how many places, and whether it has a name.
#[derive(Clone, Copy)]
pub(super) struct Open {
    rules: usize,
    places: usize,
    pub(super) named: bool,
}

impl Open {
    pub(super) fn of(g: &Grammar) -> Open {
        match g.count.checked_sub(1).map(|last| &g.rules[last]) {
            Some(open) => Open { rules: g.count, places: open.count, named: open.name != names::NONE },
            None => Open { rules: 0, places: 0, named: false },
        }
    }
}

pub(super) fn unknown(byte: u8) -> bool {
    !matches!(byte, 0x10 | 0x20 | 0x21 | 0x30 | 0x40 | 0x41 | 0x50 | 0x60)
}

fn out_of_turn(byte: u8, at: usize, open: Open) -> bool {
    match byte {
        0x10 => at > 0,
        0x60 => at == 0 || open.rules == 0 || open.named,
        0x30 | 0x40 | 0x41 => at == 0 || open.rules == 0,
        _ => at == 0,
    }
}

/// The known command at a byte, once its turn is checked.
#[inline]
pub(super) fn operands_at(bytes: &[u8], at: usize, open: Open) -> Result<Command, (Refusal, usize)> {
    match (bytes[at], &bytes[at + 1..]) {
        (0x10, &[k, ..]) if k > 31 => Err((Refusal::NonterminalTooLarge, at)),
        (0x10, &[k, ..]) => Ok(Command::Start(k)),
        (0x20, &[k, low, high, ..]) => {
            if k > 31 {
                return Err((Refusal::NonterminalTooLarge, at));
            }
            if open.rules >= RULES {
                return Err((Refusal::TooManyRules, at));
            }
            let length = i16::from_le_bytes([low, high]);
            Ok(Command::Rule(Rule { left: k, length, last: u16::MAX, ..Rule::ZERO }, 3))
        }
        (0x21, &[k, low, high, first_low, first_high, last_low, last_high, ..]) => {
            if k > 31 {
                return Err((Refusal::NonterminalTooLarge, at));
            }
            let length = i16::from_le_bytes([low, high]);
            let first = u16::from_le_bytes([first_low, first_high]);
            let last = u16::from_le_bytes([last_low, last_high]);
            if first > last {
                return Err((Refusal::YearsReversed, at));
            }
            if open.rules >= RULES {
                return Err((Refusal::TooManyRules, at));
            }
            Ok(Command::Rule(Rule { left: k, length, first, last, ..Rule::ZERO }, 7))
        }
        (byte @ (0x30 | 0x40 | 0x41), operands) => {
            let place = match (byte, operands) {
                (0x30, &[k, ..]) if k > 31 => return Err((Refusal::NonterminalTooLarge, at)),
                (0x41, &[low, high, ..]) if low > high => return Err((Refusal::RangeReversed, at)),
                (0x30, &[k, ..]) => Command::Place(Symbol::Nonterminal(k), 1),
                (0x40, &[m, ..]) => Command::Place(Symbol::Terminal(m), 1),
                (0x41, &[low, high, ..]) => Command::Place(Symbol::Range(low, high), 2),
                _ => return Err((Refusal::UnexpectedEnd, bytes.len())),
            };
            if open.places >= PLACES {
                return Err((Refusal::TooManyPlaces, at));
            }
            Ok(place)
        }
        (0x60, operands) => match operands.first_chunk() {
            Some(name) if names::valid(name) => Ok(Command::Name(*name)),
            Some(_) => Err((Refusal::InvalidName, at)),
            None => Err((Refusal::UnexpectedEnd, bytes.len())),
        },
        (0x50, &[]) => Ok(Command::End),
        (0x50, _) => Err((Refusal::FurtherByte, at + 1)),
        _ => Err((Refusal::UnexpectedEnd, bytes.len())),
    }
}

/// The command at a byte of a book.
fn command(bytes: &[u8], at: usize, open: Open) -> Result<Command, (Refusal, usize)> {
    let Some(&byte) = bytes.get(at) else {
        return Err((Refusal::UnexpectedEnd, bytes.len()));
    };
    if unknown(byte) {
        return Err((Refusal::UnknownCommand, at));
    }
    if out_of_turn(byte, at, open) {
        return Err((Refusal::OutOfTurn, at));
    }
    operands_at(bytes, at, open)
}

/// Whether each place of the rule holds a known kind.
fn rule_in(rule: &Rule, known: u32) -> bool {
    rule.places[..rule.count].iter().all(|s| matches!(s, Symbol::Nonterminal(k) if known >> k & 1 == 1))
}

/// The nullable kinds. In a pass a find counts at once.
pub(super) fn nullable_set(g: &Grammar) -> u32 {
    let mut set = 0u32;
    loop {
        let before = set;
        for rule in &g.rules[..g.count] {
            if rule_in(rule, set) {
                set |= 1 << rule.left;
            }
        }
        if set == before {
            return set;
        }
    }
}

/// The level above a level: the left sides of the rules over it. A find does not count at once.
fn level_above(g: &Grammar, level: u32) -> u32 {
    g.rules[..g.count].iter().filter(|rule| rule_in(rule, level)).fold(0, |above, rule| above | 1 << rule.left)
}

/// How many levels there are above the empty one, up to that of all nullable kinds.
pub(super) fn nullable_depth(g: &Grammar, set: u32) -> u8 {
    let (mut level, mut depth) = (0, 0);
    while level != set {
        level = level_above(g, level);
        depth += 1;
    }
    depth
}

pub fn load(bytes: &[u8]) -> Result<Grammar, (Refusal, usize)> {
    load_with(bytes, &mut [0; RULES])
}

/// Loads a book, and says where the name of each rule begins that has one.
pub fn load_with(bytes: &[u8], parts: &mut [usize; RULES]) -> Result<Grammar, (Refusal, usize)> {
    let mut g = Grammar::ZERO;
    let mut known = Names::EMPTY;
    let mut at = 0;
    loop {
        let command = command(bytes, at, Open::of(&g))?;
        match command {
            Command::Name(_) => parts[g.count - 1] = at + 1,
            Command::End => {
                g.depth = nullable_depth(&g, nullable_set(&g));
                return Ok(g);
            }
            _ => (),
        }
        at = carried_out(command, at, &mut g, &mut known)?;
    }
}

/// Carries out the command at a byte. Returns where the next one begins.
#[inline]
pub(super) fn carried_out(
    command: Command,
    at: usize,
    g: &mut Grammar,
    known: &mut Names,
) -> Result<usize, (Refusal, usize)> {
    let n = g.count;
    match command {
        Command::Start(k) => {
            g.start = k;
            Ok(at + 2)
        }
        Command::Rule(rule, operands) => {
            g.rules[n] = rule;
            g.count += 1;
            Ok(at + 1 + operands)
        }
        Command::Place(symbol, operands) => {
            let rule = &mut g.rules[n - 1];
            rule.places[rule.count] = symbol;
            rule.count += 1;
            Ok(at + 1 + operands)
        }
        Command::Name(name) => {
            if known.has(&name, n - 1) {
                return Err((Refusal::InvalidName, at));
            }
            known.set(n - 1, &name);
            g.rules[n - 1].name = name;
            Ok(at + 9)
        }
        Command::End => Ok(at + 1),
    }
}
