//! Rules to learn (request U8 of document 02), as the bytes of one rule, and damage to them.

use super::dated::dated_rule;
use super::named::name_command;
use super::{bad_name, damage, filled, Rng, A, B};
use crate::lister::grammar::{commands, operands, Grammar, Symbol};

/// Places of random rules, and the one that is too many.
const PLACES: usize = 8;

/// The kinds that a book uses, its start more than once, and a few others.
fn kinds(book: &Grammar) -> Vec<u8> {
    let of_rules = book.numbered().map(|(_, rule)| rule.left);
    of_rules.chain([book.start; 3]).chain([0, 1, 31]).collect()
}

/// The marks of a book's places, and two others.
fn marks(book: &Grammar) -> Vec<u8> {
    let places = book.numbered().flat_map(|(_, rule)| &rule.places);
    let of_places = places.filter_map(|place| match *place {
        Symbol::Terminal(mark) | Symbol::Range(mark, _) => Some(mark),
        Symbol::Nonterminal(_) => None,
    });
    of_places.chain([A, B]).collect()
}

/// A command that opens a rule. Years are at or beside this one.
fn opening(rng: &mut Rng, book: &Grammar, year: u16) -> Vec<u8> {
    let mut bytes = vec![0x20, rng.pick(&kinds(book))];
    bytes.extend(rng.pick(&[0, 25, 150, -1, i16::MIN, i16::MAX]).to_le_bytes());
    if rng.one_in(3) {
        bytes[0] = 0x21;
        let (before, after) = (year.saturating_sub(1), year.saturating_add(1));
        let years =
            rng.pick(&[[0, before], [year, year], [0, year], [year, u16::MAX], [after, u16::MAX], [0, u16::MAX]]);
        years.iter().for_each(|year: &u16| bytes.extend(year.to_le_bytes()));
    }
    bytes
}

/// A command that adds a place.
fn place(rng: &mut Rng, book: &Grammar) -> Vec<u8> {
    let (kind, mark) = (rng.pick(&kinds(book)), rng.pick(&marks(book)));
    match rng.below(6) {
        0..=2 => vec![0x30, kind],
        3 | 4 => vec![0x40, mark],
        _ => rng.pick(&[[0x41, mark, mark], [0x41, 0, 255], [0x41, mark, 255], [0x41, 0, mark]]).to_vec(),
    }
}

/// A command 60: any name, or that of a rule of the book, often the first or the last that has one.
fn name(rng: &mut Rng, book: &Grammar) -> Vec<u8> {
    let given: Vec<[u8; 8]> = book.numbered().filter_map(|(_, rule)| rule.name).collect();
    match (given.first(), given.last()) {
        (Some(first), Some(last)) if rng.one_in(4) => {
            let any = rng.pick(&given);
            [&[0x60][..], &rng.pick(&[*first, *last, any])].concat()
        }
        _ if rng.one_in(2) => name_command(rng),
        _ => [&[0x60][..], &filled(&format!("L{}", rng.below(10_000)))].concat(),
    }
}

/// The bytes of one rule, whose name may be refused: often without places, which makes its left side nullable.
pub fn rule_to_learn(rng: &mut Rng, book: &Grammar, year: u16) -> Vec<u8> {
    let mut bytes = opening(rng, book, year);
    let any = rng.within(1, PLACES);
    let count = rng.pick(&[0, 0, 1, 1, 2, 2, 3, any]);
    let named = rng.pick(&[Some(0), Some(count), Some(count / 2), None, None, None]);
    for number in 0..=count {
        if named == Some(number) {
            bytes.extend(name(rng, book));
        }
        if number < count {
            bytes.extend(place(rng, book));
        }
    }
    bytes
}

/// Where a command of a rule begins, or the bytes end.
fn between(rng: &mut Rng, bytes: &[u8]) -> usize {
    let mut all = commands(bytes);
    all.retain(|at| *at <= bytes.len());
    all.push(bytes.len());
    rng.pick(&all)
}

/// A command that a rule may not have where it is put: 10, 50, or one that opens a rule. Cut short once in three times.
fn misplaced(rng: &mut Rng) -> Vec<u8> {
    let mut command = match rng.below(5) {
        0 => vec![0x10, rng.pick(&[0, 31, 32])],
        1 => vec![0x50],
        2 => dated_rule(rng).to_vec(),
        _ => vec![0x20, rng.pick(&[0, 31, 32]), 1, 0],
    };
    if rng.one_in(3) {
        command.truncate(rng.within(1, command.len()));
    }
    command
}

/// Eight or nine places at the end, or a place that is faulty as well.
fn many_places(rng: &mut Rng, bytes: &mut Vec<u8>) {
    let has = commands(bytes).iter().filter(|at| matches!(bytes[**at], 0x30 | 0x40 | 0x41)).count();
    bytes.extend([0x40, A].repeat(PLACES.saturating_sub(has)));
    match rng.below(5) {
        0 => (),
        1 => bytes.extend([0x30, 32]),
        2 => bytes.extend([0x41, B, A]),
        3 => bytes.extend([0x41, A, B]),
        _ => bytes.extend([0x40, A]),
    }
}

/// Spoils the bytes of a rule in one of the ways that have a refusal, or in any.
pub fn spoil_rule(rng: &mut Rng, bytes: &mut Vec<u8>, book: &Grammar) {
    let at = between(rng, bytes);
    let last = commands(bytes).last().copied().unwrap_or(0);
    match rng.below(20) {
        0 => bytes.clear(),
        1 | 2 => bytes.truncate(rng.within(last.min(bytes.len()), bytes.len())),
        3 => bytes.truncate(rng.below(bytes.len() + 1)),
        4 | 5 => drop(bytes.splice(at..at, misplaced(rng))),
        6 => bytes
            .splice(0..0, rng.pick(&[&[0x30, 0][..], &[0x40, A], &[0x41, A, B], &[0x10, 0], &[0x50]]).to_vec())
            .for_each(drop),
        7 => drop(bytes.splice(0..0, name(rng, book))),
        8 => bytes.push(0x50),
        9 => bytes.insert(at, rng.pick(&[0x00, 0x11, 0x22, 0x31, 0x42, 0x51, 0x61, 0xFF])),
        10 => {
            let second = [name(rng, book), name(rng, book)].concat();
            let cut = if rng.one_in(2) { rng.within(10, second.len()) } else { second.len() };
            let end = bytes.len();
            bytes.splice(end..end, second[..cut].to_vec());
        }
        11 if bytes.len() > 1 => {
            bytes[1] = rng.pick(&[31, 32, 33, 255]);
            if rng.one_in(3) {
                bytes.truncate(rng.within(2, 4));
            }
        }
        12 => bytes.extend(rng.pick(&[[0x30, 32, 0x40], [0x41, B, A], [0x41, 255, 0], [0x30, 255, 0x30]])),
        13 | 18 | 19 => {
            let years = dated_rule(rng);
            bytes.splice(..bytes.len().min(1 + operands(bytes.first().copied().unwrap_or(0)).unwrap_or(0)), years);
        }
        14 | 16 => many_places(rng, bytes),
        17 => bytes.extend(rng.pick(&[[0x10, 0, 0x40], [0x10, 32, 0x50], [0x30, 0, 0x10]])),
        15 if rng.one_in(2) => bytes.extend([&[0x60][..], &bad_name(rng).0].concat()),
        _ => damage(rng, bytes),
    }
}
