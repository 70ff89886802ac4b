//! Names for the rules of random books (request U4 of document 02), bad names, and damage to names.

use super::{Draft, Rng};
use crate::lister::grammar::{commands, operands};
use std::collections::BTreeSet;

/// A name with its filling.
pub type Name = [u8; 8];

/// Bytes that are no letters or digits of a name; most stand right beside one, or have a meaning in a text.
const OTHERS: [u8; 20] = *b"@[/:az\x00\x00\x1F!\xFF\xC1\xB0#(),=_\x7F";

/// Names that have a front in common, among them the shortest and the longest.
const FRONTS: [&str; 12] =
    ["A", "AB", "ABC", "ABCDEFGH", "ABCDEFGI", "ABCDEFG", "B", "AA", "A0", "ZZZZZZZZ", "ZZZZZZZ", "Z"];

/// The name with its filling.
pub fn filled(letters: &str) -> Name {
    let mut name = [b' '; 8];
    name[..letters.len()].copy_from_slice(letters.as_bytes());
    name
}

/// Random letters and digits, so many of them; often those at the ends.
fn letters(rng: &mut Rng, count: usize) -> String {
    let any: Vec<char> = ('A'..='Z').chain('0'..='9').collect();
    (0..count)
        .map(|_| if rng.one_in(2) { rng.pick(&['A', 'B', 'Y', 'Z', '0', '1', '8', '9']) } else { rng.pick(&any) })
        .collect()
}

/// A random name of a style: common fronts, eight letters that mostly differ in the last ones only, digits, or any letters.
fn name(rng: &mut Rng, style: usize) -> Name {
    let length = rng.pick(&[1, 2, 2, 3, 7, 8]);
    filled(&match style {
        0 => rng.pick(&FRONTS).to_string(),
        1 if rng.one_in(4) => letters(rng, 8),
        1 => format!("HOUSIN{}", letters(rng, 2)),
        2 => (0..length).map(|_| char::from(b'0' + rng.below(10) as u8)).collect(),
        _ => letters(rng, length),
    })
}

/// Names the rules of a draft: none in two books of seven, all in two, and some in three. The 60 of a name comes before, between
/// or after the places of its rule.
pub(super) fn christen(rng: &mut Rng, draft: &mut Draft) {
    let (whose, style) = (rng.below(7), rng.below(4));
    let mut given = BTreeSet::new();
    for number in 0..draft.rules.len() {
        if whose < 2 || (whose > 3 && rng.one_in(2)) {
            continue;
        }
        // too few names of the style: any letters
        let tried = (0..9).map(|at| name(rng, if at < 5 { style } else { 3 })).find(|name| !given.contains(name));
        if let Some(name) = tried {
            given.insert(name);
            let places = draft.rules[number].2.len();
            let any = rng.within(0, places);
            draft.names.insert(number, (name, rng.pick(&[0, any, places])));
        }
    }
}

/// Eight bytes that are no name, and why.
pub fn bad_name(rng: &mut Rng) -> (Name, &'static str) {
    let length = rng.pick(&[1, 2, 3, 7, 8]);
    let mut name = filled(&letters(rng, length));
    match rng.below(6) {
        0 => ([b' '; 8], "empty"),
        1 => ([0; 8], "zeros"),
        2 | 3 => {
            let last = length.min(7);
            let any = rng.below(8);
            name[rng.pick(&[0, last, any])] = rng.pick(&OTHERS);
            (name, "another byte")
        }
        4 if rng.one_in(2) => {
            name[0] = 0;
            (name, "a zero first")
        }
        4 => {
            name[length.min(7)..].fill(0);
            (name, "filled with zeros")
        }
        _ => {
            let blank = rng.below(7);
            let letter = rng.within(blank + 1, 7);
            (name[blank], name[letter]) = (b' ', rng.pick(b"AZ09"));
            (name, "a blank before a letter")
        }
    }
}

/// A command 60: one in three has no name, and the others often have one that comes again.
pub(super) fn name_command(rng: &mut Rng) -> Vec<u8> {
    let name = match rng.below(3) {
        0 => bad_name(rng).0,
        1 => filled(rng.pick(&["A", "AB", "B", "ABCDEFGH"])),
        _ => {
            let style = rng.below(4);
            name(rng, style)
        }
    };
    [&[0x60][..], &name].concat()
}

/// Puts a name where a command begins; cut short once in six times, which cuts the book too. Or spoils a name that is there:
/// by another byte, a blank, or the bytes of a name before it.
pub(super) fn damage_names(rng: &mut Rng, book: &mut Vec<u8>) {
    let mut all = commands(book);
    all.retain(|at| at + operands(book[*at]).unwrap_or(0) < book.len()); // whole ones
    let named: Vec<usize> = all.iter().copied().filter(|at| book[*at] == 0x60).collect();
    if !named.is_empty() && rng.one_in(2) {
        let (at, other) = (rng.pick(&named), rng.pick(&named));
        match rng.below(4) {
            0 => book[at + 1 + rng.below(8)] = rng.pick(&OTHERS),
            1 => book[at + 1 + rng.below(8)] = rng.pick(b" A0"),
            2 => book.copy_within(other + 1..other + 9, at + 1),
            _ => drop(book.splice(at + 1..at + 9, bad_name(rng).0)),
        }
    } else {
        let at = if all.is_empty() { 0 } else { rng.pick(&all) };
        let command = match named.first() {
            Some(_) if rng.one_in(4) => {
                let earlier = rng.pick(&named);
                book[earlier..earlier + 9].to_vec()
            }
            _ => name_command(rng),
        };
        book.splice(at..at, command);
        if rng.one_in(6) {
            book.truncate(at + rng.within(1, 8));
        }
    }
}
