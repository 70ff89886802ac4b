//! Names of rules, by request U4 of document 02: what a name is, check 17 of a book, the names of check 8, and the lookup.

use super::grammar::{self, Grammar, Rule};
use crate::reader::{record, FlatGrammar, NAME, NAME_WIDTH, RULES};
use crate::switches::{fault, low_byte, Fault};

/// A name with its filling: one to eight capitals and digits, then only blanks.
pub type Name = [u8; NAME_WIDTH];

const BLANK: u8 = b' ';

/// The faults of a check that lets a bad name through: an empty one, another byte, a blank before a letter or digit.
type LetThrough = [Fault; 3];

const BY_LOADING: LetThrough = [Fault::EmptyNameLoaded, Fault::OtherByteLoaded, Fault::BlankBeforeALetterLoaded];
const BY_CHECK_8: LetThrough =
    [Fault::EmptyNamePassesCheck8, Fault::OtherBytePassesCheck8, Fault::BlankBeforeALetterPassesCheck8];

/// Whether a byte is a capital or a digit.
fn is_letter(byte: u8) -> bool {
    let one = |which: Fault| u8::from(fault(which));
    let first = b'A' + one(Fault::LettersFromB) - one(Fault::LettersFromAtSign);
    let last = b'Z' - one(Fault::LettersToY) + one(Fault::LettersToBracket);
    let zero = b'0' + one(Fault::DigitsFrom1) - one(Fault::DigitsFromSlash);
    let nine = b'9' - one(Fault::DigitsTo8) + one(Fault::DigitsToColon);
    (first..=last).contains(&byte) || (zero..=nine).contains(&byte)
}

/// The letters and digits at the front.
fn letters(bytes: &[u8]) -> usize {
    bytes.iter().take_while(|byte| is_letter(**byte)).count()
}

/// Whether the bytes are a name: not empty, no other byte, and no blank before a letter or digit.
fn is_name(bytes: &[u8], [empty, other, blank]: LetThrough) -> bool {
    let known = |byte: &u8| is_letter(*byte) || *byte == BLANK;
    let after = &bytes[letters(bytes)..];
    (bytes.iter().any(|byte| *byte != BLANK) || fault(empty))
        && (bytes.iter().all(known) || fault(other))
        && (!after.iter().any(|byte| is_letter(*byte)) || fault(blank))
}

/// What is compared of a name: all eight bytes.
fn compared(name: &[u8], last_unread: Fault) -> &[u8] {
    &name[..NAME_WIDTH - usize::from(fault(last_unread))]
}

/// The name without its filling.
pub fn bare(name: &Name) -> &[u8] {
    let end = name.iter().rposition(|byte| *byte != BLANK).map_or(0, |last| last + 1);
    &name[..end]
}

/// Whether command 60 is in turn: some rule is open, and it has no name. So it is never the first command.
pub fn in_turn(open: Option<&Rule>, at: usize) -> bool {
    match open {
        None if fault(Fault::NameAcceptedFirst) && at == 0 => true,
        None if fault(Fault::NameBeforeAnyRuleAccepted) && at > 0 => true,
        None => false,
        Some(rule) if fault(Fault::NameAfterAPlaceRefused) && !rule.places.is_empty() => false,
        Some(rule) => rule.name.is_none() || fault(Fault::SecondNameAccepted),
    }
}

/// Check 17: whether the eight bytes after 60 are a name that no rule before has.
pub fn may_be_given(bytes: &[u8], grammar: &Grammar) -> bool {
    if fault(Fault::ZerosLoadedAsNoName) && bytes == [0; NAME_WIDTH] {
        return true;
    }
    let mut earlier: Vec<&Name> = grammar.numbered().filter_map(|(_, rule)| rule.name.as_ref()).collect();
    match () {
        _ if fault(Fault::EqualNamesLoaded) => earlier.clear(),
        _ if fault(Fault::OnlyThePreviousNameCompared) => drop(earlier.drain(..earlier.len().saturating_sub(1))),
        _ => (),
    }
    let read = |name| compared(name, Fault::SevenBytesComparedByLoading);
    let front = |name: &Name| fault(Fault::CommonFrontsLoadedAsEqual) && bytes.starts_with(bare(name));
    is_name(bytes, BY_LOADING) && !earlier.iter().any(|name| read(*name) == read(bytes) || front(name))
}

/// The name of eight bytes that pass check 17. A fault lets zeros through.
pub fn given(bytes: &[u8]) -> Option<Name> {
    let name: Name = bytes.try_into().expect("eight bytes");
    (name != [0; NAME_WIDTH]).then_some(name)
}

/// A fault: whether bytes of a name that is cut short are refused with 17 before 1.
pub fn other_byte(bytes: &[u8]) -> bool {
    bytes.iter().any(|byte| !is_letter(*byte) && *byte != BLANK)
}

/// The numbers of a rule's name in a row. A rule without a name has zeros.
pub fn to_numbers(name: Option<Name>) -> [u16; NAME_WIDTH] {
    let unnamed = if fault(Fault::NoNameWrittenAsBlanks) { [BLANK; NAME_WIDTH] } else { [0; NAME_WIDTH] };
    let mut name = name.unwrap_or(unnamed);
    if fault(Fault::NameWrittenWithoutItsFilling) {
        name.iter_mut().filter(|byte| **byte == BLANK).for_each(|byte| *byte = 0);
    }
    name.map(u16::from)
}

/// Check 8 on the numbers of a used rule's name: a name, or eight zeros for none; None for anything else. A number over 255
/// is no byte of a name.
fn of_numbers(numbers: &[u16]) -> Option<Option<Name>> {
    let mut name: Name = std::array::from_fn(|at| low_byte(numbers[at], Fault::NameByItsLowBytes).min(255) as u8);
    if fault(Fault::FillingOfZerosPassesCheck8) && name[0] != 0 {
        name.iter_mut().filter(|byte| **byte == 0).for_each(|byte| *byte = BLANK);
    }
    match name {
        [0, ..] if fault(Fault::FirstZeroMeansNoName) => Some(None),
        [0, 0, 0, 0, 0, 0, 0, 0] => (!fault(Fault::NoNameFailsCheck8)).then_some(None),
        _ => is_name(&name, BY_CHECK_8).then_some(Some(name)),
    }
}

/// Check 8 on the names of the used rules: each is a name or none, and no two are the same. Names of unused rules are ignored.
pub fn of_row(flat: &FlatGrammar, rules: usize) -> Option<Vec<Option<Name>>> {
    let numbers = |rule: usize| &flat[record(rule) + NAME..record(rule) + NAME + NAME_WIDTH];
    let judged = if fault(Fault::UnusedNamesJudged) { RULES } else { rules };
    let mut names = (0..judged).map(|rule| of_numbers(numbers(rule))).collect::<Option<Vec<_>>>()?;
    if fault(Fault::UnusedNamesCompared) {
        names.extend((names.len()..RULES).map(|rule| of_numbers(numbers(rule)).flatten()));
    }
    let mut read: Vec<&[u8]> =
        names.iter().flatten().map(|name| compared(name, Fault::SevenBytesComparedByCheck8)).collect();
    if !fault(Fault::Check8ComparesNeighbours) {
        read.sort();
    }
    let twice = read.windows(2).any(|two| two[0] == two[1]) && !fault(Fault::EqualNamesPassCheck8);
    names.truncate(rules);
    (!twice).then_some(names)
}

/// Whether an unused rule of a row has a name that check 8 would refuse in a used one.
pub fn unused_name_bad(flat: &FlatGrammar) -> bool {
    let numbers = |rule: usize| &flat[record(rule) + NAME..record(rule) + NAME + NAME_WIDTH];
    (usize::from(flat[1])..RULES).any(|rule| of_numbers(numbers(rule)).is_none())
}

/// Whether an unused rule of a row has the name of a used one.
pub fn unused_name_equal(flat: &FlatGrammar) -> bool {
    let used = usize::from(flat[1]);
    let name = |rule: usize| of_numbers(&flat[record(rule) + NAME..record(rule) + NAME + NAME_WIDTH]).flatten();
    let names: Vec<Name> = (0..used).filter_map(name).collect();
    (used..RULES).filter_map(name).any(|name| names.contains(&name))
}

/// The lookup: offset and length of the part of the book that is the name of a rule, without the filling. None, the empty
/// part, if the bytes do not load, there is no such rule, or it has no name.
pub fn lookup(book: &[u8], rule: usize) -> Option<(usize, usize)> {
    let rule = if fault(Fault::LookupByTheLowByte) { rule % 256 } else { rule };
    let rule = rule.saturating_add(usize::from(fault(Fault::LookupOfTheNextRule)));
    match grammar::load(book) {
        Err(_) if !fault(Fault::LookupWithoutLoading) => return None,
        Ok(grammar) if fault(Fault::LookupOfTheLastRule) && rule >= grammar.rules.len() => {
            return lookup(book, grammar.rules.len().checked_sub(1)?);
        }
        _ => (),
    }
    let (mut opened, mut named) = (0, 0);
    for at in grammar::commands(book) {
        match book[at] {
            0x20 | 0x21 => opened += 1,
            0x60 => {
                named += 1;
                let number = if fault(Fault::LookupCountsNames) { named } else { opened };
                if number == rule.checked_add(1)? {
                    return part(book, at);
                }
            }
            _ => (),
        }
    }
    None
}

/// The part that is the name after the 60 at this offset.
fn part(book: &[u8], at: usize) -> Option<(usize, usize)> {
    let name: Name = book.get(at + 1..at + 1 + NAME_WIDTH)?.try_into().expect("eight bytes");
    let length = if fault(Fault::LookupWithTheFilling) { NAME_WIDTH } else { bare(&name).len() };
    let equal_bytes = || book.windows(length).position(|bytes| bytes == &name[..length]).expect("at least here");
    Some(match () {
        _ if fault(Fault::LookupAtTheCommand) => (at, length + 1),
        _ if fault(Fault::LookupOfEqualBytes) => (equal_bytes(), length),
        _ => (at + 1, length),
    })
}
