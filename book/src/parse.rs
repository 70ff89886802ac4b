//! Parses a text, or finds its first fault.

use crate::fault::{Fault, Reason};
use crate::grammar::{Grammar, Name, Rule, Symbol, PLACES, RULES};
use crate::words::{kind, length, letters, place, places_before, words, year, ARROW, COLON, SHORT_ARROW};

/// The word that begins the first statement.
const START: &str = "start";
/// The word before the years of a rule.
const YEARS: &str = "years";
/// The word before the name of a rule, and that before the number of places after which it is given.
const NAME: &str = "name";
const AFTER: &str = "after";
/// What some editors write before a text: the byte order mark. It says nothing.
const MARK: char = '\u{feff}';

/// What the text says. If a text has no statement, its fault is in its last line.
pub fn parsed(text: &str) -> Result<Grammar, Fault> {
    let mut grammar = None;
    let mut last = 1;
    for (at, line) in text.strip_prefix(MARK).unwrap_or(text).lines().enumerate() {
        last = at + 1;
        statement(&mut grammar, &words(line)).map_err(|reason| Fault { line: last, reason })?;
    }
    grammar.ok_or(Fault { line: last, reason: Reason::NoStart })
}

/// Adds what the words of a line say. There is no grammar before the start kind.
fn statement(grammar: &mut Option<Grammar>, words: &[&str]) -> Result<(), Reason> {
    match (grammar, words) {
        (_, []) => Ok(()),
        (Some(_), [START, ..]) => Err(Reason::StartAgain),
        (Some(grammar), [left, rest @ ..]) => add(grammar, rule(left, rest)?, left),
        (grammar, [START, rest @ ..]) => {
            *grammar = Some(Grammar { start: start(rest)?, rules: Vec::new() });
            Ok(())
        }
        (_, [word, ..]) => Err(Reason::StartDue(word.to_string())),
    }
}

/// The kind after `start`.
fn start(words: &[&str]) -> Result<u8, Reason> {
    let [word, rest @ ..] = words else { return Err(Reason::StartWithoutKind) };
    let start = kind(word)?;
    nothing_more(rest)?;
    Ok(start)
}

/// A rule, from its left side and the words after it.
fn rule(left: &str, words: &[&str]) -> Result<Rule, Reason> {
    let left = kind(left)?;
    let [ARROW | SHORT_ARROW, rest @ ..] = words else { return Err(Reason::ArrowDue(first(words))) };
    let colon = rest.iter().position(|word| *word == COLON).unwrap_or(rest.len());
    if colon == 0 {
        return Err(Reason::PlacesDue(first(rest)));
    }
    let places = places(&rest[..colon])?;
    let [_, word, rest @ ..] = &rest[colon..] else { return Err(Reason::LengthDue) };
    let length = length(word)?;
    let (years, rest) = years(rest)?;
    let (name, rest) = name(rest, places.len())?;
    nothing_more(rest)?;
    Ok(Rule { left, length, years, places, name })
}

/// Part of a statement, if it is there, and the words after it.
type Part<'a, 'b, T> = (Option<T>, &'a [&'b str]);

/// The years of a rule, from the words after its length. A rule without years has none.
fn years<'a, 'b>(words: &'a [&'b str]) -> Result<Part<'a, 'b, (u16, u16)>, Reason> {
    let [YEARS, rest @ ..] = words else { return Ok((None, words)) };
    let first = year(rest.first().ok_or(Reason::YearsDue)?)?;
    let last = year(rest.get(1).ok_or(Reason::YearsDue)?)?;
    if first > last {
        return Err(Reason::YearsReversed(format!("{first} {last}")));
    }
    Ok((Some((first, last)), &rest[2..]))
}

/// The name of a rule with so many places, from the words after its length and years. It is given after all places unless its words
/// say otherwise. A rule without a name has none.
fn name<'a, 'b>(words: &'a [&'b str], places: usize) -> Result<Part<'a, 'b, Name>, Reason> {
    let [NAME, rest @ ..] = words else { return Ok((None, words)) };
    let letters = letters(rest.first().ok_or(Reason::NameDue)?)?;
    let (after, rest) = match &rest[1..] {
        [AFTER, rest @ ..] => (places_before(rest.first().ok_or(Reason::AfterDue)?, places)?, &rest[1..]),
        rest => (places, rest),
    };
    Ok((Some(Name { letters, after }), rest))
}

/// The places between `->` and `:`.
fn places(words: &[&str]) -> Result<Vec<Symbol>, Reason> {
    if words == ["-"] {
        return Ok(Vec::new());
    }
    let mut places = Vec::new();
    for word in words {
        if *word == "-" {
            return Err(Reason::DashWithPlaces);
        }
        let place = place(word)?;
        if places.len() == PLACES {
            return Err(Reason::NinthPlace(word.to_string()));
        }
        places.push(place);
    }
    Ok(places)
}

/// Adds a rule with this left side, unless it is the 129th or has the name of an earlier one.
fn add(grammar: &mut Grammar, rule: Rule, left: &str) -> Result<(), Reason> {
    if grammar.rules.len() == RULES {
        return Err(Reason::TooManyRules(left.to_string()));
    }
    match &rule.name {
        Some(name) if grammar.has_name(&name.letters) => return Err(Reason::NameAgain(name.letters.clone())),
        _ => (),
    }
    grammar.rules.push(rule);
    Ok(())
}

/// The first of the words, if there is one.
fn first(words: &[&str]) -> Option<String> {
    words.first().map(|word| word.to_string())
}

/// No word may follow a statement.
fn nothing_more(words: &[&str]) -> Result<(), Reason> {
    match words {
        [] => Ok(()),
        [word, ..] => Err(Reason::Further(word.to_string())),
    }
}
