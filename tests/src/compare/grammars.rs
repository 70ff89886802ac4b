//! Grammars as a caller may pass them: with rubbish in unused numbers, or out of range.

use super::lent::number;
use super::Comparison;
use crate::books::{bad_name, filled, Rng};
use crate::lister::grammar;
use crate::reader::{record, FlatGrammar, NAME, NAME_WIDTH, PLACES, RULES, YEARS};

/// What is checked in a row: a number, with its index, the largest allowed value and its name; the two numbers of a place
/// that holds a range, with the index of its tag; the two years of a rule, with the index of the first; or the name of a rule.
#[derive(Clone, Copy)]
enum Judged {
    Number(usize, u16, &'static str),
    Range(usize),
    Years(usize),
    Name(usize),
}
use Judged::{Name, Number, Range, Years};

impl Comparison<'_> {
    /// The same grammar with rubbish in unused records and places, and any depth.
    fn dirtied(&mut self, flat: &FlatGrammar) -> FlatGrammar {
        let (mut dirty, rng) = (*flat, &mut self.rng);
        dirty[2] = number(rng);
        for rule in 0..RULES {
            let at = record(rule);
            let used = if rule < usize::from(flat[1]) { usize::from(flat[at + 2]) } else { 0 };
            if rule >= usize::from(flat[1]) {
                dirty[at..at + 3].iter_mut().for_each(|any| *any = number(rng));
                dirty[at + YEARS..at + YEARS + 2].iter_mut().for_each(|any| *any = number(rng));
                let name = unused_name(rng, flat);
                dirty[at + NAME..at + NAME + NAME_WIDTH].copy_from_slice(&name);
            }
            for p in used..PLACES {
                dirty[at + 3 + 2 * p] = if rng.one_in(2) { rng.below(3) as u16 } else { number(rng) };
                dirty[at + 4 + 2 * p] = number(rng);
            }
        }
        dirty
    }

    /// The grammar as it is, or with rubbish in unused numbers. The calls must not depend on it.
    pub(super) fn either(&mut self, flat: &FlatGrammar) -> FlatGrammar {
        if self.rng.one_in(2) {
            self.dirtied(flat)
        } else {
            *flat
        }
    }

    /// A grammar that check 8 refuses because of one number or one place, with or without rubbish in unused numbers.
    /// Also which number or place it is, and how it is out of range.
    pub(super) fn out_of_range(&mut self, flat: &FlatGrammar) -> (FlatGrammar, String) {
        let mut bad = self.either(flat);
        let (at, most, name) = match self.judged_number(flat) {
            Number(at, most, name) => (at, most, name),
            Range(tag) => {
                let how = reverse(&mut self.rng, &mut bad[tag..tag + 2]);
                assert!(grammar::from_flat(&bad).is_none());
                return (bad, format!("a reversed range, {how}"));
            }
            Years(first) => {
                let how = reverse_years(&mut self.rng, &mut bad[first..first + 2]);
                assert!(grammar::from_flat(&bad).is_none());
                return (bad, format!("reversed years, {how}"));
            }
            Name(rule) => {
                let how = spoil_name(&mut self.rng, &mut bad, rule);
                assert!(grammar::from_flat(&bad).is_none());
                return (bad, format!("a name, {how}"));
            }
        };
        bad[at] = over(&mut self.rng, most, flat[at]);
        assert!(grammar::from_flat(&bad).is_none());
        let how = match bad[at] {
            number if number == most + 1 => "one over",
            256 => "256",
            257 => "257",
            65_535 => "65,535",
            0..=255 => "up to 255",
            number if number % 256 <= most => "low byte in range",
            _ => "low byte out of range",
        };
        (bad, format!("{name}, {how}"))
    }

    /// One of the numbers that check 8 checks, or a range. Any used place may be made one.
    fn judged_number(&mut self, flat: &FlatGrammar) -> Judged {
        let (rng, rules) = (&mut self.rng, usize::from(flat[1]));
        let head = [Number(0, 31, "a start"), Number(1, RULES as u16, "a number of rules")];
        if rules == 0 || rng.one_in(4) {
            return rng.pick(&head);
        }
        let rule = rng.below(rules);
        let at = record(rule);
        match rng.below(12) {
            0 => return Years(at + YEARS),
            1 | 2 => return Name(rule),
            _ => (),
        }
        let places = usize::from(flat[at + 2]);
        if places == 0 || rng.one_in(3) {
            return rng.pick(&[Number(at, 31, "a left side"), Number(at + 2, PLACES as u16, "a number of places")]);
        }
        let tag = at + 3 + 2 * rng.below(places);
        match (rng.below(8), flat[tag]) {
            (0 | 1, _) => Number(tag, 2, "a tag"),
            (2, _) | (_, 2) => Range(tag),
            (_, 0) => Number(tag + 1, 31, "a kind"),
            _ => Number(tag + 1, 255, "a mark"),
        }
    }
}

/// Makes a place a range whose low end is above its high end, and says how far.
fn reverse(rng: &mut Rng, place: &mut [u16]) -> &'static str {
    let low = rng.within(1, 255);
    let high = if rng.one_in(2) { low - 1 } else { rng.below(low) };
    place.copy_from_slice(&[2, (low + 256 * high) as u16]);
    match low - high {
        1 => "by one",
        _ => "by more",
    }
}

/// Makes the first year of a rule later than the last, and says how far.
fn reverse_years(rng: &mut Rng, years: &mut [u16]) -> &'static str {
    let first = rng.within(1, 65_535);
    let last = if rng.one_in(2) { first - 1 } else { rng.below(first) };
    years.copy_from_slice(&[first as u16, last as u16]);
    match first - last {
        1 => "by one",
        _ => "by more",
    }
}

/// Numbers for the name of an unused rule, which may be any: the name of a used rule, no name, or rubbish.
fn unused_name(rng: &mut Rng, flat: &FlatGrammar) -> [u16; NAME_WIDTH] {
    match rng.below(4) {
        0 => {
            let at = record(rng.below(usize::from(flat[1]).max(1))) + NAME;
            flat[at..at + NAME_WIDTH].try_into().expect("eight numbers")
        }
        1 => bad_name(rng).0.map(u16::from),
        2 => [0; NAME_WIDTH],
        _ => std::array::from_fn(|_| number(rng)),
    }
}

/// Makes the name of a used rule one that check 8 refuses, and says how. That of another rule may get the same name before.
fn spoil_name(rng: &mut Rng, row: &mut FlatGrammar, rule: usize) -> &'static str {
    let numbers = |rule: usize| record(rule) + NAME..record(rule) + NAME + NAME_WIDTH;
    let rules = usize::from(row[1]);
    let named = row[record(rule) + NAME] != 0;
    match rng.below(4) {
        0 if rules > 1 => {
            let other = (rule + rng.within(1, rules - 1)) % rules;
            if row[record(other) + NAME] == 0 {
                let name = if named { row[numbers(rule)].to_vec() } else { filled("SAME").map(u16::from).to_vec() };
                row[numbers(other)].copy_from_slice(&name);
            }
            row.copy_within(numbers(other), record(rule) + NAME);
            if other.abs_diff(rule) == 1 {
                "that of a neighbour"
            } else {
                "that of another rule"
            }
        }
        1 => {
            if !named {
                row[numbers(rule)].copy_from_slice(&filled("LOWBYTE").map(u16::from));
            }
            row[record(rule) + NAME + rng.below(NAME_WIDTH)] += 256 * rng.within(1, 254) as u16;
            "a number over 255, its low byte in range"
        }
        _ => loop {
            let (name, why) = bad_name(rng);
            if name != [0; 8] {
                row[numbers(rule)].copy_from_slice(&name.map(u16::from));
                return why;
            }
        },
    }
}

/// A number over the largest allowed; often its low byte is in range, or as before.
fn over(rng: &mut Rng, most: u16, was: u16) -> u16 {
    let least = usize::from(most) + 1;
    (match rng.below(6) {
        0 => least,
        1 => rng.within(least, least.max(255)),
        2 => 256 + usize::from(was),
        3 => 256 * rng.within(1, 255) + rng.below(least),
        4 => rng.pick(&[256, 257, 65_535]),
        _ => rng.within(least, 65_535),
    }) as u16
}
