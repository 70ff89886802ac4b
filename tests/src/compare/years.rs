//! Rules with their years (request U9 of document 02): the year of a comparison, other years of the same input, hands of
//! two years side by side, and the program's file for the year.

use super::hands::{opened, taken};
use super::lent::{self, same};
use super::{in_year, Comparison};
use crate::lister::grammar::{self, Grammar};
use crate::lister::listing::derivations;
use crate::lister::trees::{Row, LIMIT};
use crate::lister::walk::{self, Given};
use crate::lister::{has_tree, STEPS};
use crate::reader::{Answer, FlatGrammar, Hand, Reader, CELLS, OUTPUT, YEAR};

/// How many of a book's other years each input is also read in closely.
const OTHERS: usize = 2;

impl Comparison<'_> {
    /// The year in which an input of a book is compared: one of the book's, mostly one with many rules in force.
    pub(super) fn year_of(&mut self, flat: &FlatGrammar, years: &[u16], number: usize) -> u16 {
        let in_force = |year: u16| in_year(flat, year).numbered().count();
        let year = match self.rng.below(4) {
            0 => years[number % years.len()],
            _ => years.iter().copied().max_by_key(|year| in_force(*year)).expect("a book has years"),
        };
        let all = usize::from(flat[1]);
        self.counts.add(match in_force(year) {
            n if n == all => "year: all rules in force",
            0 => "year: no rule in force",
            _ => "year: some rules in force",
        });
        year
    }

    /// Reads the input in the other years of the book too, in two of them closely, and takes it with two hands of different
    /// years in turns.
    pub(super) fn other_years(
        &mut self,
        flat: &FlatGrammar,
        input: &[u8],
        year: u16,
        years: &[u16],
    ) -> Result<(), String> {
        let mut others: Vec<u16> = years.iter().copied().filter(|other| *other != year).collect();
        let whole = grammar::from_flat(flat).expect("a loaded grammar passes check 8");
        let all = derivations(&whole, input, LIMIT, STEPS / 20).ok();
        for (number, other) in others.iter().enumerate() {
            self.checked_in(flat, input, *other, number, all.as_deref().unwrap_or_default())?;
        }
        while others.len() > OTHERS {
            others.remove(self.rng.below(others.len()));
        }
        for other in &others {
            let said = |what: String| format!("input {input:?}, also in year {other}: {what}");
            self.read_in(flat, input, *other, all.as_deref()).map_err(said)?;
        }
        let said = |what: String| format!("input {input:?}, hands of {year} and {}: {what}", others[0]);
        self.side_by_side(flat, input, [year, others[0]]).map_err(said)
    }

    /// Check and words of a reading of the whole book, if it has one, in this year.
    fn checked_in(
        &mut self,
        flat: &FlatGrammar,
        input: &[u8],
        year: u16,
        number: usize,
        all: &[Row],
    ) -> Result<(), String> {
        let (offered, chart) = (all.get(number % all.len().max(1)).map_or(&[][..], |row| row), self.chart());
        let call = |r: &dyn Reader, g: &FlatGrammar, c: &mut [u32]| r.check(g, input, year, offered, c);
        let what = format!("check of {offered:?}, input {input:?}, year {year}");
        let (answer, _) = self.both(&what, flat, &chart, call)?;
        self.counts.add(match answer {
            Answer::Yes => "check in another year: yes",
            _ if offered.is_empty() => "check in another year: no reading of the book",
            _ => "check in another year: a rule out of force",
        });
        self.words_in(flat, input, year, offered)
    }

    /// Opening, taking and first in this year; and, given all readings of the whole book, what is left of them.
    fn read_in(&mut self, flat: &FlatGrammar, input: &[u8], year: u16, all: Option<&[Row]>) -> Result<(), String> {
        let grammar = in_year(flat, year);
        let filled = self.takes(flat, &grammar, input, year)?;
        let Ok(list) = derivations(&grammar, input, LIMIT, STEPS / 20) else { return Ok(()) };
        let (mut chart, mut out, mut nodes) = (self.chart(), [0; OUTPUT], 0);
        let answer = self.reader.first(flat, input, year, chart.part_mut(), &mut out, &mut nodes);
        let due = match walk::first(&list, has_tree(&grammar, input)) {
            Given::Row(row) => (Answer::Nodes(row.len() / 2), row),
            Given::Refused(number) => (Answer::Refused(number), Row::new()),
            _ => (Answer::NoDerivation, Row::new()),
        };
        same("first", (answer, out[..2 * nodes].to_vec()), due)?;
        same("first: chart", chart.part()[..CELLS] == filled.part()[..CELLS], true)?;
        all.map_or(Ok(()), |all| self.kept(&grammar, &list, all))
    }

    /// The readings of a year are those of the whole book whose rules are all in force. This checks the lister.
    fn kept(&mut self, grammar: &Grammar, list: &[Row], all: &[Row]) -> Result<(), String> {
        self.counts.add(match (list.len(), all.len()) {
            (0, 0) => "other year: none",
            (n, all) if n == all => "other year: all readings of the book",
            (0, _) => "other year: none of the book's readings",
            _ => "other year: some of the book's readings",
        });
        let in_force = |row: &&Row| row.chunks(2).all(|node| grammar.rule(usize::from(node[1])).is_some());
        same("the lister's list, and the whole one filtered", all.iter().filter(in_force).eq(list), true)
    }

    /// Two hands on one book, each with a chart and a year of its own, take the input in turns.
    fn side_by_side(&mut self, flat: &FlatGrammar, input: &[u8], years: [u16; 2]) -> Result<(), String> {
        let mut hands: [Hand; 2] = [lent::hand(&mut self.rng), lent::hand(&mut self.rng)];
        let mut charts = [self.chart(), self.chart()];
        let mut answers = [Answer::No; 2];
        for at in 0..2 {
            let call = |r: &dyn Reader, g: &FlatGrammar, c: &mut [u32]| opened(r, g, years[at], hands[at], c);
            ((answers[at], hands[at]), charts[at]) = self.both("open", flat, &charts[at], call)?;
        }
        for mark in input {
            for at in 0..2 {
                let call = |r: &dyn Reader, g: &FlatGrammar, c: &mut [u32]| taken(r, g, hands[at], *mark, c);
                ((answers[at], hands[at]), charts[at]) = self.both("take", flat, &charts[at], call)?;
            }
        }
        same("the years of the hands", [hands[0][YEAR], hands[1][YEAR]], years)?;
        self.counts.add(match answers[0] == answers[1] {
            true => "hands of two years: both answer alike",
            false => "hands of two years: only one is complete",
        });
        Ok(())
    }
}

/// The bytes of the program's file `year.bin`, None if there is none, each with the year that it says.
pub const YEAR_FILES: [(Option<&[u8]>, u16); 12] = [
    (None, 0),
    (Some(&[]), 0),
    (Some(&[0xCE]), 0),
    (Some(&[0xCE, 0x07]), 1998),
    (Some(&[0xD7, 0x07]), 2007),
    (Some(&[0xD8, 0x07]), 2008),
    (Some(&[0x00, 0x00]), 0),
    (Some(&[0xFF, 0xFF]), 65_535),
    (Some(&[0x07, 0xCE]), 52_743),
    (Some(&[0xCE, 0x07, 0x00]), 0),
    (Some(&[0xCE, 0x07, 0x0A]), 0),
    (Some(&[0xCE, 0x07, 0xCE, 0x07]), 0),
];

/// Compares a reading of the file with the table.
pub fn compare_year_files(year: impl Fn(Option<&[u8]>) -> u16) -> Result<(), String> {
    YEAR_FILES.iter().try_for_each(|(file, due)| same(&format!("the year of the file {file:02X?}"), year(*file), *due))
}
