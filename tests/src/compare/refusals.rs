//! The refusals 8 to 12, 14, 15 and 18 (13 is in `firsts`): which one comes first, and what they leave.

use super::hands::{opened, taken};
use super::lent::{self, same, Lent};
use super::Comparison;
use crate::lister::trees::Row;
use crate::lister::{grammar, hand, judged, names};
use crate::reader::{Answer, FlatGrammar, Reader, INPUT, OUTPUT};

impl Comparison<'_> {
    /// Refusals 8, 9, 10, 12, 14 and 15 in all combinations: their order, and that
    /// everything lent is untouched.
    pub(super) fn refusals(&mut self, flat: &FlatGrammar, inputs: &[Vec<u8>], years: &[u16]) -> Result<(), String> {
        for bits in 0..16 {
            let year = self.rng.pick(years);
            let (bad_grammar, short, which) = (bits & 1 == 1, bits & 2 == 2, bits / 4);
            let (grammar, why) = match bad_grammar {
                true => self.out_of_range(flat),
                false => (self.either(flat), String::new()),
            };
            let chart = if short { self.short_chart() } else { self.chart() };
            let found = lent::hand(&mut self.rng);
            let call = |r: &dyn Reader, g: &FlatGrammar, c: &mut [u32]| opened(r, g, year, found, c);
            let ((answer, left), after) = self.both("open", &grammar, &chart, call)?;
            self.seen("open", answer, &chart, &after)?;
            same("open refused", bad_grammar || short, matches!(answer, Answer::Refused(_)))?;
            let due = if bad_grammar || short { hand::of(&[], 0) } else { hand::of(&[], year) };
            same("open: the hand left", left, due)?;
            if bad_grammar {
                self.counts.add(&format!("refused 8: {why}"));
            } else {
                if grammar::unused_reversed_range(&grammar) {
                    self.counts.add("passed 8: a reversed range in an unused place");
                }
                if grammar::unused_years_reversed(&grammar) {
                    self.counts.add("passed 8: reversed years in an unused rule");
                }
                if names::unused_name_bad(&grammar) {
                    self.counts.add("passed 8: a bad name in an unused rule");
                }
                if names::unused_name_equal(&grammar) {
                    self.counts.add("passed 8: an equal name in an unused rule");
                }
            }

            let (found, what) = self.hand(which);
            let mark = self.rng.pick(&[0, 31, 65, 255]);
            let call = |r: &dyn Reader, g: &FlatGrammar, c: &mut [u32]| taken(r, g, found, mark, c);
            let ((answer, left), after) = self.both("take", &grammar, &chart, call)?;
            self.seen("take", answer, &chart, &after)?;
            if matches!(answer, Answer::Refused(_)) {
                same("take refused: the hand", left, found)?;
            }
            if answer == Answer::Refused(14) {
                self.counts.add(&format!("refused 14: {what}"));
            }

            let input = self.input_of(which, inputs, &grammar, short);
            self.refused_rows(&grammar, &input, year, &chart)?;
            self.refused_words(&grammar, &input, year, &chart)?;
            self.listing_refusals(&grammar, &input, year, &chart)?;
        }
        Ok(())
    }

    /// An input of the book, no bytes, 64 bytes, or more. Check 9 refuses only the last.
    fn input_of(&mut self, which: usize, inputs: &[Vec<u8>], flat: &FlatGrammar, short: bool) -> Vec<u8> {
        // a call that is not refused fills the chart, which takes long with many rules
        let quick = short || (flat[1] <= 12 && self.rng.one_in(4));
        match which {
            0 => inputs.iter().find(|input| !input.is_empty()).cloned().unwrap_or(vec![65]),
            1 => Vec::new(),
            2 if quick => vec![65; INPUT],
            _ => vec![65; self.rng.pick(&[65, 65, 66, 128, 320, 1000])],
        }
    }

    /// Refusals 8, 9, 10 and 12 of check, length and same build.
    fn refused_rows(&mut self, flat: &FlatGrammar, input: &[u8], year: u16, chart: &Lent<u32>) -> Result<(), String> {
        let row: Row = (0..self.rng.below(5)).map(|_| self.rng.below(3) as u16).collect();
        let found = lent::tenths(&mut self.rng);
        for name in ["check", "length", "same build"] {
            let call = |r: &dyn Reader, g: &FlatGrammar, c: &mut [u32]| {
                let mut tenths = found;
                let answer = match name {
                    "check" => r.check(g, input, year, &row, c),
                    "length" => r.length(g, input, year, &row, c, &mut tenths),
                    _ => r.same_build(g, input, year, &row, &row, c),
                };
                (answer, tenths)
            };
            let ((answer, left), after) = self.both(name, flat, chart, call)?;
            self.seen(name, answer, chart, &after)?;
            self.seen_with(input, name, answer)?;
            if matches!(answer, Answer::Refused(_)) {
                same(&format!("{name} refused: the tenths"), left, found)?;
            }
        }
        Ok(())
    }

    /// Refusals 8 to 11 of first, next and count. Calls that would not be refused are left out.
    fn listing_refusals(
        &mut self,
        flat: &FlatGrammar,
        input: &[u8],
        year: u16,
        chart: &Lent<u32>,
    ) -> Result<(), String> {
        let length = self.rng.pick(&[0, 1, OUTPUT - 1, OUTPUT, OUTPUT + 1]);
        let out = Lent::filled(length, || self.rng.draw() as u16);
        let found = lent::offset(&mut self.rng);
        for name in ["first", "next", "count"] {
            let output = if name == "count" { OUTPUT } else { length };
            if judged(flat, input, chart.part().len(), output).is_ok() {
                continue;
            }
            let call = |r: &dyn Reader, g: &FlatGrammar, c: &mut [u32]| {
                let (mut out, mut nodes) = (out.clone(), found);
                let answer = match name {
                    "first" => r.first(g, input, year, c, out.part_mut(), &mut nodes),
                    "next" => r.next(g, input, year, &[1, 0], c, out.part_mut(), &mut nodes),
                    _ => r.count(g, input, year, c, &mut nodes),
                };
                (answer, nodes, out.all)
            };
            let ((answer, nodes, left), after) = self.both(name, flat, chart, call)?;
            self.seen(name, answer, chart, &after)?;
            self.seen_with(input, name, answer)?;
            same(&format!("{name} refused: number and output as found"), nodes == found && left == out.all, true)?;
        }
        Ok(())
    }

    /// Counts which input a call was refused with. Refusal 9 is for more than 64 bytes only; this checks the lister.
    pub(super) fn seen_with(&mut self, input: &[u8], call: &str, answer: Answer) -> Result<(), String> {
        let Answer::Refused(number) = answer else { return Ok(()) };
        same("refused 9: so many bytes", number != 9 || input.len() > INPUT, true)?;
        match input.len() {
            0 => self.counts.add(&format!("empty input, {call}: refused {number}")),
            INPUT => self.counts.add(&format!("64 bytes, {call}: refused {number}")),
            65 => self.counts.add(&format!("65 bytes, {call}: refused {number}")),
            _ => (),
        }
        Ok(())
    }

    /// Counts a refusal and makes sure that it left the chart untouched. This checks the
    /// lister; the reader was compared with the lister before.
    pub(super) fn seen(
        &mut self,
        call: &str,
        answer: Answer,
        before: &Lent<u32>,
        after: &Lent<u32>,
    ) -> Result<(), String> {
        if let Answer::Refused(number) = answer {
            self.counts.add(&format!("{call}: refused {number}"));
            if !matches!(number, 12 | 18) {
                after.against(before, &format!("{call} refused {number}: the chart"))?;
            }
        }
        Ok(())
    }
}
