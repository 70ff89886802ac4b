//! Next and count, on an input that passes the checks: the answer, the number, the output and the chart.

use super::firsts::First;
use super::lent::{offset, same, Counts, Lent};
use super::{in_year, Comparison, Plate};
use crate::books::{boundary, Rng};
use crate::lister::grammar::Grammar;
use crate::lister::trees::{self, Row, LIMIT};
use crate::lister::walk::{self, Given};
use crate::reader::{Answer, FlatGrammar, Reader, CELLS, OUTPUT};

/// How many derivations of one input are offered to next at most, if there are more than 400.
const DRAWN: usize = 202;
/// How many are offered at most if the list is too large, so that only its front is known.
const DRAWN_OF_MORE: usize = 22;
/// How many rows that are no derivations are offered to next at most.
const STRANGERS: usize = 12;

/// Count at its limit, where the list is too long for the random books: exactly 4,096 derivations, and one more.
pub fn compare_boundary(reader: &dyn Reader) -> Result<(), String> {
    let (rng, mut counts) = (Rng::new(4096), Counts::default());
    let mut comparison = Comparison { reader, rng, counts: &mut counts };
    for (more, due) in [(false, Given::Count(4096)), (true, Given::More)] {
        let book = boundary(more);
        let Some(flat) = comparison.load(&book.bytes, "load")? else { return Err("no book".to_string()) };
        let (input, year) = (&book.inputs[0][..], book.years[0]);
        let filled = comparison.takes(&flat, &in_year(&flat, year), input, year)?;
        let plate = Plate { input, year, filled: &filled.part()[..CELLS] };
        comparison.count(&flat, plate, |given| same("count", given, &due))?;
    }
    Ok(())
}

impl Comparison<'_> {
    /// Offers the derivations of an input, all of them up to 400, and rows that are none, to next; then counts.
    pub(super) fn nexts(
        &mut self,
        flat: &FlatGrammar,
        grammar: &Grammar,
        plate: Plate<'_>,
        known: First<'_>,
        readings: &[Row],
    ) -> Result<(), String> {
        let input = plate.input;
        let Some(list) = known.list.or(known.front) else {
            return self.unlisted_nexts(flat, grammar, plate, known);
        };
        let mut offered = if known.list.is_some() { readings.to_vec() } else { list[..list.len() - 1].to_vec() };
        match known.list {
            _ if self.reader.by_listing() => self.thin(&mut offered, 3),
            None => self.thin(&mut offered, DRAWN_OF_MORE),
            Some(_) if readings.len() < list.len() => self.thin(&mut offered, DRAWN),
            _ => (),
        }
        let all = offered.len() == list.len();
        self.counts.add(if all { "next: every derivation offered" } else { "next: some offered" });
        let mut strangers: Vec<Row> =
            known.offered.iter().filter(|row| !trees::is_derivation(grammar, input, row)).cloned().collect();
        self.thin(&mut strangers, if self.reader.by_listing() { 3 } else { STRANGERS });
        for row in offered.iter().chain(&strangers) {
            let given = self.next(flat, plate, row)?;
            same(&format!("next of {row:?}"), &given, &walk::next(list, row))?;
        }
        let due = walk::count(list, known.tree);
        self.count(flat, plate, |given| same("count", given, &due))
    }

    /// Where the list is too large: offers the first derivation and the known ones. By the lister, what next returns
    /// must be a derivation that follows the offered one, with no known one in between. If next returns none, no
    /// known one may follow. The count must be at least the number of known ones.
    fn unlisted_nexts(
        &mut self,
        flat: &FlatGrammar,
        grammar: &Grammar,
        plate: Plate<'_>,
        known: First<'_>,
    ) -> Result<(), String> {
        let Plate { input, year, .. } = plate;
        let mut at_hand: Vec<Row> =
            known.offered.iter().filter(|row| trees::is_derivation(grammar, input, row)).cloned().collect();
        let (mut out, mut nodes) = ([0; OUTPUT], 0);
        if let Answer::Nodes(n) = self.reader.first(flat, input, year, self.chart().part_mut(), &mut out, &mut nodes) {
            at_hand.push(out[..2 * n].to_vec());
        }
        at_hand.sort();
        at_hand.dedup();
        for row in at_hand.clone().iter().take(3) {
            let mut later = at_hand.iter().filter(|other| *other > row);
            match self.next(flat, plate, row)? {
                Given::Row(next) => {
                    same("next: a derivation, by the lister", trees::is_derivation(grammar, input, &next), true)?;
                    same("next: it follows", next > *row, true)?;
                    if let Some(other) = later.find(|other| **other < next) {
                        return Err(format!("next of {row:?}: {next:?} handed out, and {other:?} comes before it"));
                    }
                }
                Given::NoneLeft => same("next: none", later.next(), None)?,
                given => return Err(format!("next of the derivation {row:?}: {given:?}")),
            }
            self.counts.add("next, too many to list");
        }
        let least = at_hand.len();
        self.count(flat, plate, |given| match given {
            Given::Count(n) if *n >= least.max(1) => Ok(()),
            Given::More if least > 0 => Ok(()),
            Given::Refused(13) if least == 0 => Ok(()),
            given => Err(format!("count: {given:?}, and {least} derivations are at hand")),
        })
    }

    /// Calls next on the reader, and returns what it gives. What is lent holds rubbish. Only the front of the output
    /// is written, and nothing without a derivation.
    fn next(&mut self, flat: &FlatGrammar, plate: Plate<'_>, offered: &[u16]) -> Result<Given, String> {
        let Plate { input, year, filled } = plate;
        let (mine, mut chart, found) = (self.either(flat), self.chart(), offset(&mut self.rng));
        let length = OUTPUT + self.rng.pick(&[0, 0, 1, 40]);
        let mut out = Lent::filled(length, || self.rng.draw() as u16);
        let (mut due_chart, mut due_out, mut nodes) = (chart.clone(), out.clone(), found);
        due_chart.part_mut()[..CELLS].copy_from_slice(filled);
        let (lent, offered) = (Lent::of(input, 0x41), Lent::of(offered, 0));
        let before = (lent.clone(), offered.clone());
        let (chart_lent, out_lent) = (chart.part_mut(), out.part_mut());
        let answer = self.reader.next(&mine, lent.part(), year, offered.part(), chart_lent, out_lent, &mut nodes);
        let (given, due) = match answer {
            Answer::Nodes(n) if (1..=LIMIT).contains(&n) => {
                let row = out.part()[..2 * n].to_vec();
                due_out.part_mut()[..2 * n].copy_from_slice(&row);
                (Given::Row(row), n)
            }
            Answer::NoneLeft => (Given::NoneLeft, found),
            Answer::Refused(number) => (Given::Refused(number), found),
            answer => return Err(format!("next: {answer:?}")),
        };
        same("next: nodes", nodes, due)?;
        chart.against(&due_chart, "next: chart")?;
        out.against(&due_out, "next: output")?;
        lent.against(&before.0, "next: the input lent")?;
        offered.against(&before.1, "next: the row lent")?;
        let what = match &given {
            Given::Row(_) => "next: handed out".to_string(),
            Given::Refused(number) => format!("next: refused {number}"),
            _ => "next: none".to_string(),
        };
        self.add(input, &what);
        Ok(given)
    }

    /// Calls count on the reader, and checks what it gives. What is lent holds rubbish.
    fn count(
        &mut self,
        flat: &FlatGrammar,
        Plate { input, year, filled }: Plate<'_>,
        judge: impl FnOnce(&Given) -> Result<(), String>,
    ) -> Result<(), String> {
        let (mine, mut chart, found) = (self.either(flat), self.chart(), offset(&mut self.rng));
        let (mut due_chart, mut count) = (chart.clone(), found);
        due_chart.part_mut()[..CELLS].copy_from_slice(filled);
        let (given, due) = match self.reader.count(&mine, input, year, chart.part_mut(), &mut count) {
            Answer::Count(n) => (Given::Count(n), n),
            Answer::More => (Given::More, found),
            Answer::Refused(number) => (Given::Refused(number), found),
            answer => return Err(format!("count: {answer:?}")),
        };
        judge(&given)?;
        same("count: the number lent", count, due)?;
        chart.against(&due_chart, "count: chart")?;
        let what = match given {
            Given::Count(0) => "count: 0".to_string(),
            Given::Count(_) => "count: counted".to_string(),
            Given::Refused(number) => format!("count: refused {number}"),
            _ => "count: more".to_string(),
        };
        self.add(input, &what);
        Ok(())
    }
}
