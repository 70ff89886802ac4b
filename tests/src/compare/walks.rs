//! The walk of demand 3.

use super::lent::{offset, same, Counts, Lent};
use super::{in_year, Comparison, Plate, WIDER};
use crate::books::{Book, Rng};
use crate::lister::listing::derivations;
use crate::lister::trees::{self, Row, LIMIT};
use crate::lister::walk::{Call, Given, Walk};
use crate::lister::{chart, has_tree, STEPS};
use crate::reader::{Answer, FlatGrammar, Reader, CELLS, OUTPUT};

/// Plays random lists of this many calls on each input of a book, if the input can be listed.
pub fn play_book(reader: &dyn Reader, book: &Book, seed: u64, calls: usize, counts: &mut Counts) -> Result<(), String> {
    let mut comparison = Comparison { reader, rng: Rng::new(seed ^ 0x3A1C), counts };
    let Some(flat) = comparison.load(&book.bytes, "load")? else { return Ok(()) };
    for (number, input) in book.inputs.iter().enumerate() {
        let year = comparison.year_of(&flat, &book.years, number);
        let grammar = in_year(&flat, year);
        let Ok(list) = derivations(&grammar, input, LIMIT, STEPS / 10) else { continue };
        let wider = derivations(&grammar, input, WIDER, STEPS / 10).unwrap_or_default();
        let offered = comparison.strangers(&grammar, input, &list[..list.len().min(400)], wider);
        let mut filled = vec![0; CELLS];
        chart::fill(&grammar, input, &mut filled);
        let walk = Walk { list, tree: has_tree(&grammar, input), place: 0 };
        let played = comparison.walk(&flat, Plate { input, year, filled: &filled }, walk, &offered, calls);
        played.map_err(|what| {
            format!("seed {seed} ({}), book {:02X?}, input {input:?}, year {year}: {what}", book.style, book.bytes)
        })?;
    }
    Ok(())
}

/// What the caller keeps: the copy of the last reading handed out, the readings handed out since the last call of
/// first, and how often next was offered the copy since then.
#[derive(Default)]
struct Caller {
    copy: Row,
    since: Vec<Row>,
    nexts: usize,
}

impl Caller {
    /// Document 01: the readings handed out since the last first are the first p of L. Here p is the smaller of N and
    /// 1 plus the number of times that next was offered the copy since then.
    fn judged(&self, walk: &Walk) -> Result<(), String> {
        let p = if self.since.is_empty() { 0 } else { walk.list.len().min(1 + self.nexts) };
        same("walk: place", walk.place, p)?;
        same("walk: the readings since the last first", self.since == walk.list[..p], true)
    }
}

impl Comparison<'_> {
    /// The walk of demand 3: a random list of calls, each with a new chart and output. A list of more than 4,096 may
    /// be cut if the calls are fewer than the rest of the list.
    pub(super) fn walk(
        &mut self,
        flat: &FlatGrammar,
        plate: Plate<'_>,
        mut walk: Walk,
        offered: &[Row],
        calls: usize,
    ) -> Result<(), String> {
        let (input, grammar) = (plate.input, in_year(flat, plate.year));
        let mut caller = Caller::default();
        for number in 0..calls {
            let call = match (number, self.rng.below(9)) {
                (1, _) | (_, 0) => Call::First,
                (_, 1) => Call::Count,
                (_, 2) => Call::NextWithNoDerivation,
                _ => Call::NextWithCopy,
            };
            let row =
                if call == Call::NextWithNoDerivation { self.stranger(&caller, offered) } else { caller.copy.clone() };
            if call == Call::NextWithNoDerivation && trees::is_derivation(&grammar, input, &row) {
                continue;
            }
            if self.rng.one_in(8) {
                self.too_short(flat, plate, call, &row)?;
            }
            let given = walk.call(call);
            let got = self.called(flat, plate, call, &row, &given)?;
            match (call, got) {
                (Call::First, Some(row)) => caller = Caller { copy: row.clone(), since: vec![row], nexts: 0 },
                (_, Some(row)) => {
                    caller.copy = row.clone();
                    caller.since.push(row);
                }
                _ => (),
            }
            caller.nexts += usize::from(call == Call::NextWithCopy && walk.place > 0);
            caller.judged(&walk)?;
            self.add(input, &format!("walk: {call:?}"));
            let what = match given {
                Given::Row(_) => "handed out".to_string(),
                Given::Count(_) => "counted".to_string(),
                given => format!("{given:?}"),
            };
            self.add(input, &format!("walk, {call:?}: {what}"));
        }
        Ok(())
    }

    /// A row that is mostly no derivation: a known row, or the copy cut, extended or changed.
    fn stranger(&mut self, caller: &Caller, offered: &[Row]) -> Row {
        let mut row = caller.copy.clone();
        match self.rng.below(5) {
            0 if !row.is_empty() => {
                let at = self.rng.below(row.len());
                row[at] = row[at].wrapping_add(self.rng.pick(&[1, u16::MAX, 256]));
            }
            1 => row.truncate(row.len().saturating_sub(self.rng.within(1, 2))),
            2 => row.extend((0..self.rng.within(1, 1100)).map(|_| self.rng.below(3) as u16)),
            _ => row = offered[self.rng.below(offered.len())].clone(),
        }
        row
    }

    /// Makes the call with a chart or an output that is too short: it must be refused and write nothing.
    fn too_short(&mut self, flat: &FlatGrammar, plate: Plate<'_>, call: Call, row: &[u16]) -> Result<(), String> {
        let short = call == Call::Count || self.rng.one_in(2);
        let mut chart = if short { self.short_chart() } else { self.chart() };
        let length = if short { OUTPUT } else { self.rng.pick(&[0, 1, OUTPUT - 1]) };
        let mut out = Lent::filled(length, || self.rng.draw() as u16);
        let (due_chart, due_out, found) = (chart.clone(), out.clone(), offset(&mut self.rng));
        let mut number = found;
        let got = self.asked(flat, plate, call, row, &mut chart, &mut out, &mut number);
        let due = Answer::Refused(if short { 10 } else { 11 });
        same(&format!("walk, {call:?}, too short: answer and number"), (got, number), (due, found))?;
        chart.against(&due_chart, &format!("walk, {call:?}, too short: chart"))?;
        out.against(&due_out, &format!("walk, {call:?}, too short: output"))?;
        self.add(plate.input, "walk: too short");
        Ok(())
    }

    #[allow(clippy::too_many_arguments)]
    fn asked(
        &self,
        flat: &FlatGrammar,
        Plate { input, year, .. }: Plate<'_>,
        call: Call,
        row: &[u16],
        chart: &mut Lent<u32>,
        out: &mut Lent<u16>,
        number: &mut usize,
    ) -> Answer {
        match call {
            Call::First => self.reader.first(flat, input, year, chart.part_mut(), out.part_mut(), number),
            Call::Count => self.reader.count(flat, input, year, chart.part_mut(), number),
            _ => self.reader.next(flat, input, year, row, chart.part_mut(), out.part_mut(), number),
        }
    }

    /// Makes one call, and compares all that it leaves with what the machine gives. Returns the row handed out.
    fn called(
        &mut self,
        flat: &FlatGrammar,
        plate: Plate<'_>,
        call: Call,
        row: &[u16],
        given: &Given,
    ) -> Result<Option<Row>, String> {
        let (mine, mut chart) = (self.either(flat), self.chart());
        let length = OUTPUT + self.rng.pick(&[0, 1, 2, 40, 1024]);
        let mut out = Lent::filled(length, || self.rng.draw() as u16);
        let (mut due_chart, mut due_out) = (chart.clone(), out.clone());
        due_chart.part_mut()[..CELLS].copy_from_slice(plate.filled);
        let found = offset(&mut self.rng);
        let (mut number, mut due_number) = (found, found);
        let due = match given {
            Given::Row(row) => {
                due_out.part_mut()[..row.len()].copy_from_slice(row);
                due_number = row.len() / 2;
                Answer::Nodes(row.len() / 2)
            }
            Given::NoDerivation => Answer::NoDerivation,
            Given::NoneLeft => Answer::NoneLeft,
            Given::Count(n) => {
                due_number = *n;
                Answer::Count(*n)
            }
            Given::More => Answer::More,
            Given::Refused(refusal) => Answer::Refused(*refusal),
        };
        let got = self.asked(&mine, plate, call, row, &mut chart, &mut out, &mut number);
        same(&format!("walk, {call:?}: answer and number"), (got, number), (due, due_number))?;
        chart.against(&due_chart, &format!("walk, {call:?}: chart"))?;
        out.against(&due_out, &format!("walk, {call:?}: output"))?;
        Ok(matches!(got, Answer::Nodes(_)).then(|| out.part()[..2 * number].to_vec()))
    }
}
