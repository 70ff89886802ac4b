//! First, on an input that passes the checks: the answer, the number of nodes, the output and the chart.

use super::lent::{offset, same, Lent};
use super::{Comparison, Plate};
use crate::lister::grammar::Grammar;
use crate::lister::trees::{self, Row, LIMIT};
use crate::lister::walk::{self, Given};
use crate::reader::{Answer, FlatGrammar, CELLS, OUTPUT};

/// What is known about an input. `list` has all its derivations, unless they are too many to list; `front` then has
/// the first 4,097, unless finding them takes too long. `tree` says whether it has a tree of any size, and `offered`
/// has rows, some of which may be derivations.
#[derive(Clone, Copy)]
pub(super) struct First<'a> {
    pub list: Option<&'a [Row]>,
    pub front: Option<&'a [Row]>,
    pub tree: bool,
    pub offered: &'a [Row],
}

impl Comparison<'_> {
    /// Calls first on the reader. What is lent holds rubbish. Only the front of the output is written, and nothing
    /// without a derivation.
    pub(super) fn first(
        &mut self,
        flat: &FlatGrammar,
        grammar: &Grammar,
        plate: Plate<'_>,
        known: First<'_>,
    ) -> Result<(), String> {
        let Plate { input, year, filled } = plate;
        let listed = known.list.or(known.front);
        if known.list.is_none() && self.reader.by_listing() {
            return Ok(());
        }
        let (mine, mut chart, found) = (self.either(flat), self.chart(), offset(&mut self.rng));
        let length = OUTPUT + self.rng.pick(&[0, 0, 1, 40]);
        let mut out = Lent::filled(length, || self.rng.draw() as u16);
        let (mut due_chart, mut due_out, mut nodes) = (chart.clone(), out.clone(), found);
        due_chart.part_mut()[..CELLS].copy_from_slice(filled);
        let (lent, before) = (Lent::of(input, 0x41), Lent::of(input, 0x41));
        let answer = self.reader.first(&mine, lent.part(), year, chart.part_mut(), out.part_mut(), &mut nodes);
        let given = match listed {
            Some(list) => walk::first(list, known.tree),
            None => self.unlisted(flat, grammar, plate, &known, answer, out.part())?,
        };
        let due = match &given {
            Given::Row(row) => {
                due_out.part_mut()[..row.len()].copy_from_slice(row);
                (Answer::Nodes(row.len() / 2), row.len() / 2)
            }
            Given::Refused(number) => (Answer::Refused(*number), found),
            _ => (Answer::NoDerivation, found),
        };
        same("first: answer and nodes", (answer, nodes), due)?;
        chart.against(&due_chart, "first: chart")?;
        out.against(&due_out, "first: output")?;
        lent.against(&before, "first: the input lent")?;
        let which = if listed.is_some() { "first" } else { "first, too many to list" };
        let what = match given {
            Given::Row(_) => "handed out".to_string(),
            Given::Refused(number) => format!("refused {number}"),
            _ => "no reading".to_string(),
        };
        self.add(input, &format!("{which}: {what}"));
        Ok(())
    }

    /// Where the list is too large: the lister and the reader's own check must accept what first returns, and no
    /// known derivation may come before it. With 13, no derivation may be known.
    fn unlisted(
        &mut self,
        flat: &FlatGrammar,
        grammar: &Grammar,
        Plate { input, year, .. }: Plate<'_>,
        known: &First<'_>,
        answer: Answer,
        out: &[u16],
    ) -> Result<Given, String> {
        let mut at_hand = known.offered.iter().filter(|row| trees::is_derivation(grammar, input, row));
        match answer {
            Answer::Nodes(nodes) if (1..=LIMIT).contains(&nodes) && known.tree => {
                let row = out[..2 * nodes].to_vec();
                same("first: a derivation, by the lister", trees::is_derivation(grammar, input, &row), true)?;
                let own = self.reader.check(flat, input, year, &row, self.chart().part_mut());
                same("first: a derivation, by the reader's own check", own, Answer::Yes)?;
                match at_hand.find(|other| **other < row) {
                    None => Ok(Given::Row(row)),
                    Some(other) => Err(format!("first: {row:?} handed out, and {other:?} comes before it")),
                }
            }
            Answer::Refused(13) if known.tree => match at_hand.next() {
                None => Ok(Given::Refused(13)),
                Some(row) => Err(format!("first: refused 13, and {row:?} is a derivation")),
            },
            answer => Err(format!("first: {answer:?}, where trees are: {}", known.tree)),
        }
    }
}
