//! Points to come back to (request U6 of document 02): lists of operations, compared with opening again and taking what
//! remains; the same over spoilt charts and with dirty hands; and the refusals of set and return.

use super::hands::{opened, taken};
use super::lent::{self, same, Counts, Lent};
use super::{in_year, Comparison};
use crate::books::{Book, Rng};
use crate::lister::chart::{self, cell};
use crate::lister::grammar::Grammar;
use crate::lister::points::Points;
use crate::lister::{hand, has_tree};
use crate::reader::{Answer, FlatGrammar, Hand, Reader, CELLS, FIRST_POINT, INPUT, POINTS, YEAR};

/// Names that no point has.
const OVER: [usize; 10] = [8, 8, 9, 15, 255, 256, 263, 1 << 32, (1 << 32) + 3, usize::MAX];
/// Operations in a list, and in one over a book with many rules, whose columns take long to fill.
const MOST: usize = 200;
const FEWER: usize = 12;

/// Of ten operations, how many are takes, and how many are takes or sets; the others are returns. The last one fills a hand.
const STYLES: [(usize, usize); 4] = [(5, 8), (3, 6), (7, 9), (9, 10)];
const FILLS: usize = 3;

/// An operation on a plate in hand.
#[derive(Clone, Copy, PartialEq, Eq, Debug)]
pub(super) enum Op {
    Take(u8),
    Set(usize),
    Return(usize),
}

impl Op {
    /// Makes the call, given what the hand holds before: returns the answer and the hand afterwards.
    pub(super) fn call(
        self,
        r: &dyn Reader,
        grammar: &FlatGrammar,
        mut hand: Hand,
        chart: &mut [u32],
    ) -> (Answer, Hand) {
        let answer = match self {
            Op::Take(mark) => return taken(r, grammar, hand, mark, chart),
            Op::Set(name) => r.set_point(grammar, &mut hand, name, chart),
            Op::Return(name) => r.return_to(grammar, &mut hand, name, chart),
        };
        (answer, hand)
    }

    pub(super) fn name(self) -> &'static str {
        match self {
            Op::Take(_) => "take",
            Op::Set(_) => "set",
            Op::Return(_) => "return",
        }
    }
}

/// Runs a list of operations on the book of a seed, and nothing else.
pub fn run_list(reader: &dyn Reader, book: &Book, seed: u64, counts: &mut Counts) -> Result<(), String> {
    let mut comparison = Comparison { reader, rng: Rng::new(seed ^ 0x0B00_5EED), counts };
    match comparison.load(&book.bytes, "load")? {
        Some(flat) => comparison.list(&flat, &book.inputs, &book.years),
        None => Ok(()),
    }
    .map_err(|what| format!("seed {seed} ({}), book {:02X?}: {what}", book.style, book.bytes))
}

/// What remains after a list of operations, without hands and charts: the marks, and where the points are.
#[derive(Clone, Default)]
pub(super) struct Remaining {
    pub marks: Vec<u8>,
    pub points: Points,
}

impl Remaining {
    /// Makes an operation, or says with which number it is refused.
    pub(super) fn moved(&mut self, op: Op) -> Result<(), u8> {
        match op {
            Op::Take(_) if self.marks.len() == INPUT => return Err(15),
            Op::Take(mark) => self.marks.push(mark),
            Op::Set(name) => *self.points.get_mut(name).ok_or(19)? = Some(self.marks.len()),
            Op::Return(name) => {
                let count = self.points.get(name).copied().flatten().ok_or(19)?;
                self.marks.truncate(count);
                self.points = self.points.map(|point| point.filter(|at| *at <= count));
            }
        }
        Ok(())
    }

    /// The hand of this year that is due.
    pub(super) fn hand(&self, year: u16) -> Hand {
        let mut due = hand::of(&self.marks, year);
        for (number, point) in due[FIRST_POINT..].iter_mut().zip(&self.points) {
            *number = point.map_or(0, |count| count as u16 + 1);
        }
        due
    }
}

/// The chart of the marks but the last with the last one taken too, and whether they are complete.
pub(super) fn taken_after(grammar: &Grammar, marks: &[u8], before: &Lent<u32>) -> (Lent<u32>, bool) {
    let mut chart = before.clone();
    chart::fill_column(grammar, marks, chart.part_mut());
    let complete = match marks.len() {
        0..=8 => has_tree(grammar, marks),
        n => chart.part()[cell(0, n)] >> grammar.start & 1 == 1, // `takes` compares these two
    };
    (chart, complete)
}

impl Comparison<'_> {
    /// A list of operations from an opening, one over spoilt charts, and the refusals.
    pub(super) fn points(&mut self, flat: &FlatGrammar, inputs: &[Vec<u8>], years: &[u16]) -> Result<(), String> {
        self.list(flat, inputs, years)?;
        self.spoilt_operations(flat, inputs)?;
        self.point_refusals(flat)
    }

    /// A list of operations of any length, in a year of the book.
    fn list(&mut self, flat: &FlatGrammar, inputs: &[Vec<u8>], years: &[u16]) -> Result<(), String> {
        let year = self.year_of(flat, years, 0);
        let most = if flat[1] <= 12 { self.rng.pick(&[10, MOST, MOST]) } else { FEWER };
        let length = self.rng.within(1, most);
        self.operations(flat, inputs, year, length).map_err(|what| format!("a list in {year}: {what}"))
    }

    /// An operation: a mark of the input or any mark, or a name, mostly one that fits.
    pub(super) fn operation(&mut self, input: &[u8], points: &Points, count: usize, style: usize) -> Op {
        let (takes, sets) = STYLES[style];
        let of_ten = self.rng.below(10);
        if of_ten < takes {
            let any = self.rng.below(256) as u8;
            let other = self.rng.pick(&[b'A', b'B', any]);
            return Op::Take(if self.rng.one_in(6) { other } else { input.get(count).copied().unwrap_or(other) });
        }
        let fits: Vec<usize> = (0..POINTS).filter(|name| points[*name].is_some() || of_ten < sets).collect();
        let any = self.rng.below(POINTS);
        let name = match self.rng.below(10) {
            0 => self.rng.pick(&OVER),
            1 | 2 => any,
            _ if fits.is_empty() => any,
            _ => self.rng.pick(&fits),
        };
        if of_ten < sets {
            Op::Set(name)
        } else {
            Op::Return(name)
        }
    }

    /// Fills the unused marks of a hand with rubbish.
    pub(super) fn dirty(&mut self, hand: &mut Hand) {
        let used = usize::from(hand[INPUT]).min(INPUT);
        hand[used..INPUT].iter_mut().for_each(|mark| *mark = lent::number(&mut self.rng));
    }

    /// A list of operations from an opening. After each one, marks, count, chart and answer are those of opening and taking only
    /// the marks that remain, and the points are those of the plain machine.
    fn operations(&mut self, flat: &FlatGrammar, inputs: &[Vec<u8>], year: u16, length: usize) -> Result<(), String> {
        let (grammar, found, chart) = (in_year(flat, year), lent::hand(&mut self.rng), self.chart());
        let ((_, mut hand), mut chart) = self.both("open", flat, &chart, |r, g, c| opened(r, g, year, found, c))?;
        let (mut left, style) = (Remaining::default(), self.rng.below(STYLES.len()));
        // for each number of marks that remain, the chart of opening and taking so many of them, and whether they are complete
        let mut fresh = vec![(chart.clone(), has_tree(&grammar, &[]))];
        for at in 0..length {
            let input = &inputs[self.rng.below(inputs.len())];
            let now = if style == FILLS && at > MOST / 2 { 0 } else { style };
            let op = match self.operation(input, &left.points, left.marks.len(), now) {
                Op::Take(_) if style == FILLS && at == 0 => Op::Set(0), // some returns from 64 marks go back to none
                op => op,
            };
            if self.rng.one_in(2) {
                self.dirty(&mut hand);
            }
            let (before, lent) = (left.clone(), hand);
            let answer;
            (answer, hand) = op.call(self.reader, flat, hand, chart.part_mut());
            let moved = left.moved(op);
            let n = left.marks.len();
            fresh.truncate(n + 1);
            if fresh.len() <= n {
                fresh.push(taken_after(&grammar, &left.marks, &fresh[n - 1].0));
            }
            let (due_chart, complete) = &fresh[n];
            let due = match moved {
                Err(number) => (Answer::Refused(number), lent),
                Ok(()) => (if *complete { Answer::Yes } else { Answer::No }, left.hand(year)),
            };
            same(&format!("operation {at}, {op:?}: answer and hand of what remains"), (answer, hand), due)?;
            chart.against(due_chart, &format!("operation {at}, {op:?}: the chart of what remains"))?;
            self.seen_operation(op, &before, &left, answer);
        }
        self.counts.add(if length > 100 { "list: over 100 operations" } else { "list: up to 100 operations" });
        self.opened_again(flat, year, &left.marks, &chart)
    }

    /// The reader opens again, on another chart, and takes what remains: the same cells, marks and count.
    pub(super) fn opened_again(
        &self,
        flat: &FlatGrammar,
        year: u16,
        marks: &[u8],
        chart: &Lent<u32>,
    ) -> Result<(), String> {
        let mut other = Lent::filled(CELLS, || 0xABCD_ABCD);
        let (_, mut hand) = opened(self.reader, flat, year, [9; crate::reader::HAND], other.part_mut());
        for mark in marks {
            (_, hand) = taken(self.reader, flat, hand, *mark, other.part_mut());
        }
        same("opened again: the hand", hand, hand::of(marks, year))?;
        other.against(&Lent::of(&chart.part()[..CELLS], 0xABCD_ABCD), "opened again: the chart")
    }

    /// Counts what an operation of a list came to.
    fn seen_operation(&mut self, op: Op, before: &Remaining, after: &Remaining, answer: Answer) {
        let name = op.name();
        let what = match answer {
            Answer::Refused(number) => format!("list, {name}: refused {number}"),
            answer => format!("list, {name}: {answer:?}"),
        };
        self.counts.add(&what);
        match (op, answer) {
            (Op::Set(name) | Op::Return(name), Answer::Refused(19)) => self.counts.add(match name {
                0..POINTS => "list, return: not set",
                POINTS => "list: name 8",
                _ if name >> 32 > 0 => "list: a name over 32 bits",
                _ => "list: a name over 8",
            }),
            (Op::Set(name), _) => self.counts.add(match before.points[name] {
                None => "list: a point set",
                Some(at) if at == before.marks.len() => "list: a point set again where it is",
                Some(_) => "list: a point moved",
            }),
            (Op::Return(name), _) => {
                let (from, to) = (before.marks.len(), after.marks.len());
                self.counts.add(match (from, to) {
                    (INPUT, 0) => "list: a return from 64 marks to none",
                    (INPUT, _) => "list: a return from 64 marks",
                    (_, 0) => "list: a return to no marks",
                    (from, to) if from == to => "list: a return to where the hand is",
                    _ => "list: a return between",
                });
                let is = |at: fn(usize, usize) -> bool| {
                    (0..POINTS).any(|other| other != name && before.points[other].is_some_and(|count| at(count, to)))
                };
                let others = [
                    (is(|count, to| count > to), "list: a return drops a point"),
                    (is(|count, to| count == to), "list: a return keeps another point at its count"),
                    (is(|count, to| count < to), "list: a return keeps a point before"),
                ];
                others.iter().filter(|(seen, _)| *seen).for_each(|(_, what)| self.counts.add(what));
            }
            _ => (),
        }
    }

    /// Operations over spoilt charts and with dirty hands: the lister's definition says what is due. Which cells a return leaves is
    /// also written out here.
    fn spoilt_operations(&mut self, flat: &FlatGrammar, inputs: &[Vec<u8>]) -> Result<(), String> {
        let start = flat[0];
        for _ in 0..2 {
            let sort = self.rng.below(2);
            let ((mut hand, _), mut chart) = (self.hand(sort), self.chart());
            for _ in 0..if flat[1] <= 12 { 8 } else { 3 } {
                let points = crate::lister::points::of(&hand);
                let input = &inputs[self.rng.below(inputs.len())];
                let op = self.operation(input, &points, usize::from(hand[INPUT]), 1);
                self.dirty(&mut hand);
                for _ in 0..self.rng.below(4) {
                    let at = self.rng.below(CELLS);
                    chart.part_mut()[at] ^= 1 << start;
                }
                let (before, found) = (chart.clone(), hand);
                let what = format!("{op:?} over a spoilt chart");
                let answer;
                ((answer, hand), chart) = self.both(&what, flat, &chart, |r, g, c| op.call(r, g, hand, c))?;
                if matches!(answer, Answer::Refused(_)) {
                    same(&format!("{what}, refused: the hand"), hand, found)?;
                } else {
                    self.counts.add(&format!("spoilt chart, {}: {answer:?}", op.name()));
                    same("the year of the hand", hand[YEAR], found[YEAR])?;
                }
                match (op, answer) {
                    (Op::Take(_), Answer::Yes | Answer::No) => (),
                    (Op::Return(_), Answer::Yes | Answer::No) => {
                        let mut due = before;
                        for (i, j) in (0..=INPUT).flat_map(|i| (i..=INPUT).map(move |j| (i, j))) {
                            due.part_mut()[cell(i, j)] *= u32::from(j <= usize::from(hand[INPUT]));
                        }
                        chart.against(&due, &format!("{what}: the lister's own chart"))?;
                    }
                    _ => chart.against(&before, &format!("{what}: the chart left as found"))?,
                }
            }
        }
        Ok(())
    }

    /// Refusals 8, 14, 10 and 19 of set and return, and 14 of take, in combinations: their order, and that all is left as found.
    fn point_refusals(&mut self, flat: &FlatGrammar) -> Result<(), String> {
        for bits in 0..20 {
            let (bad_grammar, short, which) = (bits & 1 == 1, bits & 2 == 2, bits / 4);
            let grammar = if bad_grammar { self.out_of_range(flat).0 } else { self.either(flat) };
            let chart = if short { self.short_chart() } else { self.chart() };
            let (hand, what) = self.hand(which);
            let fitting = self.rng.below(POINTS);
            let name = if self.rng.one_in(2) { self.rng.pick(&OVER) } else { fitting };
            for op in [Op::Set(name), Op::Return(name), Op::Take(65)] {
                if op == Op::Take(65) && which < 4 {
                    continue; // `refusals` has these
                }
                let call = |r: &dyn Reader, g: &FlatGrammar, c: &mut [u32]| op.call(r, g, hand, c);
                let ((answer, left), after) = self.both(&format!("{op:?}"), &grammar, &chart, call)?;
                let Answer::Refused(number) = answer else { continue };
                self.counts.add(&format!("{}: refused {number}", op.name()));
                same(&format!("{op:?} refused: the hand"), left, hand)?;
                after.against(&chart, &format!("{op:?} refused: the chart"))?;
                if number == 14 {
                    self.counts.add(&format!("{}, refused 14: {what}", op.name()));
                }
                let due = match () {
                    _ if bad_grammar => 8,
                    _ if which >= 2 => 14,
                    _ if short => 10,
                    _ => 19,
                };
                same(&format!("{op:?}: the lister's refusal"), number, due)?;
            }
        }
        Ok(())
    }
}
