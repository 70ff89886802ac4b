//! Rules learnt at the vice (request U8 of document 02): any bytes, compared with the lister and with loading the book with these bytes;
//! the refusals before the bytes; the readings of the longer book; and lists of operations with learning among them, compared with
//! opening again.

use super::hands::opened;
use super::lent::{self, same, Counts, Lent};
use super::points::{taken_after, Op, Remaining};
use super::{in_year, Comparison};
use crate::books::{rule_to_learn, spoil_rule, Book, Rng};
use crate::lister::grammar::{self, operands, Grammar};
use crate::lister::listing::derivations;
use crate::lister::trees::{Row, LIMIT};
use crate::lister::{chart, depth, hand, has_tree, Lister, STEPS};
use crate::reader::{record, Answer, FlatGrammar, Hand, Reader, FIRST_POINT, FLAT, INPUT, OUTPUT, RULES, YEAR};

/// Rules tried with a book, and with one of many rules, whose columns take long to fill.
const RULES_TRIED: usize = 14;
const FEWER_TRIED: usize = 4;
/// Operations in a list, and in one over a book with many rules. A list learns at most so many rules.
const MOST: usize = 60;
const FEWER: usize = 8;
const LEARNT: usize = 6;
/// Readings of an input that are listed with the longer book.
const LISTED: usize = 40;

/// What learning is given: a grammar, a hand, and what the offset holds before.
#[derive(Clone)]
struct Given {
    flat: FlatGrammar,
    hand: Hand,
    offset: usize,
}

impl Given {
    /// Makes the call, which leaves its results in what is given.
    fn call(&mut self, r: &dyn Reader, bytes: &[u8], chart: &mut [u32]) -> Answer {
        r.learn(&mut self.flat, &mut self.hand, bytes, chart, &mut self.offset)
    }
}

/// Runs a list of operations with learning on the book of a seed, and nothing else.
pub fn run_learning(reader: &dyn Reader, book: &Book, seed: u64, counts: &mut Counts) -> Result<(), String> {
    let mut comparison = Comparison { reader, rng: Rng::new(seed ^ 0x1EA2_4E00), counts };
    match comparison.load(&book.bytes, "load")? {
        Some(flat) => comparison.learning_list(&flat, book),
        None => Ok(()),
    }
    .map_err(|what| format!("seed {seed} ({}), book {:02X?}: {what}", book.style, book.bytes))
}

/// A book of so many rules, all named but every third, whose rules hold in all years but every fifth.
fn sized(rules: usize) -> Vec<u8> {
    let mut book = vec![0x10, 0];
    for rule in 0..rules {
        let kind = (rule % 3) as u8;
        match rule % 5 {
            4 => book.extend([0x21, kind, 1, 0, 1, 0, 2, 0, 0x40, b'A']),
            _ => book.extend([0x20, kind, 1, 0, 0x40, b'A' + (rule % 4) as u8]),
        }
        if rule % 3 != 1 {
            book.extend(format!("\x60R{rule:<7}").bytes());
        }
    }
    book.push(0x50);
    book
}

/// The rows are the same; else the first number that differs.
fn same_rows(what: &str, got: &FlatGrammar, due: &FlatGrammar) -> Result<(), String> {
    match (0..FLAT).find(|at| got[*at] != due[*at]) {
        None => Ok(()),
        Some(at) => Err(format!("{what}: number {at} is {}, due {}", got[at], due[at])),
    }
}

/// Whether all that is unused in a row is zero, and its depth is exact.
fn tidy(flat: &FlatGrammar) -> bool {
    let grammar = grammar::from_flat(flat).expect("a longer grammar passes check 8");
    grammar::to_flat(&grammar, depth::nullable_depth(&grammar)) == *flat
}

impl Comparison<'_> {
    /// Rules learnt with a book, and at times with one of 0, 1, 127 or 128 rules; the refusals before the bytes; and a list.
    pub(super) fn learns(&mut self, flat: &FlatGrammar, book: &Book) -> Result<(), String> {
        let said = |what: String| format!("learning: {what}");
        let tries = if flat[1] <= 12 { RULES_TRIED } else { FEWER_TRIED };
        for _ in 0..tries {
            self.learnt_rule(flat, book).map_err(said)?;
        }
        if self.rng.one_in(2) {
            let bytes = sized(self.rng.pick(&[0, 1, 127, 127, 128, 128]));
            let years = book.years.iter().copied().chain([1, 2]).collect();
            let other = Book { style: "sized", bytes, inputs: vec![vec![b'A', b'B'], vec![]], years };
            let Some(flat) = self.load(&other.bytes, "sized load")? else { return Err("a sized book".into()) };
            for _ in 0..FEWER_TRIED {
                self.learnt_rule(&flat, &other).map_err(|what| format!("learning with {} rules: {what}", flat[1]))?;
            }
        }
        self.learn_refusals(flat).map_err(said)?;
        self.learning_list(flat, book).map_err(said)
    }

    /// The bytes of a rule: whole in two of five, else spoilt once or twice.
    fn rule_bytes(&mut self, book: &Grammar, year: u16) -> Vec<u8> {
        let mut bytes = rule_to_learn(&mut self.rng, book, year);
        for _ in 0..self.rng.pick(&[0, 0, 1, 1, 2]) {
            spoil_rule(&mut self.rng, &mut bytes, book);
        }
        bytes
    }

    /// A hand of a year: the marks of an input of the book, at times any marks, with any points up to its count and rubbish in its unused
    /// marks.
    fn held(&mut self, flat: &FlatGrammar, book: &Book) -> Hand {
        let year = self.rng.pick(&book.years);
        let full = flat[1] <= 12 && self.rng.one_in(12);
        let mut hand = if full || self.rng.one_in(12) {
            let mut hand = self.hand(usize::from(full)).0;
            if flat[1] > 12 || !full {
                let count = hand[INPUT].min(4); // the others take long to fill
                hand[INPUT] = count;
                hand[FIRST_POINT..].iter_mut().for_each(|point| *point = (*point).min(count + 1));
            }
            hand
        } else {
            let input = &book.inputs[self.rng.below(book.inputs.len())];
            let most = if flat[1] <= 12 { INPUT } else { 4 };
            let marks = &input[..self.rng.within(0, input.len().min(most))];
            let mut hand = hand::of(marks, year);
            for point in &mut hand[FIRST_POINT..] {
                let set = self.rng.below(marks.len() + 1) as u16 + 1;
                *point = self.rng.pick(&[0, set, marks.len() as u16 + 1]);
            }
            hand
        };
        hand[YEAR] = year;
        self.dirty(&mut hand);
        hand
    }

    /// Learning with a hand of the book, over a chart of rubbish and with rubbish in all that is unused. Grammar, hand, chart, answer and
    /// offset are those of the lister, those of loading the book with the rule, and those of opening again.
    fn learnt_rule(&mut self, flat: &FlatGrammar, book: &Book) -> Result<(), String> {
        let old = grammar::from_flat(flat).expect("a loaded grammar passes check 8");
        let hand = self.held(flat, book);
        let bytes = self.rule_bytes(&old, hand[YEAR]);
        let found = Given { flat: self.either(flat), hand, offset: lent::offset(&mut self.rng) };
        let chart = self.chart();
        let (answer, left, after) = self.both_learn(&found, &bytes, &chart)?;
        let said = |what: String| format!("rule {bytes:02X?}: {what}");
        self.against_joined(&book.bytes, &bytes, answer, &left).map_err(said)?;
        self.seen_rule(&old, &bytes, answer, &left);
        if matches!(answer, Answer::Refused(_)) {
            return Ok(());
        }
        let (marks, year) = (hand::marks(&hand).expect("a hand let through"), hand[YEAR]);
        let fresh = in_year(&left.flat, year);
        same(&said("complete".into()), answer == Answer::Yes, has_tree(&fresh, &marks))?;
        let mut due = chart;
        chart::fill(&fresh, &marks, due.part_mut());
        after.against(&due, &said("the chart of opening again".into()))?;
        self.opened_again(&left.flat, year, &marks, &after).map_err(said)?;
        self.seen_learnt(flat, &found, &left.flat, &marks);
        let input = &book.inputs[self.rng.below(book.inputs.len())];
        if self.rng.one_in(2) {
            self.old_readings(flat, &left.flat, input, year).map_err(said)?;
        }
        Ok(())
    }

    /// Makes the call on the reader and on the lister, and compares all that is left. Returns the answer and what is left.
    fn both_learn(
        &mut self,
        found: &Given,
        bytes: &[u8],
        chart: &Lent<u32>,
    ) -> Result<(Answer, Given, Lent<u32>), String> {
        let (mut got, mut got_chart) = (found.clone(), chart.clone());
        let (mut due, mut due_chart) = (found.clone(), chart.clone());
        let (lent, before) = (Lent::of(bytes, 0x20), Lent::of(bytes, 0x20));
        let due_answer = due.call(&Lister, bytes, due_chart.part_mut());
        let answer = got.call(self.reader, lent.part(), got_chart.part_mut());
        let what = |what: &str| format!("learn {bytes:02X?}: {what}");
        same(&what("answer and offset"), (answer, got.offset), (due_answer, due.offset))?;
        same_rows(&what("the row"), &got.flat, &due.flat)?;
        same(&what("the hand"), got.hand, due.hand)?;
        got_chart.against(&due_chart, &what("the chart"))?;
        lent.against(&before, &what("the bytes lent"))?;
        if matches!(answer, Answer::Refused(_)) {
            // this checks the lister
            same(&what("refused: all as found"), got.flat == found.flat && got.hand == found.hand, true)?;
            got_chart.against(chart, &what("refused: the chart as found"))?;
        } else {
            same(&what("learnt: offset and tidiness"), (got.offset, tidy(&got.flat)), (found.offset, true))?;
        }
        Ok((answer, got, got_chart))
    }

    /// What loading the book with the rule's bytes says: the same row, or the same fault at the offset after the book's front. A rule that
    /// is cut inside a command is compared without the end of the book. 20 has no counterpart.
    fn against_joined(&mut self, book: &[u8], rule: &[u8], answer: Answer, left: &Given) -> Result<(), String> {
        let (end, front) = book.split_last().expect("a book has an end");
        let cut = answer == Answer::Refused(1);
        let joined = [front, rule, if cut { &[] } else { std::slice::from_ref(end) }].concat();
        let (mut flat, mut offset) = ([9; FLAT], usize::MAX);
        let loaded = self.reader.load(&joined, &mut flat, &mut offset);
        match answer {
            Answer::Refused(20) => same("20: not one rule", misplaced(rule), Some(left.offset)),
            Answer::Refused(number) => {
                same("20 before others", misplaced(rule).is_some_and(|at| at <= left.offset), false)?;
                let due = (Answer::Refused(number), front.len() + left.offset);
                same("the fault of the joined book", (loaded, offset), due)
            }
            _ => {
                same("20 before others", misplaced(rule), None)?;
                same("the joined book", loaded, Answer::Yes)?;
                same_rows("the row of the joined book", &left.flat, &flat)
            }
        }
    }

    /// Every old reading of an input is one with the longer book, and in the same order: those of the longer book without the new rule are
    /// the old ones. The reader hands them out so.
    fn old_readings(&mut self, old: &FlatGrammar, new: &FlatGrammar, input: &[u8], year: u16) -> Result<(), String> {
        let lists = [old, new].map(|flat| derivations(&in_year(flat, year), input, LIMIT, STEPS / 10));
        let [Ok(olds), Ok(news)] = lists else { return Ok(()) };
        let kept: Vec<&Row> = news.iter().filter(|row| !row.chunks(2).any(|node| node[1] == old[1])).collect();
        same(
            "old readings of the longer book",
            kept.iter().map(|row| &row[..]).eq(olds.iter().map(|row| &row[..])),
            true,
        )?;
        let mut chart = self.chart();
        for row in olds.iter().take(LISTED) {
            same("an old reading checked", self.reader.check(new, input, year, row, chart.part_mut()), Answer::Yes)?;
        }
        self.counts.add(match (olds.len(), news.len()) {
            (0, 0) => "learnt: no readings",
            (0, _) => "learnt: only new readings",
            (olds, news) if olds == news => "learnt: only old readings",
            _ => "learnt: old and new readings",
        });
        if news.len() > LISTED {
            return Ok(());
        }
        let (mut out, mut nodes) = (vec![0; OUTPUT], 0);
        let mut answer = self.reader.first(new, input, year, chart.part_mut(), &mut out, &mut nodes);
        for row in &news {
            same("a reading of the longer book", answer, Answer::Nodes(row.len() / 2))?;
            same("a reading of the longer book", &out[..row.len()], &row[..])?;
            answer = self.reader.next(new, input, year, row, chart.part_mut(), &mut out, &mut nodes);
        }
        same("the last reading of the longer book", matches!(answer, Answer::Nodes(_)), false)
    }

    /// Refusals 8, 14 and 10 in combinations, with any bytes: their order, offset 0, and that all is left as found.
    fn learn_refusals(&mut self, flat: &FlatGrammar) -> Result<(), String> {
        let book = grammar::from_flat(flat).expect("a loaded grammar passes check 8");
        for bits in 0..16 {
            let (bad_grammar, short, which) = (bits & 1 == 1, bits & 2 == 2, [0, 2, 3, 4][bits / 4]);
            if !bad_grammar && !short && which == 0 {
                continue; // `learnt_rule` has these
            }
            let flat = if bad_grammar { self.out_of_range(flat).0 } else { self.either(flat) };
            let chart = if short { self.short_chart() } else { self.chart() };
            let (hand, what) = self.hand(which);
            let bytes = self.rule_bytes(&book, hand[YEAR]);
            let found = Given { flat, hand, offset: lent::offset(&mut self.rng) };
            let (answer, left, _) = self.both_learn(&found, &bytes, &chart)?;
            let due = match () {
                _ if bad_grammar => 8,
                _ if which > 0 => 14,
                _ => 10,
            };
            same("the lister's refusal", (answer, left.offset), (Answer::Refused(due), 0))?;
            self.counts.add(&format!("learn: refused {due}"));
            if due == 14 {
                self.counts.add(&format!("learn, refused 14: {what}"));
            }
            if bytes.is_empty() {
                self.counts.add(&format!("learn, no bytes: refused {due}"));
            }
        }
        Ok(())
    }

    /// A list of operations with learning among them, in a year of the book.
    fn learning_list(&mut self, flat: &FlatGrammar, book: &Book) -> Result<(), String> {
        let year = self.year_of(flat, &book.years, 0);
        let most = if flat[1] <= 12 { self.rng.pick(&[10, MOST, MOST]) } else { FEWER };
        let length = self.rng.within(1, most);
        self.learning(flat, book, year, length).map_err(|what| format!("a list with learning in {year}: {what}"))
    }

    /// A list of operations from an opening. After each one the row is that of loading the book with the rules learnt so far, marks, count,
    /// chart and answer are those of opening with it and taking only the marks that remain, and the points are those of the plain machine.
    fn learning(&mut self, flat: &FlatGrammar, book: &Book, year: u16, length: usize) -> Result<(), String> {
        let (mut front, mut due_flat) = (book.bytes[..book.bytes.len() - 1].to_vec(), *flat);
        let (found, chart) = (lent::hand(&mut self.rng), self.chart());
        let ((_, hand), mut chart) = self.both("open", flat, &chart, |r, g, c| opened(r, g, year, found, c))?;
        let mut now = Given { flat: *flat, hand, offset: 0 };
        let (mut left, mut learnt, mut grammar) = (Remaining::default(), 0, in_year(flat, year));
        let mut fresh = vec![(chart.clone(), has_tree(&grammar, &[]))];
        for at in 0..length {
            if self.rng.one_in(2) {
                self.dirty(&mut now.hand);
            }
            let before = now.clone();
            let (what, answer, due);
            if self.rng.one_in(4) && learnt < LEARNT {
                let bytes = self.rule_bytes(&grammar::from_flat(&due_flat).expect("it loads"), year);
                now.offset = lent::offset(&mut self.rng);
                let mut lister = now.clone();
                let said = lister.call(&Lister, &bytes, fresh[left.marks.len()].0.clone().part_mut());
                answer = now.call(self.reader, &bytes, chart.part_mut());
                what = format!("operation {at}, learn {bytes:02X?}");
                same(&format!("{what}: the offset"), now.offset, lister.offset)?;
                if let Answer::Refused(_) = said {
                    due = Err(said);
                } else {
                    front.extend(&bytes);
                    learnt += 1;
                    same(
                        "the joined book",
                        Lister.load(&[&front[..], &[0x50]].concat(), &mut due_flat, &mut 0),
                        Answer::Yes,
                    )?;
                    grammar = in_year(&due_flat, year);
                    fresh = self.fresh(&grammar, year, &left.marks, &fresh[0].0)?;
                    due = Ok(());
                }
                self.counts.add(&format!("learning list, learn: {}", outcome(answer)));
                let has_points = left.points.iter().flatten().count() > 0;
                if due.is_ok() && has_points {
                    self.counts.add("learning list: a rule learnt with points set");
                }
                if due.is_ok() && learnt > 1 {
                    self.counts.add("learning list: another rule learnt");
                }
            } else {
                let input = &book.inputs[self.rng.below(book.inputs.len())];
                let op = self.operation(input, &left.points, left.marks.len(), 0);
                (answer, now.hand) = op.call(self.reader, &now.flat, now.hand, chart.part_mut());
                due = left.moved(op).map_err(Answer::Refused);
                what = format!("operation {at}, {op:?}");
                let n = left.marks.len();
                fresh.truncate(n + 1);
                if fresh.len() <= n {
                    fresh.push(taken_after(&grammar, &left.marks, &fresh[n - 1].0));
                }
                self.counts.add(&format!("learning list, {}: {}", op.name(), outcome(answer)));
                if learnt > 0 && matches!(op, Op::Return(_)) && due.is_ok() {
                    self.counts.add("learning list: a return after a rule learnt");
                }
            }
            let (due_chart, complete) = &fresh[left.marks.len()];
            let due = match due {
                Err(refused) => (refused, before.hand),
                Ok(()) => (if *complete { Answer::Yes } else { Answer::No }, left.hand(year)),
            };
            same(&format!("{what}: answer and hand of what remains"), (answer, now.hand), due)?;
            same_rows(&format!("{what}: the row"), &now.flat, &due_flat)?;
            chart.against(due_chart, &format!("{what}: the chart of what remains"))?;
        }
        self.counts.add(if learnt > 0 { "learning list: with a rule learnt" } else { "learning list: without" });
        self.opened_again(&now.flat, year, &left.marks, &chart)
    }

    /// For each number of the marks the chart of opening with a grammar and taking so many of them, with what is after the cells of another
    /// chart, and whether they are complete.
    fn fresh(
        &mut self,
        grammar: &Grammar,
        year: u16,
        marks: &[u8],
        chart: &Lent<u32>,
    ) -> Result<Vec<(Lent<u32>, bool)>, String> {
        let mut first = chart.clone();
        chart::open(grammar, first.part_mut());
        let mut fresh = vec![(first, has_tree(grammar, &[]))];
        for n in 1..=marks.len() {
            let next = taken_after(grammar, &marks[..n], &fresh[n - 1].0);
            fresh.push(next);
        }
        same("rules out of force", grammar.numbered().all(|(_, rule)| rule.in_force(year)), true)?;
        Ok(fresh)
    }

    /// Counts what came up with the bytes of a rule.
    fn seen_rule(&mut self, old: &Grammar, bytes: &[u8], answer: Answer, left: &Given) {
        self.counts.add(&format!("learn: {}", outcome(answer)));
        let rules = old.rules.len();
        if [0, 1, RULES - 1, RULES].contains(&rules) {
            self.counts.add(&format!("learn, {rules} rules: {}", outcome(answer)));
        }
        let (first, at) = (bytes.first().copied(), left.offset);
        let cut = |at: usize| operands(bytes[at]).is_some_and(|due| bytes.len() < at + 1 + due);
        let what = match answer {
            Answer::Refused(20) => match (at, first) {
                (_, None) => "no bytes",
                (0, Some(0x60)) if cut(0) => "a name first, cut short",
                (0, Some(0x60)) => "a name first",
                (0, Some(0x10)) => "a start first",
                (0, Some(0x50)) => "an end first",
                (0, _) => "a place first",
                _ if bytes[at] == 0x10 => "a later start",
                _ if bytes[at] == 0x50 && at + 1 == bytes.len() => "an end at the end",
                _ if bytes[at] == 0x50 => "an end before the end",
                _ if cut(at) => "another rule, cut short",
                _ => "another rule",
            },
            Answer::Refused(2) if at == 0 => "an unknown byte first",
            Answer::Refused(2) => "an unknown byte later",
            Answer::Refused(3) if cut(at) => "a second name, cut short",
            Answer::Refused(3) => "a second name",
            Answer::Refused(17) => match bytes[at + 1..at + 9] {
                ref name if old.numbered().all(|(_, rule)| rule.name.is_none_or(|own| own != *name)) => "no name",
                _ => "a name of the book",
            },
            _ => return,
        };
        self.counts.add(&format!("learn: {what}"));
    }

    /// Counts what came up with a rule that is learnt.
    fn seen_learnt(&mut self, old: &FlatGrammar, found: &Given, new: &FlatGrammar, marks: &[u8]) {
        let year = found.hand[YEAR];
        let longer = grammar::from_flat(new).expect("a longer grammar passes check 8");
        let rule = longer.rules.last().and_then(Option::as_ref).expect("the rule learnt");
        let with = has_tree(&in_year(new, year), marks);
        let seen = [
            (!rule.in_force(year), "learnt: a rule out of force"),
            (rule.in_force(year), "learnt: a rule in force"),
            (rule.name.is_some(), "learnt: a rule with a name"),
            (rule.places.is_empty(), "learnt: a rule without places"),
            (new[2] != old[2], "learnt: the depth is another"),
            (found.flat[2] != old[2], "learnt: the depth found was another"),
            (found.flat[record(usize::from(old[1])).min(FLAT - 1)] != 0 && old[1] < 128, "learnt: over rubbish"),
            (with && !has_tree(&in_year(old, year), marks), "learnt: complete by the rule"),
            (marks.is_empty(), "learnt: no marks"),
            (marks.len() == INPUT, "learnt: 64 marks"),
            (found.hand[FIRST_POINT..].iter().any(|point| *point > 0), "learnt: points set"),
            (usize::from(new[1]) == RULES, "learnt: the 128th rule"),
        ];
        seen.iter().filter(|(seen, _)| *seen).for_each(|(_, what)| self.counts.add(what));
    }
}

/// An answer as the counts name it.
fn outcome(answer: Answer) -> String {
    match answer {
        Answer::Refused(number) => format!("refused {number}"),
        answer => format!("{answer:?}"),
    }
}

/// Where the first misplaced command of a rule is, if the commands before it are known and whole; written out again, without the lister.
/// No bytes are misplaced at 0.
fn misplaced(bytes: &[u8]) -> Option<usize> {
    if bytes.is_empty() {
        return Some(0);
    }
    let mut at = 0;
    while at < bytes.len() {
        let wrong = match bytes[at] {
            0x20 | 0x21 => at > 0,
            0x30 | 0x40 | 0x41 | 0x60 => at == 0,
            0x10 | 0x50 => true,
            _ => return None,
        };
        if wrong {
            return Some(at);
        }
        at += 1 + operands(bytes[at]).expect("a known command");
    }
    None
}
