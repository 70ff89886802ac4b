//! The simple reference, written from document 01 and requests U1 to U9 and U13 of document 02 alone: explicit
//! trees, the definitions word by word, no cleverness.
//! As a `Reader` it can be the code under test. Read each `fault(..)` as "no": only tests/faults.rs compiles these
//! files with faults that can be switched on.

pub mod chart;
pub mod depth;
pub mod grammar;
pub mod hand;
pub mod learn;
pub mod listing;
pub mod names;
pub mod parse;
pub mod points;
pub mod search;
pub mod trees;
pub mod walk;
pub mod words;
pub mod year;

use crate::reader::{Answer, FlatGrammar, Hand, Reader, CELLS, FLAT, INPUT, OUTPUT, YEAR};
use crate::switches::{fault, Fault};
use grammar::Grammar;
use walk::Given;

/// Steps after which a listing is called too large.
pub const STEPS: u64 = 40_000;
/// Steps for calls that must give an answer.
const MANY_STEPS: u64 = 20_000_000;

/// The bytes of the shortest text, `A()`. Only a fault asks.
const SHORTEST_TEXT: usize = 3;

pub struct Lister;

fn yes_or_no(yes: bool) -> Answer {
    if yes {
        Answer::Yes
    } else {
        Answer::No
    }
}

/// "Complete": whether cell (0, n) has the bit of the start nonterminal.
fn complete(grammar: &Grammar, chart: &[u32], n: usize) -> Answer {
    let from = usize::from(fault(Fault::CompleteFromAnotherWord)).min(n);
    yes_or_no(chart[chart::cell(from, n)] >> grammar.start & 1 == 1)
}

/// Checks 8, 9 and 10 of a call on an input; then the chart is filled in the year. Returns the grammar of the year.
fn filled(flat: &FlatGrammar, input: &[u8], year: u16, chart: &mut [u32]) -> Result<Grammar, Answer> {
    let grammar = judged(flat, input, chart.len(), OUTPUT)?.in_year(year);
    chart::fill(&grammar, input, chart);
    Ok(grammar)
}

/// Checks 8 to 11, in order.
pub fn judged(flat: &FlatGrammar, input: &[u8], cells: usize, output: usize) -> Result<Grammar, Answer> {
    // Request U2 of document 02: 9 is for more than 64 terminals only.
    let nine = input.len() > INPUT - usize::from(fault(Fault::SixtyFourRefused))
        || (fault(Fault::EmptyInputRefused) && input.is_empty());
    let ten = cells < CELLS;
    let eleven = output < OUTPUT - usize::from(fault(Fault::ElevenPasses1023));
    if fault(Fault::NineBeforeEight) && nine {
        return Err(Answer::Refused(9));
    }
    let grammar = grammar::from_flat(flat).ok_or(Answer::Refused(8))?;
    if nine && !(fault(Fault::TenBeforeNine) && ten) {
        return Err(Answer::Refused(9));
    }
    if ten && !(fault(Fault::ElevenBeforeTen) && eleven) {
        return Err(Answer::Refused(10));
    }
    if eleven {
        return Err(Answer::Refused(11));
    }
    Ok(grammar)
}

/// All derivations of an input, and whether it has a tree of any size.
pub fn listed(grammar: &Grammar, input: &[u8]) -> (Vec<trees::Row>, bool) {
    let list = listing::derivations(grammar, input, trees::LIMIT, MANY_STEPS).expect("small enough to list");
    let tree = match () {
        _ if fault(Fault::ThirteenForgottenOnTheEmptyInput) && input.is_empty() => false,
        _ if fault(Fault::ThirteenOnTheEmptyInputWithoutATree) && input.is_empty() => true,
        _ => has_tree(grammar, input),
    };
    (list, tree)
}

/// Whether the input has a parse tree of the start nonterminal, of any size.
pub fn has_tree(grammar: &Grammar, input: &[u8]) -> bool {
    chart::derives(grammar, input)[0][usize::from(grammar.start)] >> input.len() & 1 == 1
}

/// The answer for what first, next or count gives. A row is written to the front of the output; the number is its
/// number of nodes, or the count.
fn answered(given: Given, out: &mut [u16], number: &mut usize) -> Answer {
    match given {
        Given::Row(row) => {
            out.iter_mut().zip(&row).for_each(|(out, number)| *out = *number);
            *number = row.len() / 2;
            Answer::Nodes(*number)
        }
        Given::NoDerivation => Answer::NoDerivation,
        Given::NoneLeft => Answer::NoneLeft,
        Given::Count(n) => {
            *number = n;
            Answer::Count(n)
        }
        Given::More => Answer::More,
        Given::Refused(number) => Answer::Refused(number),
    }
}

/// The faults of the order in which take makes checks 10, 14 and 15: a refusal out of turn.
fn out_of_turn(hand: &Hand, cells: usize) -> Option<Answer> {
    let (count, ten) = (usize::from(hand[INPUT]), cells < CELLS);
    let ten_first = fault(Fault::TenBeforeFourteen) || (fault(Fault::TenBeforeAMarkOver255) && count <= INPUT);
    let fifteen_first = (fault(Fault::FifteenBeforeTen) && hand::marks(hand).is_some())
        || (fault(Fault::FifteenBeforeAMarkOver255) && !ten);
    match () {
        _ if ten_first && ten => Some(Answer::Refused(10)),
        _ if fifteen_first && count == INPUT => Some(Answer::Refused(15)),
        _ => None,
    }
}

impl Reader for Lister {
    fn by_listing(&self) -> bool {
        true
    }

    fn load(&self, book: &[u8], flat: &mut FlatGrammar, offset: &mut usize) -> Answer {
        match grammar::load(book) {
            Err((number, at)) => {
                *flat = [0; FLAT];
                *offset = at;
                Answer::Refused(number)
            }
            Ok(grammar) => {
                *flat = grammar::to_flat(&grammar, depth::nullable_depth(&grammar));
                Answer::Yes
            }
        }
    }

    fn open(&self, flat: &FlatGrammar, year: u16, hand: &mut Hand, chart: &mut [u32]) -> Answer {
        *hand = hand::of(&[], 0);
        let Some(grammar) = grammar::from_flat(flat) else { return Answer::Refused(8) };
        if chart.len() < CELLS {
            return Answer::Refused(10);
        }
        *hand = hand::of(&[], year);
        let grammar = grammar.in_year(year);
        chart::open(&grammar, chart);
        complete(&grammar, chart, 0)
    }

    fn take(&self, flat: &FlatGrammar, hand: &mut Hand, terminal: u8, chart: &mut [u32]) -> Answer {
        let Some(grammar) = grammar::from_flat(flat) else { return Answer::Refused(8) };
        if let Some(refused) = out_of_turn(hand, chart.len()) {
            return refused;
        }
        let Some(mut marks) = hand::marks(hand) else { return Answer::Refused(14) };
        if chart.len() < CELLS {
            return Answer::Refused(10);
        }
        if marks.len() == INPUT {
            return Answer::Refused(15);
        }
        marks.push(terminal);
        let grammar = grammar.in_year(if fault(Fault::TakeByYear0) { 0 } else { hand[YEAR] });
        *hand = hand::keeping(&marks, hand);
        chart::fill_column(&grammar, &marks, chart);
        complete(&grammar, chart, marks.len())
    }

    fn set_point(&self, flat: &FlatGrammar, hand: &mut Hand, name: usize, chart: &mut [u32]) -> Answer {
        points::set(flat, hand, name, chart)
    }

    fn return_to(&self, flat: &FlatGrammar, hand: &mut Hand, name: usize, chart: &mut [u32]) -> Answer {
        points::return_to(flat, hand, name, chart)
    }

    fn learn(
        &self,
        flat: &mut FlatGrammar,
        hand: &mut Hand,
        bytes: &[u8],
        chart: &mut [u32],
        offset: &mut usize,
    ) -> Answer {
        learn::learn(flat, hand, bytes, chart, offset)
    }

    fn check(&self, flat: &FlatGrammar, input: &[u8], year: u16, offered: &[u16], chart: &mut [u32]) -> Answer {
        match filled(flat, input, year, chart) {
            Err(refused) => refused,
            Ok(grammar) => yes_or_no(trees::is_derivation(&grammar, input, offered)),
        }
    }

    fn length(
        &self,
        flat: &FlatGrammar,
        input: &[u8],
        year: u16,
        offered: &[u16],
        chart: &mut [u32],
        tenths: &mut i32,
    ) -> Answer {
        match filled(flat, input, year, chart) {
            Err(refused) => refused,
            Ok(grammar) if !trees::is_derivation(&grammar, input, offered) => Answer::Refused(12),
            Ok(grammar) => {
                *tenths = trees::tenths(&grammar, offered);
                Answer::Yes
            }
        }
    }

    fn same_build(
        &self,
        flat: &FlatGrammar,
        input: &[u8],
        year: u16,
        one: &[u16],
        other: &[u16],
        chart: &mut [u32],
    ) -> Answer {
        match filled(flat, input, year, chart) {
            Err(refused) => refused,
            Ok(grammar) => {
                let judged = if fault(Fault::BuildChecksOneRow) { [one, one] } else { [one, other] };
                if judged.iter().all(|row| trees::is_derivation(&grammar, input, row)) {
                    yes_or_no(trees::same_build(one, other))
                } else {
                    Answer::Refused(12)
                }
            }
        }
    }

    fn first(
        &self,
        flat: &FlatGrammar,
        input: &[u8],
        year: u16,
        chart: &mut [u32],
        out: &mut [u16],
        nodes: &mut usize,
    ) -> Answer {
        match judged(flat, input, chart.len(), out.len()) {
            Err(refused) => refused,
            Ok(grammar) => {
                let grammar = grammar.in_year(year);
                chart::fill(&grammar, input, chart);
                let (list, tree) = listed(&grammar, input);
                answered(walk::first(&list, tree), out, nodes)
            }
        }
    }

    fn next(
        &self,
        flat: &FlatGrammar,
        input: &[u8],
        year: u16,
        offered: &[u16],
        chart: &mut [u32],
        out: &mut [u16],
        nodes: &mut usize,
    ) -> Answer {
        let length = if fault(Fault::ElevenUnaskedByNext) { OUTPUT } else { out.len() };
        match judged(flat, input, chart.len(), length) {
            Err(refused) => refused,
            Ok(grammar) => {
                let grammar = grammar.in_year(year);
                chart::fill(&grammar, input, chart);
                let (list, tree) = listed(&grammar, input);
                if fault(Fault::ThirteenFromNext) && tree && list.is_empty() {
                    return Answer::Refused(13);
                }
                answered(walk::next(&list, offered), out, nodes)
            }
        }
    }

    fn count(&self, flat: &FlatGrammar, input: &[u8], year: u16, chart: &mut [u32], count: &mut usize) -> Answer {
        match filled(flat, input, year, chart) {
            Err(refused) => refused,
            Ok(grammar) => {
                let (list, tree) = listed(&grammar, input);
                answered(walk::count(&list, tree), &mut [], count)
            }
        }
    }

    fn words(
        &self,
        flat: &FlatGrammar,
        input: &[u8],
        year: u16,
        offered: &[u16],
        chart: &mut [u32],
        buffer: &mut [u8],
        bytes: &mut usize,
    ) -> Answer {
        let grammar = match filled(flat, input, year, chart) {
            Err(refused) => return refused,
            Ok(_) if fault(Fault::EighteenBeforeTwelve) && buffer.len() < SHORTEST_TEXT => return Answer::Refused(18),
            Ok(grammar) => grammar,
        };
        let text = match trees::tree_of(&grammar, grammar.start, input, offered) {
            Some((tree, _)) if trees::is_derivation(&grammar, input, offered) => {
                words::text(&grammar, &tree).into_bytes()
            }
            _ => return Answer::Refused(12),
        };
        let room = match buffer.len() {
            length if fault(Fault::EighteenOneTooLate) => length + 1,
            length if fault(Fault::EighteenWhereItJustFits) => length.saturating_sub(1),
            length => length,
        };
        if text.len() > room {
            return Answer::Refused(18);
        }
        buffer.iter_mut().zip(&text).for_each(|(place, byte)| *place = *byte);
        *bytes = text.len();
        Answer::Bytes(text.len())
    }

    fn name(&self, book: &[u8], rule: usize, offset: &mut usize, length: &mut usize) -> Answer {
        match names::lookup(book, rule) {
            None => Answer::No,
            Some(part) => {
                (*offset, *length) = part;
                Answer::Yes
            }
        }
    }
}
