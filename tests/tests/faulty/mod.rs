//! The lister with one fault switched on. Faults in what it computes are in the lister itself. Faults in what it
//! leaves in lent places, and in what it keeps between calls, are made here, after its call.

pub mod forgetful;
#[cfg(feature = "library")]
pub mod large;
mod learn;
mod points;
pub mod switches;

use crate::lister::chart::cell;
use crate::lister::{grammar, hand, judged, listed, Lister};
use outside_tests::lister::trees::Row;
use outside_tests::reader::{Answer, FlatGrammar, Hand, Reader, CELLS, FLAT, INPUT, OUTPUT, YEAR};
use std::cell::RefCell;
use switches::{fault, low_byte, Fault};

/// The lister with the fault that is switched on in this thread. It knows the last row that it handed out.
#[derive(Default)]
pub struct Faulty {
    last: RefCell<Row>,
}

impl Faulty {
    /// The last row handed out and its place in the list, if it is a derivation of this input.
    fn kept(&self, flat: &FlatGrammar, input: &[u8], year: u16) -> Option<(Row, usize)> {
        let grammar = judged(flat, input, CELLS, OUTPUT).ok()?.in_year(year);
        let last = self.last.borrow().clone();
        let place = listed(&grammar, input).0.iter().position(|row| *row == last)?;
        Some((last, place))
    }

    /// Spoils what first, next or count has left.
    fn left(&self, answer: Answer, out: &mut [u16], number: &mut usize) -> Answer {
        let (zero_output, zero_number) = match answer {
            Answer::NoDerivation => (Fault::OutputZeroWithoutAReading, Fault::NodesZeroWithoutAReading),
            Answer::NoneLeft => (Fault::OutputZeroWithNone, Fault::NodesZeroWithNone),
            Answer::Refused(12) => (Fault::OutputZeroWithTwelve, Fault::NodesZeroWithTwelve),
            Answer::Refused(13) => (Fault::OutputZeroWithThirteen, Fault::NodesZeroWithThirteen),
            Answer::Refused(_) => (Fault::OutputZeroWhenRefused, Fault::NodesZeroWhenRefused),
            _ => (Fault::OneNumberTooMany, Fault::NodesZeroWithAReading),
        };
        let end = match answer {
            Answer::Nodes(nodes) => 2 * nodes,
            _ => 0,
        };
        if fault(zero_output) && end < out.len() {
            out[end] = 0;
        }
        if fault(zero_number) {
            *number = 0;
        }
        if let Answer::Nodes(nodes) = answer {
            *self.last.borrow_mut() = out.iter().take(end).copied().collect();
            if fault(Fault::OutputClearedBehind) && end < out.len() {
                out[end..].fill(0);
            }
            if fault(Fault::NodesCountsNumbers) {
                *number = 2 * nodes;
            }
        }
        answer
    }
}

/// The year that a call with this fault goes by.
fn by(which: Fault, year: u16) -> u16 {
    match fault(which) {
        true => 0,
        false => low_byte(year, Fault::YearOfACallByItsLowByte),
    }
}

/// The input as a call reads it: a fault leaves the 65th terminal out.
fn read(input: &[u8]) -> &[u8] {
    if fault(Fault::SixtyFiveReadAs64) && input.len() == INPUT + 1 {
        &input[..INPUT]
    } else {
        input
    }
}

/// Whether the call with this fault refuses the input with 9, because it is empty.
fn refused_as_empty(which: Fault, flat: &FlatGrammar, input: &[u8]) -> bool {
    fault(which) && input.is_empty() && grammar::from_flat(flat).is_some()
}

/// No text is longer.
const LONGEST: usize = 5888;

/// Spoils the buffer and the number of bytes that words has left.
fn spoil_words(answer: Answer, buffer: &mut [u8], bytes: &mut usize) {
    let (zero_buffer, zero_bytes) = match answer {
        Answer::Refused(12) => (Fault::BufferZeroWithTwelve, Fault::BytesZeroWithTwelve),
        Answer::Refused(18) => (Fault::BufferZeroWithEighteen, Fault::BytesZeroWithEighteen),
        Answer::Refused(_) => (Fault::BufferZeroWhenRefused, Fault::BytesZeroWhenRefused),
        _ => (Fault::OneByteTooMany, Fault::BytesZeroWithAText),
    };
    let end = match answer {
        Answer::Bytes(bytes) => bytes,
        _ => 0,
    };
    if fault(zero_buffer) && end < buffer.len() {
        buffer[end] = 0;
    }
    if fault(zero_bytes) {
        *bytes = 0;
    }
    if fault(Fault::BufferClearedBehind) && end > 0 && end < buffer.len() {
        buffer[end..].fill(0);
    }
}

impl Reader for Faulty {
    fn inner(&self) -> &dyn Reader {
        &Lister
    }

    fn load(&self, book: &[u8], flat: &mut FlatGrammar, offset: &mut usize) -> Answer {
        let found = *flat;
        let answer = Lister.load(book, flat, offset);
        if let Answer::Refused(_) = answer {
            if fault(Fault::StartKeptWithARefusal) && book.len() > 1 && book[0] == 0x10 && book[1] < 32 {
                flat[0] = u16::from(book[1]);
            }
            if fault(Fault::RefusedRowWrittenWithoutItsHead) {
                flat[..3].copy_from_slice(&found[..3]);
            }
            return answer;
        }
        match () {
            _ if fault(Fault::Depth32) => flat[2] = 32,
            _ if fault(Fault::DepthThatDocument01Allows) && flat[2] > 0 => flat[2] = 32,
            _ if fault(Fault::DepthOneTooLow) => flat[2] = flat[2].saturating_sub(1),
            _ if fault(Fault::DepthCountsOneRoundMore) => flat[2] += 1,
            _ if fault(Fault::DepthUnwritten) => flat[2] = found[2],
            _ if fault(Fault::RowWrittenWithoutItsEnd) => flat[FLAT - 1] = found[FLAT - 1],
            _ if fault(Fault::OffsetZeroWhenLoaded) => *offset = 0,
            _ => (),
        }
        answer
    }

    fn open(&self, flat: &FlatGrammar, year: u16, hand: &mut Hand, chart: &mut [u32]) -> Answer {
        let found = *hand;
        let answer = Lister.open(flat, by(Fault::OpenByYear0, year), hand, chart);
        match answer {
            Answer::Refused(_) if fault(Fault::RefusedOpeningKeepsTheYear) => hand[YEAR] = year,
            Answer::Refused(_) => (),
            _ => hand[YEAR] = if fault(Fault::OpenKeepsYear0) { 0 } else { year },
        }
        points::opened(answer, &found, hand);
        if fault(Fault::OpenedHandWithoutItsCount) {
            hand[INPUT] = found[INPUT];
        }
        if fault(Fault::RefusedOpeningLeavesTheHand) && matches!(answer, Answer::Refused(_)) {
            *hand = found;
        }
        answer
    }

    fn take(&self, flat: &FlatGrammar, hand: &mut Hand, terminal: u8, chart: &mut [u32]) -> Answer {
        let found = *hand;
        let answer = points::take(flat, hand, terminal, chart);
        let used = usize::from(hand[INPUT]).min(INPUT);
        match answer {
            Answer::Refused(_) if fault(Fault::RefusedTakeClearsTheHand) => *hand = hand::of(&[], 0),
            Answer::Refused(_) if fault(Fault::RefusedTakeNormalisesTheHand) => hand[used..INPUT].fill(0),
            Answer::Refused(_) => (),
            _ if fault(Fault::HandKeepsRubbish) => hand[used..INPUT].copy_from_slice(&found[used..INPUT]),
            _ if fault(Fault::TakenHandWithoutItsCount) => hand[INPUT] = found[INPUT],
            _ if fault(Fault::TakenHandForgetsItsYear) => hand[YEAR] = 0,
            _ if fault(Fault::WritesAnotherWord) && used < INPUT => chart[cell(used, used + 1)] = 0,
            _ if fault(Fault::WritesBehindTheCells) && chart.len() > CELLS => chart[CELLS] = 0,
            _ => (),
        }
        answer
    }

    fn set_point(&self, flat: &FlatGrammar, hand: &mut Hand, name: usize, chart: &mut [u32]) -> Answer {
        points::set(flat, hand, name, chart)
    }

    fn return_to(&self, flat: &FlatGrammar, hand: &mut Hand, name: usize, chart: &mut [u32]) -> Answer {
        points::return_to(flat, hand, name, chart)
    }

    fn learn(
        &self,
        flat: &mut FlatGrammar,
        hand: &mut Hand,
        bytes: &[u8],
        chart: &mut [u32],
        offset: &mut usize,
    ) -> Answer {
        learn::learn(flat, hand, bytes, chart, offset)
    }

    fn check(&self, flat: &FlatGrammar, input: &[u8], year: u16, offered: &[u16], chart: &mut [u32]) -> Answer {
        Lister.check(flat, read(input), by(Fault::CheckByYear0, year), offered, chart)
    }

    fn length(
        &self,
        flat: &FlatGrammar,
        input: &[u8],
        year: u16,
        offered: &[u16],
        chart: &mut [u32],
        tenths: &mut i32,
    ) -> Answer {
        if refused_as_empty(Fault::EmptyInputRefusedByLength, flat, input) {
            return Answer::Refused(9);
        }
        let answer = Lister.length(flat, input, by(Fault::LengthByYear0, year), offered, chart, tenths);
        match answer {
            Answer::Refused(12) if fault(Fault::TwelveSpoilsTheChart) => chart[0] ^= 1,
            Answer::Refused(12) if fault(Fault::TenthsZeroWithTwelve) => *tenths = 0,
            Answer::Refused(8..=10) if fault(Fault::TenthsZeroWhenRefused) => *tenths = 0,
            _ => (),
        }
        answer
    }

    fn same_build(
        &self,
        flat: &FlatGrammar,
        input: &[u8],
        year: u16,
        one: &[u16],
        other: &[u16],
        chart: &mut [u32],
    ) -> Answer {
        if refused_as_empty(Fault::EmptyInputRefusedByBuild, flat, input) {
            return Answer::Refused(9);
        }
        Lister.same_build(flat, input, by(Fault::BuildByYear0, year), one, other, chart)
    }

    fn first(
        &self,
        flat: &FlatGrammar,
        input: &[u8],
        year: u16,
        chart: &mut [u32],
        out: &mut [u16],
        nodes: &mut usize,
    ) -> Answer {
        let mut answer = Lister.first(flat, input, by(Fault::FirstByYear0, year), chart, out, nodes);
        if fault(Fault::FirstGoesOn) && matches!(answer, Answer::Nodes(_)) {
            if let Some((last, _)) = self.kept(flat, input, year) {
                answer = match Lister.next(flat, input, year, &last, chart, out, nodes) {
                    Answer::NoneLeft => answer,
                    answer => answer,
                };
            }
        }
        self.left(answer, out, nodes)
    }

    fn next(
        &self,
        flat: &FlatGrammar,
        input: &[u8],
        year: u16,
        offered: &[u16],
        chart: &mut [u32],
        out: &mut [u16],
        nodes: &mut usize,
    ) -> Answer {
        if refused_as_empty(Fault::EmptyInputRefusedByNext, flat, input) {
            return Answer::Refused(9);
        }
        let found = chart.to_vec();
        let mut answer = Lister.next(flat, input, by(Fault::NextByYear0, year), offered, chart, out, nodes);
        if fault(Fault::NextKeepsItsOwnPlace) && matches!(answer, Answer::Nodes(_)) {
            if let Some((last, _)) = self.kept(flat, input, year) {
                answer = Lister.next(flat, input, year, &last, chart, out, nodes);
            }
        }
        match answer {
            Answer::Refused(12) if fault(Fault::TwelveLeavesTheChart) => chart.copy_from_slice(&found),
            Answer::NoneLeft if fault(Fault::NoneLeavesTheChart) => chart.copy_from_slice(&found),
            Answer::NoneLeft | Answer::Refused(12) if fault(Fault::OfferedCopiedToTheOutput) => {
                out.iter_mut().zip(offered).for_each(|(out, number)| *out = *number);
            }
            _ => (),
        }
        self.left(answer, out, nodes)
    }

    fn words(
        &self,
        flat: &FlatGrammar,
        input: &[u8],
        year: u16,
        offered: &[u16],
        chart: &mut [u32],
        buffer: &mut [u8],
        bytes: &mut usize,
    ) -> Answer {
        if refused_as_empty(Fault::EmptyInputRefusedByWords, flat, input) {
            return Answer::Refused(9);
        }
        if fault(Fault::ElevenAskedByWords)
            && judged(flat, input, chart.len(), buffer.len()) == Err(Answer::Refused(11))
        {
            return Answer::Refused(11);
        }
        let found = chart.to_vec();
        let answer = Lister.words(flat, input, by(Fault::WordsByYear0, year), offered, chart, buffer, bytes);
        spoil_words(answer, buffer, bytes);
        match answer {
            Answer::Refused(12) if fault(Fault::TwelveOfWordsLeavesTheChart) => chart.copy_from_slice(&found),
            Answer::Refused(18) if fault(Fault::EighteenLeavesTheChart) => chart.copy_from_slice(&found),
            Answer::Refused(18) if fault(Fault::FrontWrittenWithEighteen) => {
                let mut whole = [0; LONGEST];
                Lister.words(flat, input, year, offered, chart, &mut whole, &mut 0);
                buffer.copy_from_slice(&whole[..buffer.len()]);
            }
            _ => (),
        }
        answer
    }

    fn name(&self, book: &[u8], rule: usize, offset: &mut usize, length: &mut usize) -> Answer {
        let answer = Lister.name(book, rule, offset, length);
        if fault(Fault::EmptyPartWritesZeros) && answer == Answer::No {
            (*offset, *length) = (0, 0);
        }
        answer
    }

    fn count(&self, flat: &FlatGrammar, input: &[u8], year: u16, chart: &mut [u32], count: &mut usize) -> Answer {
        let found = *count;
        let mut answer = Lister.count(flat, input, by(Fault::CountByYear0, year), chart, count);
        match answer {
            Answer::Count(n) if fault(Fault::CountsWhatIsLeft) => {
                *count = n - self.kept(flat, input, year).map_or(0, |(_, place)| place);
                answer = Answer::Count(*count);
            }
            Answer::Count(_) if fault(Fault::CountUnwritten) => *count = found,
            Answer::More if fault(Fault::CountWrittenWithMore) => *count = 0,
            Answer::Refused(13) if fault(Fault::CountZeroWithThirteen) => *count = 0,
            Answer::Refused(8..=10) if fault(Fault::CountZeroWhenRefused) => *count = 0,
            _ => (),
        }
        answer
    }
}
