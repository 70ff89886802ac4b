//! A rule learnt at the vice (request U8 of document 02): the bytes of one rule, the longer grammar, and hand and chart of opening with it
//! and taking the same marks.

use super::grammar::{self, Grammar, Rule, Symbol};
use super::{chart, complete, depth, hand, names};
use crate::reader::{Answer, FlatGrammar, Hand, CELLS, INPUT, NAME_WIDTH, PLACES, RULES, YEAR};
use crate::switches::{fault, Fault};

/// The number of a refusal, and the offset in the bytes of the rule.
pub type Refused = (u8, usize);

/// A command of a rule: where it is, its byte, and its operands as far as they are there.
#[derive(Clone, Copy)]
struct Command<'a> {
    at: usize,
    byte: u8,
    operands: &'a [u8],
    /// How many operands are due, and how many bytes the rule has.
    due: usize,
    end: usize,
}

impl Command<'_> {
    fn opens(&self) -> bool {
        matches!(self.byte, 0x20 | 0x21)
    }

    fn cut(&self) -> bool {
        self.operands.len() < self.due
    }

    /// The years of a rule that this opens.
    fn years(&self) -> (u16, u16) {
        match *self.operands {
            [_, _, _, a, b, c, d] => (u16::from_le_bytes([a, b]), u16::from_le_bytes([c, d])),
            _ => (0, u16::MAX),
        }
    }

    /// 20: the first command opens no rule, or a later one opens another, or is 10 or 50.
    fn misplaced(&self) -> bool {
        match self.at {
            0 if fault(Fault::TwentyOneOpensNoRule) => self.byte != 0x20,
            0 if fault(Fault::StartLearntFirst) && self.byte == 0x10 => false,
            0 => !self.opens(),
            _ if fault(Fault::AnotherRuleLearnt) && self.opens() => false,
            _ if fault(Fault::AnotherRuleOf21Learnt) && self.byte == 0x21 => false,
            _ if fault(Fault::EndLearnt) && self.byte == 0x50 => false,
            _ if fault(Fault::EndLearntAtTheEnd) && self.byte == 0x50 && self.at + 1 == self.end => false,
            _ if fault(Fault::LaterStartLearnt) && self.byte == 0x10 => false,
            _ => self.opens() || matches!(self.byte, 0x10 | 0x50),
        }
    }

    /// The number with which a misplaced command is refused.
    fn misplaced_number(&self) -> u8 {
        let three = match (self.at, self.byte) {
            (0, 0x60) if fault(Fault::NameFirstIsThree) => true,
            (0, _) => fault(Fault::NoRuleFirstIsThree),
            (_, 0x10) => fault(Fault::LaterStartIsThree),
            (_, 0x50) => fault(Fault::EndIsThree),
            _ => fault(Fault::AnotherRuleIsThree),
        };
        match () {
            _ if three => 3,
            _ if fault(Fault::EndIsSeven) && self.byte == 0x50 && self.at > 0 => 7,
            _ => 20,
        }
    }
}

/// The bytes of one rule, read from the left, for a grammar: the rule, or the first fault. A fault may give none or two.
fn rules_of(bytes: &[u8], book: &Grammar, compared: &Grammar) -> Result<Vec<Rule>, Refused> {
    if bytes.is_empty() {
        return match () {
            _ if fault(Fault::NoBytesAreOne) => Err((1, 0)),
            _ if fault(Fault::NoBytesLearnt) => Ok(Vec::new()),
            _ if fault(Fault::NoBytesAtOne) => Err((20, 1)),
            _ => Err((20, 0)),
        };
    }
    let (mut rules, mut at) = (Vec::new(), 0);
    while at < bytes.len() {
        let byte = bytes[at];
        // 2: an unknown byte.
        let Some(due) = grammar::operands(byte) else {
            let twenty = fault(if at == 0 { Fault::UnknownFirstIsTwenty } else { Fault::UnknownLaterIsTwenty });
            return Err((if twenty { 20 } else { 2 }, at));
        };
        let whole = bytes.len().min(at + 1 + due);
        let command = Command { at, byte, operands: &bytes[at + 1..whole], due, end: bytes.len() };
        let one_first = fault(if at == 0 { Fault::OneBeforeTwentyFirst } else { Fault::OneBeforeTwentyLater });
        if one_first && command.cut() {
            return Err((1, bytes.len()));
        }
        // 20: not one rule.
        if command.misplaced() {
            return Err((command.misplaced_number(), at));
        }
        judged(&command, book, compared, rules.last())?;
        if command.cut() {
            break; // only with a fault
        }
        carried_out(&command, &mut rules);
        at += 1 + due;
    }
    // The end of the bytes ends the rule.
    if fault(Fault::OneWhereTheRuleEnds) {
        return Err((1, bytes.len()));
    }
    Ok(rules)
}

/// The checks of a command that is in its place: 3, 1, then those of its operands. `compared` has the rules whose names count.
fn judged(command: &Command<'_>, book: &Grammar, compared: &Grammar, open: Option<&Rule>) -> Result<(), Refused> {
    let Command { at, byte, operands, .. } = *command;
    // 3: a second name for the rule.
    let second = byte == 0x60 && open.is_some_and(|rule| rule.name.is_some());
    if second && !fault(Fault::SecondNameLearnt) && !(fault(Fault::CutSecondNameLearntIsOne) && command.cut()) {
        let number = match () {
            _ if fault(Fault::SecondNameIsTwenty) => 20,
            _ if fault(Fault::SecondNameIsSeventeen) => 17,
            _ => 3,
        };
        return Err((number, at));
    }
    let full = book.rules.len() >= RULES - usize::from(fault(Fault::FiveAtThe128thRule));
    if fault(Fault::LearnFiveBeforeOne) && command.opens() && full {
        return Err((5, at));
    }
    let kind_over = || matches!(byte, 0x20 | 0x21 | 0x30) && operands.first().is_some_and(|kind| *kind > 31);
    if fault(Fault::LearnFourBeforeOne) && kind_over() {
        return Err((4, at));
    }
    // 1: the bytes end inside the command.
    if command.cut() {
        return match () {
            _ if fault(Fault::CutCommandLeftOut) => Ok(()),
            _ if fault(Fault::CutIsTwenty) => Err((20, at)),
            _ if fault(Fault::OneAtTheCommand) => Err((1, at)),
            _ => Err((1, command.end)),
        };
    }
    let place = matches!(byte, 0x30 | 0x40 | 0x41);
    let reversed = byte == 0x41 && operands[0] > operands[1];
    let years_reversed = command.opens() && command.years().0 > command.years().1;
    // in this order; a command has few of them
    let mut checks = [
        (4, kind_over() && !fault(Fault::Kind32Learnt)),
        (21, years_reversed && !fault(Fault::ReversedYearsLearnt)),
        (5, command.opens() && full && !fault(Fault::Rule129Learnt)),
        (16, reversed && !fault(Fault::ReversedRangeLearnt)),
        (6, place && open.is_some_and(|rule| rule.places.len() >= PLACES) && !fault(Fault::NinthPlaceLearnt)),
        (17, byte == 0x60 && !names::may_be_given(operands, compared)),
    ];
    match () {
        _ if fault(Fault::LearnTwentyOneBeforeFour) => checks.swap(0, 1),
        _ if fault(Fault::LearnFiveBeforeFour) => checks[..3].rotate_right(1),
        _ if fault(Fault::LearnFiveBeforeTwentyOne) => checks.swap(1, 2),
        _ if fault(Fault::LearnSixBeforeSixteen) => checks.swap(3, 4),
        _ if fault(Fault::LearnSixBeforeFour) && byte == 0x30 => checks.swap(0, 4),
        _ => (),
    }
    match checks.iter().find(|(_, applies)| *applies) {
        Some((number, _)) => Err((*number, at + usize::from(fault(Fault::LearnOffsetOfTheOperand)))),
        None => Ok(()),
    }
}

/// What a command that passes adds to the rule.
fn carried_out(command: &Command<'_>, rules: &mut Vec<Rule>) {
    let Command { byte, operands, .. } = *command;
    if command.opens() {
        let length = i32::from(i16::from_le_bytes([operands[1], operands[2]]));
        let (first, last) = if fault(Fault::LearntForAllYears) { (0, u16::MAX) } else { command.years() };
        rules.push(Rule { left: operands[0] & 31, length, places: Vec::new(), first, last, name: None });
        return;
    }
    let Some(rule) = rules.last_mut() else { return }; // there is one, except with a fault
    match byte {
        0x30 => rule.places.push(Symbol::Nonterminal(operands[0] & 31)), // over 31 only with a fault
        0x40 => rule.places.push(Symbol::Terminal(operands[0])),
        0x41 => rule.places.push(Symbol::Range(operands[0], operands[1])),
        0x60 => rule.name = names::given(&operands[..NAME_WIDTH]),
        _ => (), // 10 and 50 with a fault
    }
}

/// The rules whose names are compared: all that the book uses.
fn compared(book: &Grammar, year: u16) -> Grammar {
    let mut compared = book.clone();
    match () {
        _ if fault(Fault::NamesOfTheBookUnread) => compared.rules.clear(),
        _ if fault(Fault::OnlyTheLastNameRead) => drop(compared.rules.drain(..book.rules.len().saturating_sub(1))),
        _ if fault(Fault::LastNameUnread) => drop(compared.rules.pop()),
        _ if fault(Fault::FirstNameUnread) => drop(compared.rules.drain(..book.rules.len().min(1))),
        _ if fault(Fault::NamesOutOfForceUnread) => compared = compared.in_year(year),
        _ => (),
    }
    compared
}

/// The longer grammar: the old rules under their numbers, and the new one under the next.
fn longer(book: &Grammar, new: Vec<Rule>) -> Grammar {
    let mut longer = book.clone();
    for rule in new {
        match () {
            _ if fault(Fault::LearntUnderNumber0) => longer.rules.insert(0, Some(rule)),
            _ if fault(Fault::LearntUnderTheLastOldNumber) => {
                longer.rules.pop();
                longer.rules.push(Some(rule));
            }
            _ if fault(Fault::LearntBeforeTheLastRule) => {
                longer.rules.insert(book.rules.len().saturating_sub(1), Some(rule))
            }
            _ => longer.rules.push(Some(rule)),
        }
    }
    longer
}

/// The row of the longer grammar: its depth is its own, and all that is unused is zero.
fn row(flat: &FlatGrammar, book: &Grammar, longer: &Grammar, year: u16) -> FlatGrammar {
    let deepest = match () {
        _ if fault(Fault::DepthAsFound) => flat[2],
        _ if fault(Fault::DepthOfTheOldRules) => depth::nullable_depth(book),
        _ if fault(Fault::DepthInTheHandsYear) => depth::nullable_depth(&longer.clone().in_year(year)),
        _ => depth::nullable_depth(longer),
    };
    grammar::to_flat(longer, deepest)
}

/// Hand and chart of opening with the longer grammar and taking the same marks. Points and year remain.
fn refill(old: &Grammar, longer: &Grammar, marks: &[u8], chart: &mut [u32]) -> Answer {
    let n = marks.len();
    let before = chart.to_vec();
    match () {
        _ if fault(Fault::ChartOfTheOldGrammar) => chart::fill(old, marks, chart),
        _ if fault(Fault::OnlyTheLastColumnFilled) => chart::fill_column(longer, marks, chart),
        _ if fault(Fault::LastColumnUnfilled) && n > 0 => chart::fill(longer, &marks[..n - 1], chart),
        _ => chart::fill(longer, marks, chart),
    }
    if fault(Fault::ColumnsAfterTheMarksLeft) {
        for (i, j) in (0..=INPUT).flat_map(|i| (n + 1..=INPUT).map(move |j| (i, j))) {
            chart[chart::cell(i, j)] = before[chart::cell(i, j)];
        }
    }
    match () {
        _ if fault(Fault::LearnSaysOfTheOldGrammar) => {
            let mut other = chart.to_vec();
            chart::fill(old, marks, &mut other);
            complete(old, &other, n)
        }
        _ if fault(Fault::LearnSaysNo) => Answer::No,
        _ if fault(Fault::LearnSaysYes) => Answer::Yes,
        _ => complete(longer, chart, n),
    }
}

/// Checks 8, 14 and 10, in order, and then the bytes. Returns the grammar, the used marks and the new rule.
fn accepted(
    flat: &FlatGrammar,
    hand: &Hand,
    bytes: &[u8],
    cells: usize,
) -> Result<(Grammar, Vec<u8>, Vec<Rule>), Refused> {
    let (book, marks, ten) = (grammar::from_flat(flat), hand::marks(hand), cells < CELLS);
    if fault(Fault::LearnFourteenBeforeEight) && marks.is_none() {
        return Err((14, 0));
    }
    if fault(Fault::NoBytesBeforeEight) && bytes.is_empty() {
        return Err((20, 0));
    }
    let book = book.ok_or((8, 0))?;
    let rules = rules_of(bytes, &book, &compared(&book, hand[YEAR]));
    let bytes_first = match () {
        _ if fault(Fault::BytesBeforeFourteen) => true,
        _ if fault(Fault::BytesBeforeTen) => marks.is_some(),
        _ => false,
    };
    match rules {
        Err(refused) if bytes_first => return Err(refused),
        _ if fault(Fault::LearnTenBeforeFourteen) && ten => return Err((10, 0)),
        _ => (),
    }
    let marks = marks.ok_or((14, 0))?;
    if ten {
        return Err((10, 0));
    }
    if fault(Fault::LearnFifteen) && marks.len() == INPUT {
        return Err((15, 0));
    }
    let rules = rules?;
    if fault(Fault::OutOfForceRefused) && rules.iter().any(|rule| !rule.in_force(hand[YEAR])) {
        return Err((21, 0));
    }
    Ok((book, marks, rules))
}

/// Learns a rule. The offset is written only with a refusal; grammar, hand and chart only if the rule is learnt.
pub fn learn(flat: &mut FlatGrammar, hand: &mut Hand, bytes: &[u8], chart: &mut [u32], offset: &mut usize) -> Answer {
    let (book, marks, new) = match accepted(flat, hand, bytes, chart.len()) {
        Ok(accepted) => accepted,
        Err((number, at)) => {
            *offset = at;
            return Answer::Refused(number);
        }
    };
    let year = hand[YEAR];
    let learnt = longer(&book, new);
    let whole = row(flat, &book, &learnt, year);
    let in_force = |rule: &Rule| rule.in_force(year);
    if !fault(Fault::OutOfForceNotLearnt) || learnt.rules.last().and_then(Option::as_ref).is_some_and(in_force) {
        *flat = whole;
    }
    *hand = hand::keeping(&marks, hand);
    let of_the_year = if fault(Fault::ChartOfAllYears) { learnt } else { learnt.in_year(year) };
    refill(&book.in_year(year), &of_the_year, &marks, chart)
}
