//! Books and grammars: loading, and check 8.

use super::names::{self, Name};
use crate::reader::{record, FlatGrammar, FLAT, NAME, NAME_WIDTH, PLACES, RULES, YEARS};
use crate::switches::{fault, low_byte, Fault};

/// What a place holds: in document 01 a kind or a mark; since request U1 of document 02 also a range, which is any mark
/// from low to high. `Terminal(a)` and `Range(a, a)` are two symbols that the same mark fits.
#[derive(Clone, Copy, PartialEq, Eq, Debug)]
pub enum Symbol {
    Nonterminal(u8),
    Terminal(u8),
    Range(u8, u8),
}

impl Symbol {
    /// Whether the mark fits a place with this symbol. No mark fits a nonterminal.
    pub fn fits(self, mark: u8) -> bool {
        match self {
            Symbol::Nonterminal(_) => false,
            Symbol::Terminal(t) => mark == t,
            Symbol::Range(low, high) => {
                let from_low = low < mark || (low == mark && !fault(Fault::LowerEndExcluded));
                let to_high = mark < high || (mark == high && !fault(Fault::UpperEndExcluded));
                from_low
                    && (to_high || fault(Fault::UpperEndUnread))
                    && (mark == low || !fault(Fault::OnlyTheLowEndFits))
            }
        }
    }
}

/// A rule. Its length is in hundredths of a millimetre. It is in force from its first year to its last. Its name, if it has
/// one, has its filling.
#[derive(Clone, PartialEq, Eq, Debug)]
pub struct Rule {
    pub left: u8,
    pub length: i32,
    pub places: Vec<Symbol>,
    pub first: u16,
    pub last: u16,
    pub name: Option<Name>,
}

impl Rule {
    /// Whether the rule is in force in a year, by request U9 of document 02: both ends of its span are included.
    pub fn in_force(&self, year: u16) -> bool {
        let begun = self.first < year || (self.first == year && !fault(Fault::FirstYearExcluded));
        let not_ended = year < self.last || (year == self.last && !fault(Fault::LastYearExcluded));
        begun && not_ended
    }
}

/// A grammar that check 8 accepts (document 01: loaded book), or its grammar of a year. Rules go by their numbers; a number
/// without a rule is that of a rule out of force.
#[derive(Clone, PartialEq, Eq, Debug)]
pub struct Grammar {
    pub start: u8,
    pub rules: Vec<Option<Rule>>,
}

impl Grammar {
    /// The rule with this number, if there is one.
    pub fn rule(&self, number: usize) -> Option<&Rule> {
        self.rules.get(number)?.as_ref()
    }

    /// All rules with their numbers.
    pub fn numbered(&self) -> impl Iterator<Item = (usize, &Rule)> {
        self.rules.iter().enumerate().filter_map(|(number, rule)| Some((number, rule.as_ref()?)))
    }

    /// The grammar of a year: rules out of force are left out, and the others keep their numbers.
    pub fn in_year(mut self, year: u16) -> Grammar {
        for rule in self.rules.iter_mut().filter(|rule| rule.as_ref().is_some_and(|rule| !rule.in_force(year))) {
            *rule = None;
        }
        if fault(Fault::NumbersShift) {
            self.rules.retain(Option::is_some);
        }
        self
    }
}

/// How many operands a command has; None if its byte is unknown.
pub fn operands(command: u8) -> Option<usize> {
    match command {
        0x10 | 0x30 | 0x40 => Some(1),
        0x41 => Some(2),
        0x20 => Some(3),
        0x21 => Some(7),
        0x60 => Some(NAME_WIDTH),
        0x50 => Some(0),
        _ => None,
    }
}

/// The offsets of the commands of a book, read from the left as far as they are known. The last may be cut short.
pub fn commands(book: &[u8]) -> Vec<usize> {
    let (mut all, mut at) = (Vec::new(), 0);
    while let Some(operands) = book.get(at).and_then(|command| operands(*command)) {
        all.push(at);
        at += 1 + operands;
    }
    all
}

/// Reads a book from the left. The first fault determines number and offset.
pub fn load(book: &[u8]) -> Result<Grammar, (u8, usize)> {
    let mut grammar = Grammar { start: 0, rules: Vec::new() };
    let mut at = 0;
    loop {
        // 1: the book ends where a command or 50 must come.
        if at == book.len() {
            return Err((1, book.len()));
        }
        let command = book[at];
        // 2: an unknown byte.
        let operands = operands(command).ok_or((2, at))?;
        let cut = book.len() < at + 1 + operands;
        let kind_over = |most: u8| {
            matches!(command, 0x10 | 0x20 | 0x21 | 0x30) && book.get(at + 1).is_some_and(|kind| *kind > most)
        };
        if fault(Fault::OneBeforeThree) && cut {
            return Err((1, book.len()));
        }
        let reversed = || command == 0x41 && book[at + 1] > book.get(at + 2).copied().unwrap_or(0);
        // 3: out of turn. 10 is the first command and occurs only there; 30, 40 and 41 need an open rule, which 20 and 21
        // open, and 60 needs one without a name.
        let open = grammar.rules.last().and_then(Option::as_ref);
        let in_turn = match command {
            0x60 if fault(Fault::CutSecondNameIsOne) && cut && open.is_some() => true,
            0x60 => names::in_turn(open, at),
            0x10 => at == 0,
            0x50 if fault(Fault::EndAcceptedFirst) => true,
            0x41 if fault(Fault::RangeBeforeAnyRuleAccepted) => at > 0,
            0x21 if fault(Fault::YearsAcceptedFirst) => true,
            0x20 | 0x21 | 0x50 => at > 0,
            _ if fault(Fault::OnlyTwentyOpensARule) => {
                grammar.numbered().any(|(_, rule)| (rule.first, rule.last) == (0, u16::MAX))
            }
            _ if fault(Fault::PlaceAfterANameRefused) => open.is_some_and(|rule| rule.name.is_none()),
            _ => at > 0 && !grammar.rules.is_empty(),
        };
        if !in_turn {
            return Err((3, at));
        }
        if fault(Fault::FourBeforeOne) && kind_over(31) {
            return Err((4, at));
        }
        if fault(Fault::SixteenBeforeOne) && at + 1 < book.len() && reversed() {
            return Err((16, at));
        }
        if fault(Fault::SeventeenBeforeOne) && cut && command == 0x60 && names::other_byte(&book[at + 1..]) {
            return Err((17, at));
        }
        // 1: the book ends inside the command.
        if cut {
            return Err((1, book.len()));
        }
        let years = years(&book[at..], command);
        let years_reversed = years.first > years.last || (fault(Fault::EqualYearsRefused) && years.first == years.last);
        if fault(Fault::TwentyOneBeforeFour) && years_reversed {
            return Err((21, at));
        }
        // 4: a kind over 31.
        if kind_over(31 + u8::from(fault(Fault::Kind32Accepted))) {
            return Err((4, at + usize::from(fault(Fault::OffsetOfTheOperand))));
        }
        // 21: the first year is above the last.
        if years_reversed && !fault(Fault::FiveBeforeTwentyOne) && !fault(Fault::ReversedYearsLoaded) {
            return Err((21, at));
        }
        // 16: a range whose low end is above its high end.
        if reversed() && !fault(Fault::SixAskedBeforeSixteen) && !fault(Fault::ReversedRangeLoaded) {
            return Err((16, at + usize::from(fault(Fault::SixteenAtTheOperand))));
        }
        // 17: no name, or that of a rule before.
        if command == 0x60 && !names::may_be_given(&book[at + 1..at + 1 + NAME_WIDTH], &grammar) {
            return Err((17, at + usize::from(fault(Fault::SeventeenAtTheOperand))));
        }
        match command {
            0x10 => grammar.start = book[at + 1],
            0x60 => {
                // there is an open rule, except with a fault
                if let Some(rule) = grammar.rules.last_mut().and_then(Option::as_mut) {
                    rule.name = names::given(&book[at + 1..at + 1 + NAME_WIDTH]);
                }
            }
            0x20 | 0x21 => {
                // 5: the 129th rule.
                if grammar.rules.len() == RULES + usize::from(fault(Fault::Rule129Accepted)) {
                    return Err((5, at));
                }
                if fault(Fault::FiveBeforeTwentyOne) && years_reversed {
                    return Err((21, at));
                }
                let length = i32::from(i16::from_le_bytes([book[at + 2], book[at + 3]]));
                let Years { first, last } = years;
                let (left, places) = (book[at + 1], Vec::new());
                grammar.rules.push(Some(Rule { left, length, places, first, last, name: None }));
            }
            0x41 if grammar.rules.is_empty() => (), // only with a fault
            0x30 | 0x40 | 0x41 => {
                // 6: the ninth place of a rule.
                let places = &mut grammar.rules.last_mut().and_then(Option::as_mut).expect("a rule is open").places;
                if places.len() == PLACES + usize::from(fault(Fault::NinthPlaceAccepted)) {
                    return Err((6, at));
                }
                if fault(Fault::SixAskedBeforeSixteen) && reversed() {
                    return Err((16, at));
                }
                let value = book[at + 1];
                places.push(match command {
                    0x30 => Symbol::Nonterminal(value),
                    0x41 if !fault(Fault::RangeOfOneLoadedAsAMark) || value != book[at + 2] => {
                        Symbol::Range(value, book[at + 2])
                    }
                    _ => Symbol::Terminal(value),
                });
            }
            _ => {
                // 7: a further byte after 50.
                let ends = book.len() == at + 1 || fault(Fault::ByteAfterTheEndIgnored);
                return if ends { Ok(grammar) } else { Err((7, at + 1)) };
            }
        }
        at += 1 + operands;
    }
}

/// The first and the last year of a rule.
struct Years {
    first: u16,
    last: u16,
}

/// The years of a command with all its operands. Those of 20, and of a command that opens no rule, are all years.
fn years(bytes: &[u8], command: u8) -> Years {
    let year = |at: usize| low_byte(u16::from_le_bytes([bytes[at], bytes[at + 1]]), Fault::LoadedYearsByTheirLowByte);
    match command {
        0x21 if fault(Fault::YearsSwapped) => Years { first: year(6), last: year(4) },
        0x21 => Years { first: year(4), last: year(6) },
        _ => Years { first: 0, last: u16::MAX - u16::from(fault(Fault::RuleOf20EndsAt65534)) },
    }
}

/// The grammar as a flat row. All unused numbers are zero; an unused place is the nonterminal 0.
pub fn to_flat(grammar: &Grammar, depth: u16) -> FlatGrammar {
    let mut flat = [0; FLAT];
    flat[0] = u16::from(grammar.start);
    flat[1] = grammar.rules.len() as u16;
    flat[2] = depth;
    for (number, rule) in grammar.numbered().take(RULES) {
        let at = record(number);
        flat[at] = u16::from(rule.left);
        flat[at + 1] = rule.length as i16 as u16;
        flat[at + 2] = rule.places.len() as u16;
        for (p, place) in rule.places.iter().enumerate().take(PLACES) {
            let (tag, value) = match *place {
                Symbol::Nonterminal(k) => (0, u16::from(k)),
                Symbol::Terminal(t) => (1, u16::from(t)),
                Symbol::Range(low, high) if fault(Fault::RangeEndsExchanged) => (2, u16::from_be_bytes([low, high])),
                Symbol::Range(low, high) => (2, u16::from(low) + 256 * u16::from(high)),
            };
            flat[at + 3 + 2 * p] = tag;
            flat[at + 4 + 2 * p] = value;
        }
        flat[at + YEARS..at + YEARS + 2].copy_from_slice(&[rule.first, rule.last]);
        flat[at + NAME..at + NAME + NAME_WIDTH].copy_from_slice(&names::to_numbers(rule.name));
    }
    if fault(Fault::UnusedNamesOfBlanks) {
        let unused = (grammar.rules.len()..RULES).map(|number| record(number) + NAME);
        unused.for_each(|at| flat[at..at + NAME_WIDTH].fill(u16::from(b' ')));
    }
    if fault(Fault::UnusedRulesHoldInAllYears) {
        (grammar.rules.len()..RULES).for_each(|number| flat[record(number) + YEARS + 1] = u16::MAX);
    }
    flat
}

/// Check 8 on any row. None if the start or a used kind is over 31, there are more than 128 rules, or a used rule has
/// more than 8 places, its first year above its last, something other than a name or eight zeros, or the name of another.
/// Also None if a used place holds no symbol: its tag is over 2, its mark is over 255, or its range has the low end above
/// the high end. Unused records, unused places and the depth are ignored.
pub fn from_flat(flat: &FlatGrammar) -> Option<Grammar> {
    let start = low_byte(flat[0], Fault::StartByItsLowByte);
    let rules = usize::from(low_byte(flat[1], Fault::RulesByTheirLowByte));
    if start > 31 || rules > RULES || unused_number_read(flat) {
        return None;
    }
    let mut grammar = Grammar { start: start as u8, rules: Vec::new() };
    for (number, name) in names::of_row(flat, rules)?.into_iter().enumerate() {
        let at = record(number);
        let (left, length) = (low_byte(flat[at], Fault::LeftSideByItsLowByte), flat[at + 1] as i16);
        let places = usize::from(low_byte(flat[at + 2], Fault::PlacesByTheirLowByte));
        if (left > 31 && !fault(Fault::Check8ForgetsLeftSides)) || places > PLACES {
            return None;
        }
        if fault(Fault::Check8ReadsUnusedPlaces) && (places..PLACES).any(|p| flat[at + 3 + 2 * p] > 2) {
            return None;
        }
        let (first, last) = (flat[at + YEARS], flat[at + YEARS + 1]);
        if (first > last && !fault(Fault::ReversedYearsPassCheck8))
            || (fault(Fault::EqualYearsFailCheck8) && first == last)
        {
            return None;
        }
        let mut rule = Rule { left: left as u8 & 31, length: i32::from(length), places: Vec::new(), first, last, name };
        if fault(Fault::UnsignedLength) {
            rule.length = i32::from(length as u16);
        }
        for p in 0..places {
            let (tag, value) = (low_byte(flat[at + 3 + 2 * p], Fault::TagByItsLowByte), flat[at + 4 + 2 * p]);
            rule.places.push(match tag {
                0 if low_byte(value, Fault::KindByItsLowByte) <= 31 => Symbol::Nonterminal(value as u8),
                1 if low_byte(value, Fault::MarkByItsLowByte) <= 255 => Symbol::Terminal(value as u8),
                2 if fault(Fault::Tag2ATerminal) => Symbol::Terminal(value as u8),
                2 if !reversed(value) || fault(Fault::ReversedRangePassesCheck8) => range(value),
                3 if fault(Fault::Tag3ARange) && !reversed(value) => range(value),
                3.. if fault(Fault::EveryOtherTagATerminal) && value <= 255 => Symbol::Terminal(value as u8),
                _ => return None,
            });
        }
        grammar.rules.push(Some(rule));
    }
    Some(grammar)
}

/// The range of a value: low + 256 * high.
fn range(value: u16) -> Symbol {
    Symbol::Range((value % 256) as u8, (value / 256) as u8)
}

/// Whether the low end of the range of a value is above its high end.
fn reversed(value: u16) -> bool {
    value % 256 > value / 256
}

/// Four faults of check 8: it reads the depth, unused records, reversed ranges in unused places, or their years.
fn unused_number_read(flat: &FlatGrammar) -> bool {
    (fault(Fault::Check8ReadsTheDepth) && flat[2] > 32)
        || (fault(Fault::Check8ReadsUnusedRecords) && (0..RULES).any(|rule| flat[record(rule)] > 31))
        || (fault(Fault::UnusedReversedRangeRefused) && unused_reversed_range(flat))
        || (fault(Fault::UnusedYearsJudged) && unused_years_reversed(flat))
}

/// Whether an unused rule of a row has its first year above its last.
pub fn unused_years_reversed(flat: &FlatGrammar) -> bool {
    (usize::from(flat[1])..RULES).any(|rule| flat[record(rule) + YEARS] > flat[record(rule) + YEARS + 1])
}

/// Whether an unused place of a row has tag 2 and a value whose low end is above its high end.
pub fn unused_reversed_range(flat: &FlatGrammar) -> bool {
    (0..RULES).any(|rule| {
        let at = record(rule);
        let used = if rule < usize::from(flat[1]) { usize::from(flat[at + 2]) } else { 0 };
        (used..PLACES).any(|p| flat[at + 3 + 2 * p] == 2 && reversed(flat[at + 4 + 2 * p]))
    })
}
