//! The faults of a text, and of bytes that do not load.

use std::fmt;

/// The first fault of a text.
#[derive(Clone, Debug, PartialEq, Eq)]
pub struct Fault {
    /// Its line, from 1.
    pub line: usize,
    /// What is wrong there.
    pub reason: Reason,
}

/// What is wrong with a text, with the wrong word.
#[derive(Clone, Debug, PartialEq, Eq)]
pub enum Reason {
    /// The text has no statement at all.
    NoStart,
    /// The first statement begins with a word other than `start`.
    StartDue(String),
    /// There is a second `start`.
    StartAgain,
    /// The line ends where a kind is due, after `start`.
    StartWithoutKind,
    /// The start or a left side is not a decimal number.
    NotAKind(String),
    /// A kind is over 31.
    KindOver(String),
    /// This word is where `->` is due, after the left side; none at the end of the line.
    ArrowDue(Option<String>),
    /// This word is where places are due, after `->`; none at the end of the line.
    PlacesDue(Option<String>),
    /// `-`, which means that there is no place, is not alone.
    DashWithPlaces,
    /// A place is neither a kind nor a mark nor a range.
    NotAPlace(String),
    /// A mark is neither one printable character in quotes nor `=` with two hexadecimal digits.
    NotAMark(String),
    /// A mark and `..` begin a range, but no mark follows, or something else does.
    NotARange(String),
    /// The first mark of a range is over the second.
    RangeReversed(String),
    /// The quote or the backslash is in quotes.
    NotInQuotes(String),
    /// There is a ninth place.
    NinthPlace(String),
    /// The line ends where `:` and a length are due, after the places.
    LengthDue,
    /// A length is not a number of millimetres with at most two decimals.
    NotALength(String),
    /// A length is below -327.68 or above 327.67.
    LengthOver(String),
    /// `years` is not followed by two words.
    YearsDue,
    /// A year is not a decimal number.
    NotAYear(String),
    /// A year is over 65,535.
    YearOver(String),
    /// The first year of a rule is over the last.
    YearsReversed(String),
    /// `name` is not followed by a word.
    NameDue,
    /// A name is not one to eight capitals and digits.
    NotAName(String),
    /// A name is that of an earlier rule.
    NameAgain(String),
    /// `after` is not followed by a word.
    AfterDue,
    /// After `after` comes no decimal number, or one over the number of the rule's places.
    NotAfter(String),
    /// A word follows the end of a statement.
    Further(String),
    /// There is a 129th rule, with this left side.
    TooManyRules(String),
}

/// Why bytes are not a book: a refusal of document 01, or 16, 17 or 21 of document 02.
#[derive(Clone, Copy, Debug, PartialEq, Eq)]
pub struct Refusal {
    /// Its number: 1 to 7, 16, 17 or 21.
    pub number: u8,
    /// Its offset: that of the command; for 1 the number of bytes; for 7 the byte after the end.
    pub offset: usize,
}

impl fmt::Display for Fault {
    fn fmt(&self, f: &mut fmt::Formatter<'_>) -> fmt::Result {
        write!(f, "line {}: {}", self.line, self.reason)
    }
}

impl fmt::Display for Reason {
    fn fmt(&self, f: &mut fmt::Formatter<'_>) -> fmt::Result {
        use Reason::*;
        match self.word() {
            Some(word) => write!(f, "`{}`: ", shown(word))?,
            None if self.at_end() => f.write_str("at the end of the line: ")?,
            None => (),
        }
        f.write_str(match self {
            NoStart => "there is no `start KIND`",
            StartDue(_) => "the first statement has to be `start KIND`",
            StartAgain => "a second `start`",
            StartWithoutKind => "a kind is due after `start`",
            NotAKind(_) => "not a kind: a decimal number from 0 to 31",
            KindOver(_) => "a kind over 31",
            ArrowDue(_) => "`->` is due after the left side",
            PlacesDue(_) => "places are due after `->`, or `-` for no place",
            DashWithPlaces => "`-` says that there is no place, and must be alone",
            NotAPlace(_) => "neither a kind (0 to 31) nor a mark ('A', or =41 for any byte) nor a range ('0'..'9')",
            NotAMark(_) => "not a mark: one printable ASCII character in quotes, or = and two hexadecimal digits",
            NotARange(_) => "not a range: a mark, two points and a mark, as in '0'..'9' or =30..=39",
            RangeReversed(_) => "a reversed range: its first mark is over its last",
            NotInQuotes(_) => "quote and backslash are the marks =27 and =5C, and cannot be in quotes",
            NinthPlace(_) => "a ninth place",
            LengthDue => "`:` and a length in millimetres are due after the places",
            NotALength(_) => "not a length: millimetres, with at most two decimals",
            LengthOver(_) => "a length out of range: -327.68 to 327.67",
            YearsDue => "a first and a last year are due after `years`",
            NotAYear(_) => "not a year: a decimal number from 0 to 65535",
            YearOver(_) => "a year over 65535",
            YearsReversed(_) => "reversed years: the first is over the last",
            NameDue => "a name is due after `name`",
            NotAName(_) => "not a name: one to eight capitals A to Z and digits",
            NameAgain(_) => "the name of an earlier rule",
            AfterDue => "a number of places is due after `after`",
            NotAfter(_) => "not a number of places: a decimal number, not over that of the rule's places",
            Further(_) => "a word after the end of the statement",
            TooManyRules(_) => "the left side of a 129th rule",
        })
    }
}

impl Reason {
    /// The wrong word, if there is one. Where it is always the same, the message itself has it.
    fn word(&self) -> Option<&str> {
        use Reason::*;
        match self {
            StartDue(word) | NotAKind(word) | KindOver(word) | NotAPlace(word) | NotAMark(word) => Some(word),
            NotARange(word) | RangeReversed(word) | NotInQuotes(word) | NinthPlace(word) => Some(word),
            NotALength(word) | LengthOver(word) | Further(word) | TooManyRules(word) => Some(word),
            NotAYear(word) | YearOver(word) | YearsReversed(word) => Some(word),
            NotAName(word) | NameAgain(word) | NotAfter(word) => Some(word),
            ArrowDue(word) | PlacesDue(word) => word.as_deref(),
            _ => None,
        }
    }

    /// Whether the line ends where something is due.
    fn at_end(&self) -> bool {
        use Reason::*;
        matches!(self, StartWithoutKind | ArrowDue(None) | PlacesDue(None) | LengthDue | YearsDue | NameDue | AfterDue)
    }
}

/// A word as it is printed: anything but printable ASCII is escaped.
fn shown(word: &str) -> String {
    let escaped = |c: char| match c {
        ' '..='~' => c.to_string(),
        _ => c.escape_default().to_string(),
    };
    word.chars().map(escaped).collect()
}

impl fmt::Display for Refusal {
    fn fmt(&self, f: &mut fmt::Formatter<'_>) -> fmt::Result {
        let what = meaning(self.number).unwrap_or("an unknown refusal");
        write!(f, "refusal {} at offset {}: {what}", self.number, self.offset)
    }
}

/// What a refusal of this number says, if it is one of a book, or one of a plate that the listing program gives.
pub fn meaning(number: u8) -> Option<&'static str> {
    Some(match number {
        1 => "the book ends inside a command, or where one is due",
        2 => "an unknown command",
        3 => "a command out of turn, or a second name of a rule",
        4 => "a kind over 31",
        5 => "the 129th rule",
        6 => "a ninth place",
        7 => "a byte after the end of the book",
        9 => "the plate has more than 64 marks",
        13 => "the plate can be built, but only with more than 512 parts",
        16 => "a reversed range",
        17 => "no name, or that of an earlier rule",
        21 => "reversed years",
        _ => return None,
    })
}

impl std::error::Error for Fault {}

impl std::error::Error for Refusal {}
