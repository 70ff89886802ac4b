//! The refusals, and the meaning of the library's codes.

use std::fmt;

/// Why a call was refused. [`Refusal::number`] is its number in the customer's documents.
///
/// ```
/// use filbozseg::{load, Refusal};
/// let grammar = load(b"\x10\x00\x50").unwrap();
/// let refusal = grammar.readings(&[b'A'; 65], 2008).next().unwrap().unwrap_err();
/// assert_eq!((refusal, refusal.number()), (Refusal::InputLength, 9));
/// assert_eq!(refusal.to_string(), "the input has more than 64 bytes (refusal 9)");
/// ```
#[derive(Clone, Copy, Debug, PartialEq, Eq, Hash)]
#[non_exhaustive]
pub enum Refusal {
    /// The book ends inside a command, or before its end command; or the bytes to learn end inside a command.
    UnexpectedEnd,
    /// A byte is no command where a command must be.
    UnknownCommand,
    /// The first command is not a start command, a later one is, a place or a name comes before any rule, or a rule gets a second name.
    OutOfTurn,
    /// A nonterminal of the book is over 31.
    NonterminalTooLarge,
    /// The book has a 129th rule.
    TooManyRules,
    /// A rule of the book has a ninth place.
    TooManyPlaces,
    /// A byte follows the end command.
    FurtherByte,
    /// A used number of the grammar is out of its range.
    InvalidGrammar,
    /// The input has more than 64 bytes.
    InputLength,
    /// The chart has fewer than 4,225 cells.
    ChartTooShort,
    /// The output has fewer than 1,024 numbers.
    OutputTooShort,
    /// An offered row is no derivation of the input.
    NotADerivation,
    /// The input has trees, but none of at most 512 nodes.
    OnlyLargerTrees,
    /// The recognizer's count is over 64, a byte taken is over 255, or a set point is past its count.
    InvalidRecognizer,
    /// The recognizer has taken 64 bytes.
    RecognizerFull,
    /// A range of the book has its low end over its high end.
    RangeReversed,
    /// A name of the book is empty, has a byte that may not stand there, or is that of an earlier rule.
    InvalidName,
    /// The text of the derivation is longer than the buffer.
    TextTooLong,
    /// The name of the point is over 7, or the point to return to is not set.
    NoPoint,
    /// The bytes to learn are empty, begin with a command that opens no rule, or have a later one that opens a rule, gives the start or
    /// ends a book.
    NotOneRule,
    /// A rule of the book has its first year over its last.
    YearsReversed,
    /// A refusal that this version of the crate does not know, with its number: the library that is linked is a later one. The crate never
    /// gives a known refusal this way, and nobody else can make one.
    #[non_exhaustive]
    Unknown {
        /// Its number.
        number: u8,
    },
}

use Refusal::*;

/// The code of a refusal is the sum of this and its number.
const REFUSED: u32 = 256;

impl Refusal {
    /// All refusals that have a name, in the order of their numbers, which are 1 to 21.
    pub const ALL: &'static [Refusal] = &[
        UnexpectedEnd,
        UnknownCommand,
        OutOfTurn,
        NonterminalTooLarge,
        TooManyRules,
        TooManyPlaces,
        FurtherByte,
        InvalidGrammar,
        InputLength,
        ChartTooShort,
        OutputTooShort,
        NotADerivation,
        OnlyLargerTrees,
        InvalidRecognizer,
        RecognizerFull,
        RangeReversed,
        InvalidName,
        TextTooLong,
        NoPoint,
        NotOneRule,
        YearsReversed,
    ];

    /// The refusal's number in the customer's documents.
    pub const fn number(self) -> u8 {
        match self {
            UnexpectedEnd => 1,
            UnknownCommand => 2,
            OutOfTurn => 3,
            NonterminalTooLarge => 4,
            TooManyRules => 5,
            TooManyPlaces => 6,
            FurtherByte => 7,
            InvalidGrammar => 8,
            InputLength => 9,
            ChartTooShort => 10,
            OutputTooShort => 11,
            NotADerivation => 12,
            OnlyLargerTrees => 13,
            InvalidRecognizer => 14,
            RecognizerFull => 15,
            RangeReversed => 16,
            InvalidName => 17,
            TextTooLong => 18,
            NoPoint => 19,
            NotOneRule => 20,
            YearsReversed => 21,
            Unknown { number } => number,
        }
    }

    /// The refusal with this number, if it has a name.
    pub fn of_number(number: u8) -> Option<Refusal> {
        Refusal::ALL.iter().copied().find(|refusal| refusal.number() == number)
    }

    /// The code that a function of [`sys`](crate::sys) returns for this refusal.
    pub const fn code(self) -> u32 {
        REFUSED + self.number() as u32
    }

    /// The refusal that a function of [`sys`](crate::sys) reports with this code, known or not; `None` if the code is none of a refusal.
    ///
    /// ```
    /// use filbozseg::Refusal;
    /// assert_eq!(Refusal::of_code(256 + 9), Some(Refusal::InputLength));
    /// let later = Refusal::of_code(256 + 200).unwrap();
    /// assert!(matches!(later, Refusal::Unknown { number: 200, .. }));
    /// assert_eq!(later.to_string(), "a refusal that this version does not know (refusal 200)");
    /// assert_eq!((Refusal::of_code(1), Refusal::of_code(256)), (None, None));
    /// ```
    pub fn of_code(code: u32) -> Option<Refusal> {
        match u8::try_from(code.checked_sub(REFUSED)?) {
            Ok(0) | Err(_) => None,
            Ok(number) => Some(Refusal::of_number(number).unwrap_or(Unknown { number })),
        }
    }

    fn sentence(self) -> &'static str {
        match self {
            UnexpectedEnd => "the book ends inside a command, or where a command is due",
            UnknownCommand => "a byte of the book is no command",
            OutOfTurn => "a command of the book is out of turn",
            NonterminalTooLarge => "a nonterminal of the book is over 31",
            TooManyRules => "the book has more than 128 rules",
            TooManyPlaces => "a rule of the book has more than 8 places",
            FurtherByte => "a byte follows the end of the book",
            InvalidGrammar => "the grammar has a used number out of its range",
            InputLength => "the input has more than 64 bytes",
            ChartTooShort => "the chart has fewer than 4,225 cells",
            OutputTooShort => "the output has fewer than 1,024 numbers",
            NotADerivation => "what is offered is no reading of the input",
            OnlyLargerTrees => "the input has trees, but none of at most 512 nodes",
            InvalidRecognizer => {
                "the recognizer's count is over 64, a byte taken is over 255, or a set point is past its count"
            }
            RecognizerFull => "the recognizer has taken 64 bytes and takes no more",
            RangeReversed => "a range of the book has its low end over its high end",
            InvalidName => "a name of the book is empty, has a wrong byte, or is that of an earlier rule",
            TextTooLong => "the text of the reading is longer than the buffer",
            NoPoint => "the name of the point is over 7, or the point to return to is not set",
            NotOneRule => "the bytes to learn are not exactly one rule",
            YearsReversed => "a rule of the book has its first year over its last",
            Unknown { .. } => "a refusal that this version does not know",
        }
    }
}

impl fmt::Display for Refusal {
    fn fmt(&self, f: &mut fmt::Formatter<'_>) -> fmt::Result {
        write!(f, "{} (refusal {})", self.sentence(), self.number())
    }
}

impl std::error::Error for Refusal {}

/// The meaning of a code: no, yes, or a refusal. The library is proved to return no other code, and a later one may have more refusals.
pub(crate) fn answer(code: u32) -> Result<bool, Refusal> {
    match code {
        0 => Ok(false),
        1 => Ok(true),
        _ => Err(Refusal::of_code(code).unwrap_or_else(|| unreachable!("the library returned the code {code}"))),
    }
}

/// The meaning of a code from a call that never answers no: done, or a refusal.
pub(crate) fn done(code: u32) -> Result<(), Refusal> {
    answer(code).map(|yes| assert!(yes, "the library returned the code 0"))
}
