//! The errors: for a refused book or rule, and for any refusal.

use crate::{Grammar, Refusal};
use std::error;
use std::fmt;

/// A refused book, or a refused rule that was to be [learnt](crate::Recognizer::learn). The text of the error says which of the two it is,
/// where the fault is, and what it is. So it has no [source](error::Error::source), which would say the last again.
///
/// ```
/// use filbozseg::{load, open, Refusal, CELLS};
/// let fault = load(b"\x10\x20").unwrap_err();
/// assert_eq!((fault.refusal, fault.offset), (Refusal::NonterminalTooLarge, 0));
/// assert_eq!(fault.to_string(), "the book is refused at offset 0: a nonterminal of the book is over 31 (refusal 4)");
///
/// let (mut grammar, mut chart) = (load(b"\x10\x00\x50").unwrap(), vec![0; CELLS]);
/// let (mut recognizer, _) = open(&grammar, 2008, &mut chart);
/// let fault = recognizer.learn(&mut grammar, b"\x20\x00\x00\x00\x50", &mut chart).unwrap_err();
/// assert_eq!(fault.to_string(), "the rule is refused at offset 4: the bytes to learn are not exactly one rule (refusal 20)");
/// ```
#[derive(Clone, PartialEq, Eq, Hash)]
#[non_exhaustive]
pub struct LoadError {
    /// Why the bytes are refused: a book with 1 to 7, 16, 17 or 21; a rule with 1 to 6, 8, 10, 14, 16, 17, 20 or 21.
    pub refusal: Refusal,
    /// The offset of the faulty command in these bytes. If they end too early, their length; if a byte follows the end of a book, the
    /// offset of that byte. It is 0 if a rule is refused with 8, 14 or 10, or because there are no bytes.
    pub offset: usize,
    /// The grammar that the call leaves. That of a refused book has no rules: its row is all zeros. That of a refused rule is as found.
    pub grammar: Grammar,
    /// What is refused.
    pub(crate) what: What,
}

/// What was to be read.
#[derive(Clone, Copy, PartialEq, Eq, Hash)]
pub(crate) enum What {
    Book,
    Rule,
}

impl fmt::Debug for LoadError {
    fn fmt(&self, f: &mut fmt::Formatter<'_>) -> fmt::Result {
        f.debug_struct("LoadError")
            .field("refusal", &self.refusal)
            .field("offset", &self.offset)
            .finish_non_exhaustive()
    }
}

impl fmt::Display for LoadError {
    fn fmt(&self, f: &mut fmt::Formatter<'_>) -> fmt::Result {
        let what = match self.what {
            What::Book => "book",
            What::Rule => "rule",
        };
        write!(f, "the {what} is refused at offset {}: {}", self.offset, self.refusal)
    }
}

impl error::Error for LoadError {}

/// Any error of this crate, for a function that loads a book and then uses it: `?` converts both errors into this one. Its text is
/// that of the error inside.
///
/// ```
/// fn readings(book: &[u8], input: &[u8], year: u16) -> Result<Vec<String>, filbozseg::Error> {
///     filbozseg::load(book)?.readings(input, year).map(|reading| Ok(reading?.to_string())).collect()
/// }
/// assert_eq!(readings(b"\x10\x00\x20\x00\x00\x00\x40A\x50", b"A", 2008).unwrap(), ["1.0"]);
/// assert_eq!(readings(b"", b"A", 2008).unwrap_err().refusal().number(), 1);
/// assert_eq!(readings(b"\x10\x00\x50", &[b'A'; 65], 2008).unwrap_err().refusal().number(), 9);
/// ```
#[derive(Clone, Debug, PartialEq, Eq, Hash)]
#[non_exhaustive]
pub enum Error {
    /// A book was refused, or a rule that was to be learnt.
    Load(LoadError),
    /// Another call was refused.
    Refused(Refusal),
}

impl Error {
    /// Why the call was refused.
    pub fn refusal(&self) -> Refusal {
        match self {
            Error::Load(fault) => fault.refusal,
            Error::Refused(refusal) => *refusal,
        }
    }
}

impl From<LoadError> for Error {
    fn from(fault: LoadError) -> Error {
        Error::Load(fault)
    }
}

impl From<Refusal> for Error {
    fn from(refusal: Refusal) -> Error {
        Error::Refused(refusal)
    }
}

impl fmt::Display for Error {
    fn fmt(&self, f: &mut fmt::Formatter<'_>) -> fmt::Result {
        match self {
            Error::Load(fault) => fault.fmt(f),
            Error::Refused(refusal) => refusal.fmt(f),
        }
    }
}

impl error::Error for Error {}
