//! A rule of a grammar, and what its places hold.

use crate::Name;
use std::fmt;
use std::ops::RangeInclusive;

/// How many numbers a rule has in a row, where its places begin, and how many places it has at most.
pub(crate) const RULE: usize = 29;
const PLACES: usize = 3;
const MAX_PLACES: usize = 8;

/// Where the first and the last year of a rule are, and where its name begins.
const FIRST: usize = PLACES + 2 * MAX_PLACES;
const LAST: usize = FIRST + 1;
const NAME: usize = LAST + 1;

/// A number of a row as a byte: a number over 255 is read as 255.
pub(crate) fn byte(number: u16) -> u8 {
    number.min(255) as u8
}

/// A rule of a grammar. It is displayed as `0 -> 1 'A'`, with `-` for no places; `Debug` adds the length, the years unless these are all,
/// and the name if there is one.
#[derive(Clone, Copy, PartialEq, Eq, Hash)]
pub struct Rule<'a> {
    number: usize,
    row: &'a [u16],
}

impl<'a> Rule<'a> {
    pub(crate) fn new(number: usize, row: &'a [u16]) -> Rule<'a> {
        Rule { number, row }
    }

    /// The number of the rule in its grammar, from 0.
    pub fn number(self) -> usize {
        self.number
    }

    /// The left side, a nonterminal.
    pub fn left(self) -> u8 {
        byte(self.row[0])
    }

    /// The length, in hundredths of a millimetre.
    pub fn length(self) -> i16 {
        self.row[1] as i16
    }

    /// The years in which the rule is in force, from the first to the last, both included. There are none only in a grammar that is
    /// refused.
    ///
    /// ```
    /// # fn main() -> Result<(), filbozseg::LoadError> {
    /// // 0 -> A from 1998 to 2007 (100), and 0 -> A from 2008 on (200)
    /// let grammar = filbozseg::load(b"\x10\x00\x21\x00\x64\x00\xce\x07\xd7\x07\x40A\x21\x00\xc8\x00\xd8\x07\xff\xff\x40A\x50")?;
    /// assert_eq!((grammar.rule(0).unwrap().years(), grammar.rule(1).unwrap().years()), (1998..=2007, 2008..=65_535));
    /// let read = |year: u16| grammar.readings(b"A", year).map(|reading| reading.unwrap().to_string()).collect::<Vec<_>>();
    /// assert_eq!((read(1997).len(), read(2007), read(2008)), (0, vec!["1.0".to_string()], vec!["1.1".to_string()]));
    /// # Ok(())
    /// # }
    /// ```
    pub fn years(self) -> RangeInclusive<u16> {
        self.row[FIRST]..=self.row[LAST]
    }

    /// The name, if the rule has one.
    ///
    /// ```
    /// # fn main() -> Result<(), filbozseg::LoadError> {
    /// // 0 -> A, named SEAL, and 0 -> B without a name
    /// let grammar = filbozseg::load(b"\x10\x00\x20\x00\x00\x00\x60SEAL    \x40A\x20\x00\x00\x00\x40B\x50")?;
    /// assert_eq!(grammar.rule(0).unwrap().name().unwrap().as_bytes(), b"SEAL");
    /// assert_eq!(grammar.rule(1).unwrap().name(), None);
    /// # Ok(())
    /// # }
    /// ```
    pub fn name(self) -> Option<Name> {
        Name::new(std::array::from_fn(|at| byte(self.row[NAME + at])))
    }

    /// The places, in order.
    pub fn places(self) -> impl ExactSizeIterator<Item = Symbol> + DoubleEndedIterator + 'a {
        let used = usize::from(self.row[2]).min(MAX_PLACES);
        self.row[PLACES..][..2 * used].chunks_exact(2).map(|place| match (place[0], place[1]) {
            (0, value) => Symbol::Nonterminal(byte(value)),
            (1, value @ 0..=255) => Symbol::Terminal(byte(value)),
            (2, value) => {
                let [low, high] = value.to_le_bytes();
                Symbol::Range(low, high)
            }
            _ => Symbol::Nonterminal(255),
        })
    }
}

impl fmt::Display for Rule<'_> {
    fn fmt(&self, f: &mut fmt::Formatter<'_>) -> fmt::Result {
        write!(f, "{} ->", self.left())?;
        if self.places().len() == 0 {
            return f.write_str(" -");
        }
        self.places().try_for_each(|symbol| write!(f, " {symbol}"))
    }
}

impl fmt::Debug for Rule<'_> {
    fn fmt(&self, f: &mut fmt::Formatter<'_>) -> fmt::Result {
        write!(f, "{self} ({}", self.length())?;
        if self.years() != (0..=u16::MAX) {
            write!(f, ", {} to {}", self.row[FIRST], self.row[LAST])?;
        }
        if let Some(name) = self.name() {
            write!(f, ", {name}")?;
        }
        f.write_str(")")
    }
}

/// What a place of a rule holds. A nonterminal is displayed as its number, a terminal as in Rust: `'A'`, `'\x07'`. A range is displayed
/// as in the text of a book, with its two ends as terminals: `'0'..'9'`; both ends belong to it.
///
/// ```
/// # fn main() -> Result<(), filbozseg::LoadError> {
/// use filbozseg::{load, Symbol};
/// let grammar = load(b"\x10\x00\x20\x00\x00\x00\x40V\x4109\x50")?; // 0 -> V and any digit
/// let rule = grammar.rule(0).unwrap();
/// assert_eq!(rule.to_string(), "0 -> 'V' '0'..'9'");
/// assert_eq!(rule.places().next_back(), Some(Symbol::Range(b'0', b'9')));
/// assert_eq!((grammar.readings(b"V6", 2008).count(), grammar.readings(b"VV", 2008).count()), (1, 0));
/// # Ok(())
/// # }
/// ```
#[derive(Clone, Copy, Debug, PartialEq, Eq, Hash)]
#[non_exhaustive]
pub enum Symbol {
    /// A nonterminal (kind). It is over 31 only in a grammar that is refused.
    Nonterminal(u8),
    /// A terminal (mark).
    Terminal(u8),
    /// A range, from the first byte to the second: any byte from low to high fits, both included, and no other. Low is over high only in
    /// a grammar that is refused. `Range(a, a)` and `Terminal(a)` are two symbols.
    Range(u8, u8),
}

impl fmt::Display for Symbol {
    fn fmt(&self, f: &mut fmt::Formatter<'_>) -> fmt::Result {
        match self {
            Symbol::Nonterminal(number) => write!(f, "{number}"),
            Symbol::Terminal(byte) => write!(f, "'{}'", byte.escape_ascii()),
            Symbol::Range(low, high) => write!(f, "{}..{}", Symbol::Terminal(*low), Symbol::Terminal(*high)),
        }
    }
}
