//! A grammar, as the row of numbers that is passed to the library, and what the numbers mean.

use crate::rule::{byte, RULE};
use crate::{check, Reading, Readings, Refusal, Rule, CELLS, ROW};
use std::fmt;
use std::sync::Arc;

/// Where the first rule begins in a row, and how many rules a grammar has at most.
const RULES: usize = 3;
const MAX_RULES: usize = 128;

/// A grammar, as the row of numbers that is passed to the library: start symbol, number of rules, nullable depth, and 29 numbers for each
/// of 128 rules: left side, length in two's complement, number of places, a tag and a value for each of 8 places, first year, last year and
/// the eight bytes of its name. Tag 0 is a nonterminal and 1 a terminal. Tag 2 is a range, whose value is low + 256 × high. Eight zeros are
/// no name.
///
/// [`load`](crate::load) makes one from a book. The row of [`Grammar::from_row`] may hold anything: each call checks all 16 bits of each
/// number. Refused with 8: a start over 31; more than 128 rules; in a used rule a left side over 31, more than 8 places, a first year over
/// the last, or a name that is not well formed; in a used place a tag over 2, a nonterminal over 31, a terminal over 255, or a range whose
/// low end is over its high end; two used rules with one name. A well-formed name is one to eight capitals and digits, and then blanks.
/// The depth, the lengths, and all numbers of unused rules and unused places may have any value. The accessors read such a row as the
/// library does: a number over 255 as 255, and a place that holds no symbol as the nonterminal 255.
///
/// A clone shares the row, which never changes; each reading has one.
///
/// ```
/// # fn main() -> Result<(), filbozseg::LoadError> {
/// use filbozseg::Symbol;
/// let grammar = filbozseg::load(b"\x10\x00\x20\x00\xf8\x11\x30\x01\x30\x01\x20\x01\x00\x00\x20\x01\x19\x00\x40A\x50")?;
/// assert_eq!((grammar.start(), grammar.rules().len()), (0, 3));
/// assert_eq!(format!("{:?}", grammar.rules().collect::<Vec<_>>()), "[0 -> 1 1 (4600), 1 -> - (0), 1 -> 'A' (25)]");
/// let rule = grammar.rule(2).unwrap();
/// assert_eq!((rule.left(), rule.length()), (1, 25));
/// assert_eq!(rule.places().collect::<Vec<_>>(), [Symbol::Terminal(b'A')]);
/// # Ok(())
/// # }
/// ```
#[derive(Clone, PartialEq, Eq, Hash)]
pub struct Grammar {
    row: Arc<[u16; ROW]>,
}

impl Grammar {
    /// The grammar of a row.
    pub fn from_row(row: &[u16; ROW]) -> Grammar {
        Grammar { row: Arc::new(*row) }
    }

    /// The row of the grammar.
    pub fn row(&self) -> &[u16; ROW] {
        &self.row
    }

    /// The start symbol. It is over 31 only in a row that is refused.
    pub fn start(&self) -> u8 {
        byte(self.row[0])
    }

    /// The nullable depth (blank depth). In a loaded grammar it is 0 to 32: the greatest, over all nonterminals that have an empty tree, of
    /// the height of the lowest one, and 0 if none has any. A rule without places makes a tree of height 1. All rules count, whatever their
    /// years.
    ///
    /// ```
    /// # fn main() -> Result<(), filbozseg::LoadError> {
    /// // 0 -> 1 1, 1 -> nothing: nonterminal 1 has height 1, and 0 has 2
    /// assert_eq!(filbozseg::load(b"\x10\x00\x20\x00\x00\x00\x30\x01\x30\x01\x20\x01\x00\x00\x50")?.nullable_depth(), 2);
    /// # Ok(())
    /// # }
    /// ```
    pub fn nullable_depth(&self) -> u8 {
        byte(self.row[2])
    }

    /// The rules, in order.
    pub fn rules(&self) -> impl ExactSizeIterator<Item = Rule<'_>> + DoubleEndedIterator + '_ {
        let used = usize::from(self.row[1]).min(MAX_RULES);
        self.row[RULES..][..used * RULE].chunks_exact(RULE).enumerate().map(|(number, row)| Rule::new(number, row))
    }

    /// The rule with this number, if the grammar has one.
    pub fn rule(&self, number: usize) -> Option<Rule<'_>> {
        self.rules().nth(number)
    }

    /// All readings of the input in the year, in order.
    pub fn readings<'a>(&'a self, input: &'a [u8], year: u16) -> Readings<'a> {
        Readings::new(self, input, year)
    }

    /// The reading of the input in the year that a row of numbers describes.
    ///
    /// # Errors
    ///
    /// Refusals 8 and 9 of [`check`]; 12 if the row is no reading of the input in the year.
    pub fn reading(&self, input: &[u8], year: u16, numbers: &[u16]) -> Result<Reading, Refusal> {
        if check(self, input, year, numbers, &mut vec![0; CELLS])? {
            Ok(Reading::new(self, input, year, numbers))
        } else {
            Err(Refusal::NotADerivation)
        }
    }
}

impl fmt::Debug for Grammar {
    fn fmt(&self, f: &mut fmt::Formatter<'_>) -> fmt::Result {
        f.debug_struct("Grammar")
            .field("start", &self.start())
            .field("nullable_depth", &self.nullable_depth())
            .field("rules", &self.rules().collect::<Vec<_>>())
            .finish()
    }
}
