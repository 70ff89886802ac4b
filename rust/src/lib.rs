//! The proved plate reader for safe Rust.
//!
//! A book is loaded into a [`Grammar`]. With it, an input of 0 to 64 bytes has [readings](Grammar::readings) in a year, each a [`Reading`]
//! with nodes:
//!
//! ```
//! use filbozseg::{count, load, Count, CELLS};
//!
//! # fn main() -> Result<(), filbozseg::Error> {
//! // Book T of document 01: 0 -> 1 1 (46 mm), 1 -> nothing (0 mm), 1 -> A (0.25 mm)
//! let grammar = load(b"\x10\x00\x20\x00\xf8\x11\x30\x01\x30\x01\x20\x01\x00\x00\x20\x01\x19\x00\x40A\x50")?;
//! let readings = grammar.readings(b"A", 2008).collect::<Result<Vec<_>, _>>()?;
//! assert_eq!(readings[0].to_string(), "1.0 0.1 1.2");
//! assert_eq!(readings[1].to_string(), "1.0 1.2 0.1");
//!
//! let mut chart = vec![0; CELLS];
//! assert_eq!(count(&grammar, b"A", 2008, &mut chart)?, Count::Exactly(2));
//! assert_eq!(readings[0].length(), 462); // tenths of a millimetre
//! # Ok(())
//! # }
//! ```
//!
//! Each of the functions [`load`], [`name`], [`open`], [`Recognizer::take`], [`Recognizer::set_point`], [`Recognizer::return_to`],
//! [`Recognizer::learn`], [`check`], [`length`], [`words`], [`same_build`], [`first`], [`next`] and [`count`] calls one function of the
//! static library, which is proved to meet its contract, and turns its code into a result. They use the memory that the caller lends and
//! allocate nothing; only `load` and `learn` allocate the grammar. [`Grammar::readings`] and [`Grammar::reading`] are built on them and
//! allocate what they need. [`sys`] has the functions of the static library themselves.
//!
//! # Years
//!
//! Each rule has a [first and a last year](Rule::years), and is in force from one to the other, both included. Every call on an input is
//! given a year, and only the rules in force in it build trees. Rules keep their numbers. A recognizer keeps the year that it was opened
//! with. A book without years holds in all of them.
//!
//! # Names
//!
//! A rule may have a [name](Rule::name). [`words`] and [`Reading::words`] write a reading with the names of its rules, such as
//! `BODY(#001(),PORT(=41))`, and [`name`] finds the name of a rule in the bytes of the book itself.
//!
//! # Points
//!
//! A recognizer keeps up to eight points, each with a name from 0 to 7. [`Recognizer::set_point`] sets one at the count, and
//! [`Recognizer::return_to`] goes back there: what was taken after it is gone, as if it had not been taken.
//!
//! # Learning
//!
//! [`Recognizer::learn`] adds a rule to a grammar while an input is being taken. Recognizer and chart then are as if the input had been
//! taken with the longer grammar.
//!
//! # Terms
//!
//! This crate uses the standard terms of parsing. Document 01, the customer's scope, uses the words of a trade: a grammar is a loaded
//! book, a nonterminal a kind, a terminal a mark, an input a plate, a recognizer a plate in hand, a chart a sheet, a derivation a reading,
//! and a node a part. `docs/REFERENCE.md` says in our own words what document 01 requires.
//!
//! # Stack and threads
//!
//! `first`, `next`, `count` and the iterator over readings need up to 1,900 KiB of stack. A Rust thread has 2 MiB by default, and that is
//! enough. In a thread with less, a stack overflow may end the process; [`Readings::on_stack`] is for such a thread. `include/filbozseg.h`
//! has the figure for each call. Nothing is kept between calls, so any number of threads may call them.
#![deny(missing_docs)]
#![warn(clippy::undocumented_unsafe_blocks)]

mod calls;
mod counting;
mod error;
mod grammar;
mod listing;
mod name;
mod node;
mod reading;
mod readings;
mod recognizer;
mod refusal;
mod rule;
mod span;
pub mod sys;
mod words;

pub use calls::{check, length, load, same_build};
pub use counting::{count, Count};
pub use error::{Error, LoadError};
pub use grammar::Grammar;
pub use listing::{first, next};
pub use name::{name, Name};
pub use node::{Children, Node, Nodes};
pub use reading::Reading;
pub use readings::Readings;
pub use recognizer::{open, Recognizer};
pub use refusal::Refusal;
pub use rule::{Rule, Symbol};
pub use words::words;

/// How many numbers the row of a grammar has.
pub const ROW: usize = 3715;

/// How many cells of a chart are used. A shorter chart is refused.
pub const CELLS: usize = 4225;

/// The most bytes that an input or a recognizer has.
pub const BYTES: usize = 64;

/// The length of an output: two numbers for each of at most 512 nodes of a derivation. A shorter output is refused.
pub const OUTPUT: usize = 1024;

/// The most bytes that the text of a derivation has. A buffer of [`words`] may be shorter, and is refused only if the text is longer.
pub const TEXT: usize = 5888;

/// The most bytes that a book has that loads: 128 rules with years, a name and 8 ranges each, start and end. [`load`] takes longer ones
/// too, and refuses them.
pub const BOOK: usize = 5251;

/// How many bytes of stack [`first`], [`next`] and [`count`] need at most, and so the iterator over readings.
pub const STACK: usize = 1900 * 1024;

/// How many points a recognizer has. Their names are the numbers below this.
pub const POINTS: usize = 8;

/// How many numbers the row of a recognizer has: its bytes, then their count, then its year, and then its points.
pub const HAND: usize = BYTES + 2 + POINTS;

// What a row or a hand holds before the library writes it. A row or a hand of such numbers is refused (8, 14), so one that the library
// fails to write is never mistaken for a result.
const NO_NUMBER: u16 = u16::MAX;

// What a lent offset holds before the library writes it. No book has such an offset.
const NO_OFFSET: usize = usize::MAX;

/// The program in README, byte for byte, as a test.
#[cfg(doctest)]
#[doc = include_str!("../README-snippet.md")]
pub struct ReadmeSnippet;
