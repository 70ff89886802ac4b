//! Books as text: converts a book of document 01 to a text that people can read and write, and back. Document 01 is the customer's
//! scope; `docs/REFERENCE.md` says in our own words what it requires.
//!
//! ```
//! let text = "
//!     start 0            # the start kind comes first
//!     0 -> 1 1 : 46.00   # rule 0: left side, places, length in millimetres
//!     1 -> -   : 0       # rule 1: no place at all
//!     1 -> 'A' : 0.25    # rule 2: the mark A, byte 41
//! ";
//! let bytes = book::to_bytes(text).unwrap();
//! assert_eq!(bytes, b"\x10\x00\x20\x00\xF8\x11\x30\x01\x30\x01\x20\x01\x00\x00\x20\x01\x19\x00\x40\x41\x50");
//! let written = "start 0\n0 -> 1 1 : 46.00\n1 -> - : 0.00\n1 -> 'A' : 0.25\n";
//! assert_eq!(book::to_text(&bytes).unwrap(), written);
//! ```
//!
//! # The text
//!
//! The text is UTF-8, with one statement on each line; a line may be empty. The words of a line are separated by one or more blanks
//! (spaces and tabs), and there may be blanks around them. Around `->` and `:` blanks are not needed, and `→` means the same as `->`. `#`
//! begins a comment that goes to the end of its line, except in the mark `'#'`, also as an end of a range. Lines end with a line feed, or
//! with a carriage return and a line feed. A byte order mark may come before the text.
//!
//! - `start KIND` is the first statement, and occurs only there.
//! - `KIND -> PLACES : LENGTH` is a rule. Rules are numbered from 0, in order; there are at most 128.
//! - `KIND -> PLACES : LENGTH years FIRST LAST` is a rule that is in force from its first year to its last, both included. A year is a
//!   decimal number from 0 to 65535, and the first must not be over the last. A rule without years holds in all of them; it and one with
//!   `years 0 65535` are two books.
//! - After the length, or after the years, `name NAME` names the rule. A name is one to eight capitals and digits, and no two rules have
//!   the same. In the book the name comes after the places of the rule; with `name NAME after N` it comes after the first N of them.
//! - A kind is a decimal number from 0 to 31.
//! - The places are 1 to 8 kinds, marks and ranges, or `-` alone for no place.
//! - A mark is one byte: `'A'` for a printable ASCII character (the space is one), or `=41` for any byte, two hexadecimal digits.
//!   Nothing is escaped inside the quotes, so the quote and the backslash cannot be written there: they are `=27` and `=5C`.
//! - A range is two marks with `..` between them and no blank: `'0'..'9'`, `=30..=39` or `'0'..=39`. It stands for any mark from the
//!   first to the last, both included, and the first must not be over the last. `'A'..'A'` and `'A'` are two books.
//! - A length is in millimetres, from -327.68 to 327.67: an optional sign, digits, and optionally a point with one or two digits.
//!
//! The first fault counts, line by line and from the left. A word is checked before it is found to be one too many. The message has the
//! wrong word, or says that the line ends where one is due.
//!
//! [`to_text`] writes each statement on a line of its own, with single spaces, lengths with two decimals, no comments, and a mark in
//! quotes wherever that is possible. It loses nothing: [`to_bytes`] turns what it writes into the original bytes.

mod bytes;
mod fault;
mod grammar;
mod parse;
mod summary;
mod words;
mod write;

pub use fault::{Fault, Reason, Refusal};
pub use summary::summary;

/// The bytes of the book that the text describes; they load. A bad text is refused with the line and the reason of its first fault.
pub fn to_bytes(text: &str) -> Result<Vec<u8>, Fault> {
    Ok(bytes::written(&parse::parsed(text)?))
}

/// Whether the contents of a file are taken as the bytes of a book: they begin with the command of the start, as every book that loads
/// does and no text.
pub fn is_bytes(held: &[u8]) -> bool {
    held.first() == Some(&bytes::START)
}

/// The text of a book. Bytes that do not load are refused as the library refuses them, with the number and the offset of their first
/// fault.
pub fn to_text(book: &[u8]) -> Result<String, Refusal> {
    Ok(write::text(&bytes::loaded(book)?))
}
