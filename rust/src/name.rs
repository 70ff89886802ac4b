//! The names of rules.

use crate::refusal::answer;
use crate::sys;
use std::fmt;

// What the lent places hold before the library writes them. No book has such an offset, so a place that the library fails to write is never
// mistaken for a result.
const NO_PART: usize = usize::MAX;

/// The name of a rule, as that part of the bytes of the book which follows the 60 of the rule, without the blanks that fill it up. It is
/// empty if the bytes do not load, the book has no such rule, or the rule has no name. So it needs no grammar, and is never refused.
///
/// ```
/// let book = b"\x10\x00\x20\x00\x00\x00\x60SEAL    \x40A\x50"; // 0 -> A, named SEAL
/// assert_eq!(filbozseg::name(book, 0), b"SEAL");
/// assert!(std::ptr::eq(filbozseg::name(book, 0), &book[7..11]));
/// assert_eq!((filbozseg::name(book, 1), filbozseg::name(&book[1..], 0)), (&[][..], &[][..]));
/// ```
pub fn name(book: &[u8], rule: usize) -> &[u8] {
    let (mut offset, mut length) = (NO_PART, NO_PART);
    // SAFETY: the pointers point to live values of these lengths, and only this call uses the two that are written.
    let code = unsafe { sys::filbozseg_name(book.as_ptr(), book.len(), rule, &mut offset, &mut length) };
    match answer(code) {
        Ok(true) => &book[offset..][..length],
        Ok(false) => &[],
        Err(refusal) => unreachable!("the lookup of a name is never refused: {refusal}"),
    }
}

/// The name of a rule in a grammar: one to eight capitals and digits. It may be anything else, or empty, only in a grammar that is refused.
/// It is displayed as it is, with other bytes as in Rust.
///
/// ```
/// # fn main() -> Result<(), filbozseg::LoadError> {
/// let grammar = filbozseg::load(b"\x10\x00\x20\x00\x00\x00\x60SEAL40  \x40A\x50")?; // 0 -> A, named SEAL40
/// let name = grammar.rule(0).unwrap().name().unwrap();
/// assert_eq!((name.as_bytes(), name.to_string()), (&b"SEAL40"[..], "SEAL40".to_string()));
/// # Ok(())
/// # }
/// ```
#[derive(Clone, Copy, PartialEq, Eq, Hash)]
pub struct Name {
    filled: [u8; 8],
}

impl Name {
    /// The name of these eight bytes, or none if they are all zero.
    pub(crate) fn new(filled: [u8; 8]) -> Option<Name> {
        (filled != [0; 8]).then_some(Name { filled })
    }

    /// The bytes of the name, without the blanks that fill it up.
    pub fn as_bytes(&self) -> &[u8] {
        let end = self.filled.iter().rposition(|&byte| byte != b' ').map_or(0, |last| last + 1);
        &self.filled[..end]
    }

    /// All eight bytes of the name, with the blanks that fill it up.
    pub fn filled(&self) -> [u8; 8] {
        self.filled
    }
}

impl AsRef<[u8]> for Name {
    fn as_ref(&self) -> &[u8] {
        self.as_bytes()
    }
}

impl fmt::Display for Name {
    fn fmt(&self, f: &mut fmt::Formatter<'_>) -> fmt::Result {
        write!(f, "{}", self.as_bytes().escape_ascii())
    }
}

impl fmt::Debug for Name {
    fn fmt(&self, f: &mut fmt::Formatter<'_>) -> fmt::Result {
        write!(f, "Name({self})")
    }
}
