//! Loading, and the calls on an offered derivation.

use crate::error::What;
use crate::refusal::{answer, done};
use crate::{sys, Grammar, LoadError, Refusal, NO_NUMBER, NO_OFFSET, ROW};

// What a lent place holds before the library writes it. No derivation has such a length, so a place that the library fails to write is never
// mistaken for a result.
const NO_TENTHS: i32 = i32::MIN;

/// Loads a book of any length.
///
/// ```
/// use filbozseg::load;
/// let grammar = load(b"\x10\x00\x20\x00\x19\x00\x40A\x50").unwrap(); // 0 -> A, 0.25 mm
/// assert_eq!(grammar.rules().len(), 1);
/// let message = "the book is refused at offset 2: the book ends inside a command, or where a command is due (refusal 1)";
/// assert_eq!(load(b"\x10\x00").unwrap_err().to_string(), message);
/// ```
///
/// # Errors
///
/// The first fault of the book, read from the left: refusals 1 to 7, 16, 17 and 21.
pub fn load(book: &[u8]) -> Result<Grammar, LoadError> {
    let mut row = [NO_NUMBER; ROW];
    let mut offset = NO_OFFSET;
    // SAFETY: the pointers point to live values of these lengths, and only this call uses the two that are written.
    let code = unsafe { sys::filbozseg_load(book.as_ptr(), book.len(), &mut row, &mut offset) };
    let grammar = Grammar::from_row(&row);
    match done(code) {
        Ok(()) => Ok(grammar),
        Err(refusal) => Err(LoadError { refusal, offset, grammar, what: What::Book }),
    }
}

/// Whether the offered row is a derivation of the input in a year: for each node, in preorder, how many bytes it covers and the number of
/// its rule. Only rules in force in the year build trees. The chart is filled for the input and the year.
///
/// ```
/// # fn main() -> Result<(), filbozseg::Error> {
/// use filbozseg::{check, load, CELLS};
/// let (grammar, mut chart) = (load(b"\x10\x00\x20\x00\x19\x00\x40A\x50")?, vec![0; CELLS]); // 0 -> A
/// assert!(check(&grammar, b"A", 2008, &[1, 0], &mut chart)?);
/// assert!(!check(&grammar, b"A", 2008, &[], &mut chart)?);
/// assert!(!check(&grammar, b"", 2008, &[], &mut chart)?); // each derivation has a node, also one of an input of no bytes
/// # Ok(())
/// # }
/// ```
///
/// # Errors
///
/// Refusals 8, 9 and 10, in this order. The chart is left as found.
pub fn check(grammar: &Grammar, input: &[u8], year: u16, offered: &[u16], chart: &mut [u32]) -> Result<bool, Refusal> {
    // SAFETY: the pointers point to live values of these lengths. The chart is borrowed for writing, so it overlaps nothing else.
    answer(unsafe {
        sys::filbozseg_check(
            grammar.row(),
            input.as_ptr(),
            input.len(),
            year,
            offered.as_ptr(),
            offered.len(),
            chart.as_mut_ptr(),
            chart.len(),
        )
    })
}

/// The length of an offered derivation in tenths of a millimetre; an exact half goes to the even tenth. The chart is filled for the input
/// and the year.
///
/// ```
/// # fn main() -> Result<(), filbozseg::Error> {
/// use filbozseg::{length, load, CELLS};
/// let (grammar, mut chart) = (load(b"\x10\x00\x20\x00\x19\x00\x40A\x50")?, vec![0; CELLS]); // 0 -> A, 0.25 mm
/// assert_eq!(length(&grammar, b"A", 2008, &[1, 0], &mut chart)?, 2);
/// # Ok(())
/// # }
/// ```
///
/// # Errors
///
/// Refusals 8, 9 and 10, with the chart left as found; then 12 if the row is no derivation of the input in the year, with the chart
/// filled.
pub fn length(grammar: &Grammar, input: &[u8], year: u16, offered: &[u16], chart: &mut [u32]) -> Result<i32, Refusal> {
    let mut tenths = NO_TENTHS;
    // SAFETY: as in `check`; only this call uses the tenths.
    let code = unsafe {
        sys::filbozseg_length(
            grammar.row(),
            input.as_ptr(),
            input.len(),
            year,
            offered.as_ptr(),
            offered.len(),
            chart.as_mut_ptr(),
            chart.len(),
            &mut tenths,
        )
    };
    done(code).map(|()| tenths)
}

/// Whether two offered derivations are the same build: whether their nodes that cover something have the same rules in preorder.
/// The chart is filled for the input and the year. The two rows may be the same slice.
///
/// ```
/// # fn main() -> Result<(), filbozseg::Error> {
/// use filbozseg::{load, same_build, CELLS};
/// // 0 -> 1 1, 1 -> nothing, 1 -> A
/// let grammar = load(b"\x10\x00\x20\x00\x00\x00\x30\x01\x30\x01\x20\x01\x00\x00\x20\x01\x00\x00\x40A\x50")?;
/// assert!(same_build(&grammar, b"A", 2008, &[1, 0, 0, 1, 1, 2], &[1, 0, 1, 2, 0, 1], &mut vec![0; CELLS])?);
/// # Ok(())
/// # }
/// ```
///
/// # Errors
///
/// As for [`length`]; 12 if either row is no derivation of the input in the year.
pub fn same_build(
    grammar: &Grammar,
    input: &[u8],
    year: u16,
    a: &[u16],
    b: &[u16],
    chart: &mut [u32],
) -> Result<bool, Refusal> {
    // SAFETY: as in `check`; what is only read may overlap.
    answer(unsafe {
        sys::filbozseg_same_build(
            grammar.row(),
            input.as_ptr(),
            input.len(),
            year,
            a.as_ptr(),
            a.len(),
            b.as_ptr(),
            b.len(),
            chart.as_mut_ptr(),
            chart.len(),
        )
    })
}
