//! A derivation in words.

use crate::refusal::done;
use crate::{sys, Grammar, Refusal};

// What the lent place holds before the library writes it. No text is so long, so a place that the library fails to write is never mistaken
// for a result.
const NO_BYTES: usize = usize::MAX;

/// The text of an offered derivation of the input in a year. For a node it is the name of its rule, `(`, the texts of its places with
/// commas between them, and `)`. A rule without a name is `#` and its number in three digits. A byte of the input is `=` and two
/// hexadecimal digits in capitals. The text is at the front of the buffer, and the rest of the buffer is left as found. The chart is filled
/// for the input and the year.
///
/// The buffer may have any length: [`TEXT`](crate::TEXT) bytes are enough for every text. The call needs up to 152 KiB of stack.
///
/// ```
/// # fn main() -> Result<(), filbozseg::Error> {
/// use filbozseg::{load, words, Refusal, CELLS, TEXT};
/// // 0 -> A, named SEAL
/// let (grammar, mut chart) = (load(b"\x10\x00\x20\x00\x00\x00\x60SEAL    \x40A\x50")?, vec![0; CELLS]);
/// assert_eq!(words(&grammar, b"A", 2008, &[1, 0], &mut chart, &mut [0; TEXT])?, b"SEAL(=41)");
/// assert_eq!(words(&grammar, b"A", 2008, &[1, 0], &mut chart, &mut [0; 9])?, b"SEAL(=41)");
/// assert_eq!(words(&grammar, b"A", 2008, &[1, 0], &mut chart, &mut [0; 8]), Err(Refusal::TextTooLong));
/// # Ok(())
/// # }
/// ```
///
/// # Errors
///
/// Refusals 8, 9 and 10, with chart and buffer left as found; then 12 if the row is no derivation of the input in the year, and 18 if its
/// text is longer than the buffer, both with the chart filled and the buffer left as found.
pub fn words<'a>(
    grammar: &Grammar,
    input: &[u8],
    year: u16,
    offered: &[u16],
    chart: &mut [u32],
    buffer: &'a mut [u8],
) -> Result<&'a [u8], Refusal> {
    let mut bytes = NO_BYTES;
    // SAFETY: the pointers point to live values of these lengths, and only this call borrows those that are written.
    let code = unsafe {
        sys::filbozseg_words(
            grammar.row(),
            input.as_ptr(),
            input.len(),
            year,
            offered.as_ptr(),
            offered.len(),
            chart.as_mut_ptr(),
            chart.len(),
            buffer.as_mut_ptr(),
            buffer.len(),
            &mut bytes,
        )
    };
    done(code).map(|()| &buffer[..bytes])
}
