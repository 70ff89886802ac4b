//! The first derivation, and the next one.

use crate::refusal::answer;
use crate::{sys, Grammar, Refusal};

// What the lent place holds before the library writes it. No derivation has so many nodes, so a place that the library fails to write is
// never mistaken for a result.
const NO_NODES: usize = usize::MAX / 2;

/// The first derivation of the input in a year: for each node, in preorder, how many bytes it covers and the number of its rule. Only rules
/// in force in the year build trees. Derivations are ordered by the first number in which they differ. `None` if the input has no tree at
/// all. The derivation is at the front of the output; the rest of the output is left as found, or all of it with `None`. The chart is
/// filled for the input and the year.
///
/// The call needs up to 1,900 KiB of stack, as `include/filbozseg.h` says; a Rust thread has 2 MiB by default.
///
/// # Errors
///
/// Refusals 8, 9, 10 and 11, in this order, with chart and output left as found; then 13 if the input has trees, but none of at most 512
/// nodes, with the chart filled and the output left as found.
pub fn first<'a>(
    grammar: &Grammar,
    input: &[u8],
    year: u16,
    chart: &mut [u32],
    output: &'a mut [u16],
) -> Result<Option<&'a [u16]>, Refusal> {
    let mut nodes = NO_NODES;
    // SAFETY: the pointers point to live values of these lengths, and only this call borrows those that are written.
    let code = unsafe {
        sys::filbozseg_first(
            grammar.row(),
            input.as_ptr(),
            input.len(),
            year,
            chart.as_mut_ptr(),
            chart.len(),
            output.as_mut_ptr(),
            output.len(),
            &mut nodes,
        )
    };
    Ok(answer(code)?.then_some(output).map(|output| &output[..2 * nodes]))
}

/// The derivation of the input in a year that follows the offered one in the order of [`first`]. It is at the front of the output, as with
/// `first`. `None` if the offered one is the last; the output is then left as found. The chart is filled for the input and the year.
///
/// [`Grammar::readings`] iterates from the first to the last. Without it, copy each derivation out of the output before you offer it:
///
/// ```
/// use filbozseg::{first, load, next, CELLS, OUTPUT};
/// // 0 -> 1 1, 1 -> nothing, 1 -> A
/// let grammar = load(b"\x10\x00\x20\x00\x00\x00\x30\x01\x30\x01\x20\x01\x00\x00\x20\x01\x00\x00\x40A\x50").unwrap();
/// let (mut chart, mut output, mut all) = ([0; CELLS], [0; OUTPUT], vec![]);
/// let mut handed = first(&grammar, b"A", 2008, &mut chart, &mut output).unwrap().map(<[u16]>::to_vec);
/// while let Some(reading) = handed {
///     handed = next(&grammar, b"A", 2008, &reading, &mut chart, &mut output).unwrap().map(<[u16]>::to_vec);
///     all.push(reading);
/// }
/// assert_eq!(all, [[1, 0, 0, 1, 1, 2], [1, 0, 1, 2, 0, 1]]);
/// ```
///
/// Offered in place, it would overlap the output, and that does not compile:
///
/// ```compile_fail,E0499
/// # use filbozseg::{first, load, next, CELLS, OUTPUT};
/// # let grammar = load(b"\x10\x00\x20\x00\x00\x00\x40A\x50").unwrap();
/// # let (mut chart, mut output) = ([0; CELLS], [0; OUTPUT]);
/// let handed = first(&grammar, b"A", 2008, &mut chart, &mut output).unwrap().unwrap();
/// next(&grammar, b"A", 2008, handed, &mut chart, &mut output).unwrap();
/// ```
///
/// The call needs as much stack as `first`. It makes the tables of book and input anew, which takes 0.03 to 75 ms.
///
/// # Errors
///
/// Refusals 8, 9, 10 and 11, in this order, with chart and output left as found; then 12 if the offered row is no derivation of the input
/// in the year, with the chart filled and the output left as found.
pub fn next<'a>(
    grammar: &Grammar,
    input: &[u8],
    year: u16,
    offered: &[u16],
    chart: &mut [u32],
    output: &'a mut [u16],
) -> Result<Option<&'a [u16]>, Refusal> {
    let mut nodes = NO_NODES;
    // SAFETY: as in `first`.
    let code = unsafe {
        sys::filbozseg_next(
            grammar.row(),
            input.as_ptr(),
            input.len(),
            year,
            offered.as_ptr(),
            offered.len(),
            chart.as_mut_ptr(),
            chart.len(),
            output.as_mut_ptr(),
            output.len(),
            &mut nodes,
        )
    };
    Ok(answer(code)?.then_some(output).map(|output| &output[..2 * nodes]))
}
