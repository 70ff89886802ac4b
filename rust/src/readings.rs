//! The iterator over all readings of an input in a year.

use crate::{first, next, Grammar, Reading, Refusal, CELLS, OUTPUT, STACK};
use std::fmt;
use std::iter::FusedIterator;
use std::panic::resume_unwind;
use std::thread;

/// The stack of a thread that is started for a call: what the call needs, and enough for the thread itself.
const OWN_STACK: usize = STACK + 128 * 1024;

/// All readings of an input in a year, in the order of document 01: see [`Grammar::readings`].
///
/// Each item is a `Result`, because the input is checked only when the first reading is asked for: `collect` into a `Result<Vec<_>, _>`,
/// or use `?` on each item. A refusal (8, 9, 13) is the only item. After the last reading, and after a refusal, the iterator returns
/// `None` forever. An input without any tree has no items. Each reading is found when it is asked for, and there may be very many: `take`
/// as many as you want, or call [`count`](crate::count) first.
///
/// ```
/// # fn main() -> Result<(), filbozseg::Error> {
/// use filbozseg::{load, Reading, Refusal};
/// // 0 -> 0 0, 0 -> A
/// let grammar = load(b"\x10\x00\x20\x00\x00\x00\x30\x00\x30\x00\x20\x00\x00\x00\x40A\x50")?;
/// for reading in grammar.readings(b"AAA", 2008) {
///     println!("{}", reading?); // 3.0 1.1 2.0 1.1 1.1, then 3.0 2.0 1.1 1.1 1.1
/// }
/// assert_eq!(grammar.readings(b"B", 2008).next(), None);
/// assert_eq!(grammar.readings(b"", 2008).next(), None); // an input of no bytes is read like any other
/// assert_eq!(grammar.readings(&[b'A'; 65], 2008).collect::<Vec<_>>(), [Err(Refusal::InputLength)]);
///
/// let plate = [b'A'; 64]; // some 10^35 readings
/// let three: Vec<Reading> = grammar.readings(&plate, 2008).take(3).collect::<Result<_, _>>()?;
/// assert!(three[0] < three[1] && three[1] < three[2]);
/// # Ok(())
/// # }
/// ```
///
/// It owns a chart, an output and a copy of the last reading, about 20 KB.
///
/// # Cost
///
/// Each reading is a call of [`first`] or [`next`], which makes the tables of book and input anew: 0.03 to 75 ms, by book and input. So to
/// list thousands takes 45 to 150 times as long as with the listing program (`docs/REFERENCE.md`), which makes the tables once.
///
/// # Stack
///
/// A call needs up to 1.8 MB of stack, and little for a small book and a short input. So a thread of 1 MiB passes small tests, and a stack
/// overflow ends the process on deep plates. A Rust thread has 2 MiB by default, and that is enough. Where a thread has less, say so by
/// [`Readings::on_stack`].
#[derive(Clone)]
#[must_use = "the readings are found only when they are asked for"]
pub struct Readings<'a> {
    grammar: &'a Grammar,
    input: &'a [u8],
    year: u16,
    chart: Vec<u32>,
    output: Vec<u16>,
    /// The last reading found, which is offered to find the next one; empty before the first.
    last: Vec<u16>,
    ended: bool,
    /// How much stack is left on the thread that asks.
    stack: usize,
}

impl<'a> Readings<'a> {
    pub(crate) fn new(grammar: &'a Grammar, input: &'a [u8], year: u16) -> Readings<'a> {
        let (chart, output) = (vec![0; CELLS], vec![0; OUTPUT]);
        Readings { grammar, input, year, chart, output, last: Vec::new(), ended: false, stack: usize::MAX }
    }

    /// The same readings, for a thread that has this many bytes of stack left. If that is less than [`STACK`], each call of the library
    /// runs on a thread of its own, which has enough and ends with the call. Without this, calls run on the thread that asks, whatever
    /// stack it has.
    ///
    /// ```
    /// # fn main() -> Result<(), filbozseg::Error> {
    /// let grammar = filbozseg::load(b"\x10\x00\x20\x00\x19\x00\x40A\x50")?; // 0 -> A
    /// let small = std::thread::Builder::new().stack_size(256 * 1024);
    /// let counting = small.spawn(move || grammar.readings(b"A", 2008).on_stack(200 * 1024).count());
    /// assert_eq!(counting.unwrap().join().unwrap(), 1);
    /// # Ok(())
    /// # }
    /// ```
    ///
    /// # Panics
    ///
    /// The iterator panics if the system cannot start a thread.
    pub fn on_stack(mut self, left: usize) -> Readings<'a> {
        self.stack = left;
        self
    }

    /// Finds the next reading: how many numbers it has at the front of the output.
    fn found(&mut self) -> Result<Option<usize>, Refusal> {
        let handed = if self.last.is_empty() {
            first(self.grammar, self.input, self.year, &mut self.chart, &mut self.output)?
        } else {
            next(self.grammar, self.input, self.year, &self.last, &mut self.chart, &mut self.output)?
        };
        Ok(handed.map(<[u16]>::len))
    }

    /// The same, on a thread that has the stack for it.
    fn found_on_stack(&mut self) -> Result<Option<usize>, Refusal> {
        if self.stack >= STACK {
            return self.found();
        }
        thread::scope(|scope| {
            let own = thread::Builder::new().stack_size(OWN_STACK).spawn_scoped(scope, || self.found());
            own.expect("a thread with enough stack").join().unwrap_or_else(|panic| resume_unwind(panic))
        })
    }

    fn step(&mut self) -> Result<Option<Reading>, Refusal> {
        let Some(length) = self.found_on_stack()? else { return Ok(None) };
        let numbers = &self.output[..length];
        self.last.clear();
        self.last.extend_from_slice(numbers);
        Ok(Some(Reading::new(self.grammar, self.input, self.year, numbers)))
    }
}

impl Iterator for Readings<'_> {
    type Item = Result<Reading, Refusal>;

    fn next(&mut self) -> Option<Self::Item> {
        if self.ended {
            return None;
        }
        let item = self.step().transpose();
        self.ended = !matches!(item, Some(Ok(_)));
        item
    }
}

impl FusedIterator for Readings<'_> {}

impl fmt::Debug for Readings<'_> {
    fn fmt(&self, f: &mut fmt::Formatter<'_>) -> fmt::Result {
        f.debug_struct("Readings")
            .field("grammar", self.grammar)
            .field("input", &self.input)
            .field("year", &self.year)
            .field("last", &self.last)
            .field("ended", &self.ended)
            .field("stack", &self.stack)
            .finish_non_exhaustive()
    }
}
