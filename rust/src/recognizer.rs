//! The recognizer, which takes an input byte by byte.

use crate::error::What;
use crate::refusal::answer;
use crate::{sys, Grammar, LoadError, Refusal, BYTES, HAND, NO_NUMBER, NO_OFFSET, POINTS};

/// Where the year is in a row, and where the points begin.
const YEAR: usize = BYTES + 1;
const FIRST_POINT: usize = YEAR + 1;

/// A recognizer, as the row of numbers that is passed to the library: 64 bytes, each as a number, then how many have been taken, then the
/// year that it was opened with, and then its eight points. A point is 0 if it is not set, else 1 plus the count at which it was set.
///
/// [`open`] makes one. The row of [`Recognizer::from_row`] may hold anything: all 16 bits of each number are checked. Refused with 14: a
/// count over 64, a number over 255 among the first `count`, or a point over 1 + `count`. The numbers of bytes not taken and the year may
/// have any value.
#[derive(Clone, Copy, Debug, PartialEq, Eq, Hash)]
pub struct Recognizer {
    row: [u16; HAND],
}

/// Opens a recognizer on a chart in a year. Returns the recognizer of no bytes, which keeps the year and has no point set, and whether the
/// empty input is complete. It clears the first 4,225 cells of the chart and writes the first column. If refused (8, 10, in this order), it
/// also returns a recognizer of no bytes, with year 0, and leaves the chart as found.
///
/// ```
/// # fn main() -> Result<(), filbozseg::Error> {
/// use filbozseg::{load, open, CELLS};
/// // 0 -> 0 A, 0 -> A
/// let grammar = load(b"\x10\x00\x20\x00\x00\x00\x30\x00\x40A\x20\x00\x00\x00\x40A\x50")?;
/// let mut chart = vec![0; CELLS];
/// let (mut recognizer, complete) = open(&grammar, 2008, &mut chart);
/// assert!(!complete?);
/// assert!(recognizer.take(&grammar, b'A', &mut chart)?);
/// assert!(recognizer.take(&grammar, b'A', &mut chart)?);
/// assert!(!recognizer.take(&grammar, b'B', &mut chart)?);
/// assert_eq!((recognizer.count(), recognizer.year()), (3, 2008));
/// # Ok(())
/// # }
/// ```
pub fn open(grammar: &Grammar, year: u16, chart: &mut [u32]) -> (Recognizer, Result<bool, Refusal>) {
    let mut r = Recognizer { row: [NO_NUMBER; HAND] };
    // SAFETY: the pointers point to live values of these lengths, and only this call borrows those that are written.
    let code = unsafe { sys::filbozseg_open(grammar.row(), year, &mut r.row, chart.as_mut_ptr(), chart.len()) };
    (r, answer(code))
}

impl Recognizer {
    /// The recognizer of a row.
    pub fn from_row(row: &[u16; HAND]) -> Recognizer {
        Recognizer { row: *row }
    }

    /// The row of the recognizer.
    pub fn row(&self) -> &[u16; HAND] {
        &self.row
    }

    /// How many bytes have been taken, according to the row. It is over 64 only in a row that is refused.
    pub fn count(&self) -> usize {
        usize::from(self.row[BYTES])
    }

    /// The year that the recognizer was opened with, according to the row. [`Recognizer::take`], [`Recognizer::set_point`],
    /// [`Recognizer::return_to`] and [`Recognizer::learn`] go by it.
    pub fn year(&self) -> u16 {
        self.row[YEAR]
    }

    /// For each name the count at which its point was set, if it is set, according to the row. It is over the count only in a row that is
    /// refused.
    pub fn points(&self) -> [Option<usize>; POINTS] {
        std::array::from_fn(|name| usize::from(self.row[FIRST_POINT + name]).checked_sub(1))
    }

    /// The bytes taken so far, as numbers. A number is over 255 only in a row that is refused.
    pub fn bytes(&self) -> &[u16] {
        &self.row[..self.count().min(BYTES)]
    }

    /// Takes a byte, and returns whether the input so far is complete in the recognizer's year. The recognizer then has the byte, with
    /// zeros after it, and keeps its year and its points; the chart has its column.
    ///
    /// The answer is right for the input if the recognizer was opened with this grammar on this chart, and nothing but its own calls wrote
    /// to the chart.
    ///
    /// # Errors
    ///
    /// Refusals 8, 14, 10 and 15, in this order. Recognizer and chart are left as found.
    pub fn take(&mut self, grammar: &Grammar, byte: u8, chart: &mut [u32]) -> Result<bool, Refusal> {
        // SAFETY: as in `open`.
        answer(unsafe { sys::filbozseg_take(grammar.row(), &mut self.row, byte, chart.as_mut_ptr(), chart.len()) })
    }

    /// Sets the point of this name, 0 to 7, at the count, wherever it was, and returns whether the input so far is complete in the
    /// recognizer's year, as the chart has it. The recognizer keeps its bytes, with zeros after them, its year and its other points.
    ///
    /// ```
    /// # fn main() -> Result<(), filbozseg::Error> {
    /// use filbozseg::{load, open, Refusal, CELLS};
    /// // 0 -> 0 A, 0 -> A
    /// let grammar = load(b"\x10\x00\x20\x00\x00\x00\x30\x00\x40A\x20\x00\x00\x00\x40A\x50")?;
    /// let mut chart = vec![0; CELLS];
    /// let (mut recognizer, _) = open(&grammar, 2008, &mut chart);
    /// recognizer.take(&grammar, b'A', &mut chart)?;
    /// assert!(recognizer.set_point(&grammar, 3, &chart)?); // A is complete
    /// assert!(!recognizer.take(&grammar, b'B', &mut chart)?); // a doubtful mark
    /// assert!(recognizer.return_to(&grammar, 3, &mut chart)?);
    /// assert_eq!((recognizer.bytes(), recognizer.points()[3]), (&[65][..], Some(1)));
    /// assert!(recognizer.take(&grammar, b'A', &mut chart)?);
    /// assert_eq!(recognizer.return_to(&grammar, 4, &mut chart), Err(Refusal::NoPoint));
    /// # Ok(())
    /// # }
    /// ```
    ///
    /// # Errors
    ///
    /// Refusals 8, 14 and 10, and then 19 if the name is over 7, in this order. The recognizer is left as found.
    pub fn set_point(&mut self, grammar: &Grammar, name: usize, chart: &[u32]) -> Result<bool, Refusal> {
        // SAFETY: the pointers point to live values of these lengths, and only this call borrows the one that is written.
        answer(unsafe { sys::filbozseg_set_point(grammar.row(), &mut self.row, name, chart.as_ptr(), chart.len()) })
    }

    /// Returns to the point of this name, and returns whether the input is then complete in the recognizer's year. The recognizer then has
    /// the bytes of the point's count, with zeros after them, and keeps its year. Points beyond are not set any more; the others remain,
    /// this one too. The chart has zeros in the columns after the count, up to the last: in the cells 65 × i + j with i ≤ j and j from
    /// count + 1 to 64. No other cell is written.
    ///
    /// Bytes, count and chart are then what opening and taking only the bytes that remain would have left, if the recognizer was opened
    /// with this grammar on this chart, and nothing but its own calls wrote to the chart.
    ///
    /// # Errors
    ///
    /// Refusals 8, 14 and 10, and then 19 if the name is over 7 or its point is not set, in this order. Recognizer and chart are left as
    /// found.
    pub fn return_to(&mut self, grammar: &Grammar, name: usize, chart: &mut [u32]) -> Result<bool, Refusal> {
        // SAFETY: as in `open`.
        answer(unsafe { sys::filbozseg_return_to(grammar.row(), &mut self.row, name, chart.as_mut_ptr(), chart.len()) })
    }

    /// Learns a rule, and returns whether the input so far is then complete in the recognizer's year. The bytes are the commands of one
    /// rule as in a book, and nothing else: 20 or 21 first, then places and a name. The rule ends where the bytes end, without 50.
    ///
    /// The grammar then has this rule under the next number, its old ones under theirs, and the nullable depth of all of them. The
    /// recognizer keeps its bytes, with zeros after them, its points and its year. The chart's first 4,225 cells are what opening with the
    /// longer grammar and taking these bytes leaves, whatever the chart held. A rule that is out of force in the recognizer's year is
    /// learnt too. Each reading of an input under the old grammar is one under the longer grammar, and the old ones keep their order.
    ///
    /// Clones of the grammar, and the readings made with it, keep the old one. [`name`](crate::name) does not find the name of a learnt
    /// rule, since it goes by the bytes of a book.
    ///
    /// ```
    /// # fn main() -> Result<(), filbozseg::Error> {
    /// use filbozseg::{load, open, CELLS};
    /// // 0 -> 0 A, 0 -> A
    /// let mut grammar = load(b"\x10\x00\x20\x00\x00\x00\x30\x00\x40A\x20\x00\x00\x00\x40A\x50")?;
    /// let mut chart = vec![0; CELLS];
    /// let (mut recognizer, _) = open(&grammar, 2008, &mut chart);
    /// recognizer.take(&grammar, b'A', &mut chart)?;
    /// assert!(!recognizer.take(&grammar, b'S', &mut chart)?); // a spring that the book lacks
    /// assert!(recognizer.learn(&mut grammar, b"\x20\x00\x96\x00\x30\x00\x40S\x60SPRING  ", &mut chart)?); // 0 -> 0 S, 1.5 mm
    /// assert_eq!(format!("{:?}", grammar.rule(2).unwrap()), "0 -> 0 'S' (150, SPRING)");
    /// assert!(recognizer.take(&grammar, b'A', &mut chart)?);
    /// # Ok(())
    /// # }
    /// ```
    ///
    /// # Errors
    ///
    /// Refusals 8, 14 and 10, in this order; 20 if there are no bytes; and then the first fault of the bytes, read from the left: 2; 20 if
    /// the first command opens no rule, or a later one opens a rule, is 10 or is 50; 3 for a second name; 1 if the bytes end inside a
    /// command; 4, 16, 17, 21, 5 and 6 as for [`load`](crate::load). The error has the offset in these bytes. Grammar, recognizer and chart
    /// are left as found.
    pub fn learn(&mut self, grammar: &mut Grammar, bytes: &[u8], chart: &mut [u32]) -> Result<bool, LoadError> {
        let (mut row, mut offset) = (*grammar.row(), NO_OFFSET);
        // SAFETY: as in `open`; the row is a copy, since clones of the grammar share it.
        let code = unsafe {
            sys::filbozseg_learn(
                &mut row,
                &mut self.row,
                bytes.as_ptr(),
                bytes.len(),
                chart.as_mut_ptr(),
                chart.len(),
                &mut offset,
            )
        };
        match answer(code) {
            Ok(complete) => {
                *grammar = Grammar::from_row(&row);
                Ok(complete)
            }
            Err(refusal) => Err(LoadError { refusal, offset, grammar: grammar.clone(), what: What::Rule }),
        }
    }
}
