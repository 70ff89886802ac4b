//! Compares a reader with the lister over one book and its inputs. The first difference is returned as a text; the
//! outcomes are counted.

mod copies;
mod firsts;
mod grammars;
mod hands;
mod learns;
mod lent;
mod loads;
mod names;
mod nexts;
mod points;
mod refusals;
mod rows;
mod searches;
mod strangers;
mod takes;
mod walks;
mod words;
mod years;

pub use copies::compare_copies;
pub use learns::run_learning;
pub use lent::{rubbish, Counts, Lent};
pub use nexts::compare_boundary;
pub use points::run_list;
pub use searches::compare_searches;
pub use walks::play_book;
pub use years::{compare_year_files, YEAR_FILES};

use crate::books::{Book, Rng};
use crate::lister::grammar::{self, Grammar};
use crate::lister::Lister;
use crate::reader::{FlatGrammar, Reader, CELLS};
use lent::same;
use std::fmt::Debug;

/// A limit above 512, to see what the limit of 512 cuts off.
const WIDER: usize = 640;

/// Compares a reader with the lister over the book of a seed.
pub fn compare_book(reader: &dyn Reader, book: &Book, seed: u64, counts: &mut Counts) -> Result<(), String> {
    let rng = Rng::new(seed ^ 0xC0FFEE);
    let mut comparison = Comparison { reader, rng, counts };
    comparison.book(book).map_err(|what| format!("seed {seed} ({}), book {:02X?}: {what}", book.style, book.bytes))
}

/// An input with its year, and the chart that is filled for both.
#[derive(Clone, Copy)]
pub struct Plate<'a> {
    pub input: &'a [u8],
    pub year: u16,
    pub filled: &'a [u32],
}

/// The grammar of a row in a year.
fn in_year(flat: &FlatGrammar, year: u16) -> Grammar {
    grammar::from_flat(flat).expect("a loaded grammar passes check 8").in_year(year)
}

/// A comparison in progress.
pub struct Comparison<'a> {
    pub reader: &'a dyn Reader,
    pub rng: Rng,
    pub counts: &'a mut Counts,
}

impl Comparison<'_> {
    fn book(&mut self, book: &Book) -> Result<(), String> {
        self.counts.add("book");
        self.counts.add(&format!("style: {}", book.style));
        self.other_loads(&book.bytes)?;
        let Some(flat) = self.load(&book.bytes, "load")? else { return Ok(()) };
        self.refusals(&flat, &book.inputs, &book.years)?;
        for (number, input) in book.inputs.iter().enumerate() {
            let year = self.year_of(&flat, &book.years, number);
            let said = |what: String| format!("input {input:?}, year {year}: {what}");
            self.input(&flat, input, year).map_err(said)?;
            self.other_years(&flat, input, year, &book.years)?;
        }
        self.searches(&flat)?;
        self.points(&flat, &book.inputs, &book.years)?;
        self.learns(&flat, book)
    }

    /// Counts what came up with an input. What comes up with the empty input is also counted by itself.
    fn add(&mut self, input: &[u8], what: &str) {
        self.counts.add(what);
        if input.is_empty() {
            self.counts.add(&format!("empty input, {what}"));
        }
    }

    /// A chart that is long enough, filled with rubbish, with further words after its cells.
    fn chart(&mut self) -> Lent<u32> {
        let length = CELLS + self.rng.pick(&[0, 0, 1, 40]);
        rubbish(&mut self.rng, length)
    }

    fn short_chart(&mut self) -> Lent<u32> {
        let length = self.rng.pick(&[0, 1, 65, 4160, CELLS - 1, CELLS - 1]);
        rubbish(&mut self.rng, length)
    }

    /// Makes a call on the reader and on the lister, each with its own copy of the chart, and compares the answers
    /// and the whole charts. Returns both.
    fn both<T: PartialEq + Debug>(
        &self,
        what: &str,
        flat: &FlatGrammar,
        chart: &Lent<u32>,
        call: impl Fn(&dyn Reader, &FlatGrammar, &mut [u32]) -> T,
    ) -> Result<(T, Lent<u32>), String> {
        let (mut got, mut due, lent) = (chart.clone(), chart.clone(), *flat);
        let due_answer = call(&Lister, flat, due.part_mut());
        let got_answer = call(self.reader, &lent, got.part_mut());
        same(&format!("{what}: answer"), &got_answer, &due_answer)?;
        got.against(&due, &format!("{what}: chart"))?;
        same(&format!("{what}: the grammar lent"), lent == *flat, true)?;
        Ok((due_answer, due))
    }

    /// Compares everything about one input in a year.
    pub fn input(&mut self, flat: &FlatGrammar, input: &[u8], year: u16) -> Result<(), String> {
        let grammar = in_year(flat, year);
        self.counts.add(match input.len() {
            0 => "input: empty",
            1..=8 => "input: 1 to 8 terminals",
            9..=63 => "input: 9 to 63 terminals",
            _ => "input: 64 terminals",
        });
        let filled = self.takes(flat, &grammar, input, year)?;
        self.spoilt_takes(flat, &grammar, input, year)?;
        self.rows(flat, &grammar, Plate { input, year, filled: &filled.part()[..CELLS] })
    }
}
