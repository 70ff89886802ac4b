//! The calls of the code under test, on plain numbers and slices.

/// How many 16-bit numbers a flat grammar has.
pub const FLAT: usize = 3 + RULES * RULE_WIDTH;
/// Rule records of a grammar.
pub const RULES: usize = 128;
/// Places of a rule record.
pub const PLACES: usize = 8;
/// Numbers of one rule record: left side, length, places used, 8 x (tag, value), first year, last year, 8 x name.
pub const RULE_WIDTH: usize = NAME + NAME_WIDTH;
/// Where the first year is in a rule record; the last year follows it.
pub const YEARS: usize = 3 + 2 * PLACES;
/// Where the name is in a rule record, and how many bytes it has, filling included.
pub const NAME: usize = YEARS + 2;
pub const NAME_WIDTH: usize = 8;
/// Cells of a chart (document 01: words of a sheet).
pub const CELLS: usize = 65 * 65;
/// Numbers of an output that is long enough.
pub const OUTPUT: usize = 1024;
/// The most terminals an input may have (document 01: marks of a plate).
pub const INPUT: usize = 64;
/// Points of a hand: their names are the numbers below this.
pub const POINTS: usize = 8;
/// Numbers of a hand's row, where the year is in it, and where the points begin.
pub const HAND: usize = INPUT + 2 + POINTS;
pub const YEAR: usize = INPUT + 1;
pub const FIRST_POINT: usize = YEAR + 1;

/// A grammar (loaded book) as a flat row that can hold every value: start, rules
/// used, nullable depth (blank depth), then for each of 128 rule records: left
/// side, length (two's complement), places used, then 8 times tag (0 nonterminal,
/// 1 terminal, 2 range) and value (of a range low + 256 * high), then first year and
/// last year, then the 8 bytes of its name, a number each. All 16 bits of each number
/// are checked.
pub type FlatGrammar = [u16; FLAT];

/// Where the record of a rule begins in a flat grammar.
pub fn record(rule: usize) -> usize {
    3 + rule * RULE_WIDTH
}

/// A recognizer's state (document 01: plate in hand) as a row that can hold
/// every value: 64 marks, then how many of them are used, then the year, then 8
/// points: each 0 if it is not set, else 1 plus the count at which it was set.
pub type Hand = [u16; HAND];

/// What a call answers.
#[derive(Clone, Copy, PartialEq, Eq, Debug)]
pub enum Answer {
    /// Yes; from load: loaded; from length: measured; from name: found.
    Yes,
    /// No; from name: the empty part.
    No,
    /// A refusal with its number in documents 01 and 02.
    Refused(u8),
    /// First, next: a derivation of this many nodes (parts) is in the output.
    Nodes(usize),
    /// First: "no reading".
    NoDerivation,
    /// Next: "none".
    NoneLeft,
    /// Count: this many.
    Count(usize),
    /// Count: "more".
    More,
    /// Words: a text of this many bytes is in the buffer.
    Bytes(usize),
}

/// The code under test. Each call on an input is given the year in which it is read; one on a hand goes by the hand's.
/// What is lent for writing may hold anything before a call. What it holds afterwards is a result too, like the answer.
///
/// A reader over another one, its `inner`, has only the calls in which the two differ. All other calls go to the inner
/// reader.
pub trait Reader {
    /// The reader that answers every call that this one does not have. A reader that has all calls needs no inner one.
    fn inner(&self) -> &dyn Reader {
        unreachable!("a reader over no other one has all calls")
    }

    /// Whether first, next and count make the whole list, so that they cannot be called where it is too large.
    fn by_listing(&self) -> bool {
        self.inner().by_listing()
    }

    /// Always writes the grammar, and the offset with a refusal only.
    fn load(&self, book: &[u8], grammar: &mut FlatGrammar, offset: &mut usize) -> Answer {
        self.inner().load(book, grammar, offset)
    }

    /// Always writes the hand, which keeps the year and has no point set.
    fn open(&self, grammar: &FlatGrammar, year: u16, hand: &mut Hand, chart: &mut [u32]) -> Answer {
        self.inner().open(grammar, year, hand, chart)
    }

    /// Leaves the hand as found with a refusal.
    fn take(&self, grammar: &FlatGrammar, hand: &mut Hand, terminal: u8, chart: &mut [u32]) -> Answer {
        self.inner().take(grammar, hand, terminal, chart)
    }

    /// Leaves the hand as found with a refusal, and the chart always. It is lent for writing so that a fault can show.
    fn set_point(&self, grammar: &FlatGrammar, hand: &mut Hand, name: usize, chart: &mut [u32]) -> Answer {
        self.inner().set_point(grammar, hand, name, chart)
    }

    /// Leaves hand and chart as found with a refusal.
    fn return_to(&self, grammar: &FlatGrammar, hand: &mut Hand, name: usize, chart: &mut [u32]) -> Answer {
        self.inner().return_to(grammar, hand, name, chart)
    }

    /// Always writes the offset. Leaves grammar, hand and chart as found with a refusal.
    fn learn(
        &self,
        grammar: &mut FlatGrammar,
        hand: &mut Hand,
        bytes: &[u8],
        chart: &mut [u32],
        offset: &mut usize,
    ) -> Answer {
        self.inner().learn(grammar, hand, bytes, chart, offset)
    }

    fn check(&self, grammar: &FlatGrammar, input: &[u8], year: u16, offered: &[u16], chart: &mut [u32]) -> Answer {
        self.inner().check(grammar, input, year, offered, chart)
    }

    /// Writes the stack length, in tenths of a millimetre, with `Yes` only.
    fn length(
        &self,
        grammar: &FlatGrammar,
        input: &[u8],
        year: u16,
        offered: &[u16],
        chart: &mut [u32],
        tenths: &mut i32,
    ) -> Answer {
        self.inner().length(grammar, input, year, offered, chart, tenths)
    }

    fn same_build(
        &self,
        grammar: &FlatGrammar,
        input: &[u8],
        year: u16,
        one: &[u16],
        other: &[u16],
        chart: &mut [u32],
    ) -> Answer {
        self.inner().same_build(grammar, input, year, one, other, chart)
    }

    /// Writes the front of the output and the number of nodes, with `Nodes` only.
    fn first(
        &self,
        grammar: &FlatGrammar,
        input: &[u8],
        year: u16,
        chart: &mut [u32],
        out: &mut [u16],
        nodes: &mut usize,
    ) -> Answer {
        self.inner().first(grammar, input, year, chart, out, nodes)
    }

    /// Writes as `first` does. The offered row does not overlap the output.
    #[allow(clippy::too_many_arguments)] // as many as the call has
    fn next(
        &self,
        grammar: &FlatGrammar,
        input: &[u8],
        year: u16,
        offered: &[u16],
        chart: &mut [u32],
        out: &mut [u16],
        nodes: &mut usize,
    ) -> Answer {
        self.inner().next(grammar, input, year, offered, chart, out, nodes)
    }

    /// Writes the count with `Count` only.
    fn count(&self, grammar: &FlatGrammar, input: &[u8], year: u16, chart: &mut [u32], count: &mut usize) -> Answer {
        self.inner().count(grammar, input, year, chart, count)
    }

    /// Writes the front of the buffer and the number of bytes, with `Bytes` only.
    #[allow(clippy::too_many_arguments)] // as many as the call has
    fn words(
        &self,
        grammar: &FlatGrammar,
        input: &[u8],
        year: u16,
        offered: &[u16],
        chart: &mut [u32],
        buffer: &mut [u8],
        bytes: &mut usize,
    ) -> Answer {
        self.inner().words(grammar, input, year, offered, chart, buffer, bytes)
    }

    /// The part of the book that is the name of a rule, without its filling. Writes offset and length with `Yes` only.
    fn name(&self, book: &[u8], rule: usize, offset: &mut usize, length: &mut usize) -> Answer {
        self.inner().name(book, rule, offset, length)
    }
}
