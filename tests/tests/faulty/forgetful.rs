//! The lister, except that it leaves one lent place, or all of them, as found: a library that writes nothing there
//! must be caught.

use outside_tests::lister::Lister;
use outside_tests::reader::{Answer, FlatGrammar, Hand, Reader};

/// What is left as found.
#[derive(Clone, Copy, PartialEq, Eq, Debug)]
pub enum Forgets {
    Row,
    Offset,
    OpenedHand,
    TakenHand,
    SetHand,
    ReturnedHand,
    ReturnedChart,
    LearntRow,
    LearntHand,
    LearntChart,
    LearntOffset,
    Tenths,
    OpenedChart,
    TakenChart,
    CheckedChart,
    MeasuredChart,
    ComparedChart,
    ListedChart,
    Output,
    Nodes,
    Count,
    WordsChart,
    Buffer,
    Bytes,
    NameOffset,
    NameLength,
    Everything,
    /// Nothing: this is the lister itself.
    Nothing,
}

impl Forgets {
    /// Every one that forgets something.
    pub const ALL: [Forgets; 27] = [
        Forgets::Row,
        Forgets::Offset,
        Forgets::OpenedHand,
        Forgets::TakenHand,
        Forgets::SetHand,
        Forgets::ReturnedHand,
        Forgets::ReturnedChart,
        Forgets::LearntRow,
        Forgets::LearntHand,
        Forgets::LearntChart,
        Forgets::LearntOffset,
        Forgets::Tenths,
        Forgets::OpenedChart,
        Forgets::TakenChart,
        Forgets::CheckedChart,
        Forgets::MeasuredChart,
        Forgets::ComparedChart,
        Forgets::ListedChart,
        Forgets::Output,
        Forgets::Nodes,
        Forgets::Count,
        Forgets::WordsChart,
        Forgets::Buffer,
        Forgets::Bytes,
        Forgets::NameOffset,
        Forgets::NameLength,
        Forgets::Everything,
    ];

    fn place<T: Copy, A>(self, which: Forgets, place: &mut T, call: impl FnOnce(&mut T) -> A) -> A {
        self.slice(which, std::slice::from_mut(place), |place| call(&mut place[0]))
    }

    /// Calls with what is lent; where this reader forgets, with a copy of it.
    fn slice<T: Copy, A>(self, which: Forgets, lent: &mut [T], call: impl FnOnce(&mut [T]) -> A) -> A {
        if self == which || self == Forgets::Everything {
            call(&mut lent.to_vec())
        } else {
            call(lent)
        }
    }
}

impl Reader for Forgets {
    fn inner(&self) -> &dyn Reader {
        &Lister
    }

    fn load(&self, book: &[u8], grammar: &mut FlatGrammar, offset: &mut usize) -> Answer {
        self.place(Forgets::Row, grammar, |g| self.place(Forgets::Offset, offset, |at| Lister.load(book, g, at)))
    }

    fn open(&self, grammar: &FlatGrammar, year: u16, hand: &mut Hand, chart: &mut [u32]) -> Answer {
        self.place(Forgets::OpenedHand, hand, |h| {
            self.slice(Forgets::OpenedChart, chart, |c| Lister.open(grammar, year, h, c))
        })
    }

    fn take(&self, grammar: &FlatGrammar, hand: &mut Hand, terminal: u8, chart: &mut [u32]) -> Answer {
        self.place(Forgets::TakenHand, hand, |h| {
            self.slice(Forgets::TakenChart, chart, |c| Lister.take(grammar, h, terminal, c))
        })
    }

    fn set_point(&self, grammar: &FlatGrammar, hand: &mut Hand, name: usize, chart: &mut [u32]) -> Answer {
        self.place(Forgets::SetHand, hand, |h| Lister.set_point(grammar, h, name, chart))
    }

    fn return_to(&self, grammar: &FlatGrammar, hand: &mut Hand, name: usize, chart: &mut [u32]) -> Answer {
        self.place(Forgets::ReturnedHand, hand, |h| {
            self.slice(Forgets::ReturnedChart, chart, |c| Lister.return_to(grammar, h, name, c))
        })
    }

    fn learn(
        &self,
        grammar: &mut FlatGrammar,
        hand: &mut Hand,
        bytes: &[u8],
        chart: &mut [u32],
        offset: &mut usize,
    ) -> Answer {
        self.place(Forgets::LearntRow, grammar, |g| {
            self.place(Forgets::LearntHand, hand, |h| {
                self.slice(Forgets::LearntChart, chart, |c| {
                    self.place(Forgets::LearntOffset, offset, |at| Lister.learn(g, h, bytes, c, at))
                })
            })
        })
    }

    fn check(&self, grammar: &FlatGrammar, input: &[u8], year: u16, offered: &[u16], chart: &mut [u32]) -> Answer {
        self.slice(Forgets::CheckedChart, chart, |c| Lister.check(grammar, input, year, offered, c))
    }

    fn length(
        &self,
        grammar: &FlatGrammar,
        input: &[u8],
        year: u16,
        offered: &[u16],
        chart: &mut [u32],
        tenths: &mut i32,
    ) -> Answer {
        self.place(Forgets::Tenths, tenths, |t| {
            self.slice(Forgets::MeasuredChart, chart, |c| Lister.length(grammar, input, year, offered, c, t))
        })
    }

    fn same_build(
        &self,
        grammar: &FlatGrammar,
        input: &[u8],
        year: u16,
        one: &[u16],
        other: &[u16],
        chart: &mut [u32],
    ) -> Answer {
        self.slice(Forgets::ComparedChart, chart, |c| Lister.same_build(grammar, input, year, one, other, c))
    }

    fn first(
        &self,
        grammar: &FlatGrammar,
        input: &[u8],
        year: u16,
        chart: &mut [u32],
        out: &mut [u16],
        nodes: &mut usize,
    ) -> Answer {
        self.slice(Forgets::ListedChart, chart, |c| {
            self.slice(Forgets::Output, out, |o| {
                self.place(Forgets::Nodes, nodes, |n| Lister.first(grammar, input, year, c, o, n))
            })
        })
    }

    fn next(
        &self,
        grammar: &FlatGrammar,
        input: &[u8],
        year: u16,
        offered: &[u16],
        chart: &mut [u32],
        out: &mut [u16],
        nodes: &mut usize,
    ) -> Answer {
        self.slice(Forgets::ListedChart, chart, |c| {
            self.slice(Forgets::Output, out, |o| {
                self.place(Forgets::Nodes, nodes, |n| Lister.next(grammar, input, year, offered, c, o, n))
            })
        })
    }

    fn count(&self, grammar: &FlatGrammar, input: &[u8], year: u16, chart: &mut [u32], count: &mut usize) -> Answer {
        self.slice(Forgets::ListedChart, chart, |c| {
            self.place(Forgets::Count, count, |n| Lister.count(grammar, input, year, c, n))
        })
    }

    fn words(
        &self,
        grammar: &FlatGrammar,
        input: &[u8],
        year: u16,
        offered: &[u16],
        chart: &mut [u32],
        buffer: &mut [u8],
        bytes: &mut usize,
    ) -> Answer {
        self.slice(Forgets::WordsChart, chart, |c| {
            self.slice(Forgets::Buffer, buffer, |b| {
                self.place(Forgets::Bytes, bytes, |n| Lister.words(grammar, input, year, offered, c, b, n))
            })
        })
    }

    fn name(&self, book: &[u8], rule: usize, offset: &mut usize, length: &mut usize) -> Answer {
        self.place(Forgets::NameOffset, offset, |at| {
            self.place(Forgets::NameLength, length, |n| Lister.name(book, rule, at, n))
        })
    }
}
