//! The library, except for one answer on inputs with more than 4,096 derivations.

use outside_tests::library::Library;
use outside_tests::reader::{Answer, FlatGrammar, Reader};

/// What is wrong where there are more than 4,096.
#[derive(Clone, Copy, PartialEq, Eq, Debug)]
pub enum Large {
    FirstHandsOutTheSecond,
    NextSkipsOne,
    NextHandsBack,
    NoneAfterAny,
    CountedTo4096,
}

impl Large {
    pub const ALL: [Large; 5] = [
        Large::FirstHandsOutTheSecond,
        Large::NextSkipsOne,
        Large::NextHandsBack,
        Large::NoneAfterAny,
        Large::CountedTo4096,
    ];

    /// Whether this is the fault, and the input shows it.
    fn shows(self, which: Large, flat: &FlatGrammar, input: &[u8], year: u16, chart: &mut [u32]) -> bool {
        self == which && Library.count(flat, input, year, chart, &mut 0) == Answer::More
    }
}

impl Reader for Large {
    fn inner(&self) -> &dyn Reader {
        &Library
    }

    fn first(
        &self,
        flat: &FlatGrammar,
        input: &[u8],
        year: u16,
        chart: &mut [u32],
        out: &mut [u16],
        nodes: &mut usize,
    ) -> Answer {
        match Library.first(flat, input, year, chart, out, nodes) {
            Answer::Nodes(n) if self.shows(Large::FirstHandsOutTheSecond, flat, input, year, chart) => {
                let first = out[..2 * n].to_vec();
                Library.next(flat, input, year, &first, chart, out, nodes)
            }
            answer => answer,
        }
    }

    fn next(
        &self,
        flat: &FlatGrammar,
        input: &[u8],
        year: u16,
        offered: &[u16],
        chart: &mut [u32],
        out: &mut [u16],
        nodes: &mut usize,
    ) -> Answer {
        let (found, found_nodes) = (out.to_vec(), *nodes);
        match Library.next(flat, input, year, offered, chart, out, nodes) {
            Answer::Nodes(n) if self.shows(Large::NextSkipsOne, flat, input, year, chart) => {
                let next = out[..2 * n].to_vec();
                Library.next(flat, input, year, &next, chart, out, nodes)
            }
            Answer::Nodes(_) if self.shows(Large::NextHandsBack, flat, input, year, chart) => {
                out.copy_from_slice(&found);
                out[..offered.len()].copy_from_slice(offered);
                *nodes = offered.len() / 2;
                Answer::Nodes(*nodes)
            }
            Answer::Nodes(_) if self.shows(Large::NoneAfterAny, flat, input, year, chart) => {
                out.copy_from_slice(&found);
                *nodes = found_nodes;
                Answer::NoneLeft
            }
            answer => answer,
        }
    }

    fn count(&self, flat: &FlatGrammar, input: &[u8], year: u16, chart: &mut [u32], count: &mut usize) -> Answer {
        match Library.count(flat, input, year, chart, count) {
            Answer::More if *self == Large::CountedTo4096 => {
                *count = 4096;
                Answer::Count(4096)
            }
            answer => answer,
        }
    }
}
