//! Loading a book and damaged copies of it: the answer, the offset and the whole row.

use super::lent::{offset, row, same, Lent};
use super::Comparison;
use crate::books::{damage, full_and_more, soup};
use crate::lister::grammar::{self, Grammar, Symbol};
use crate::lister::{depth, Lister};
use crate::reader::{Answer, FlatGrammar, Reader, FLAT};

impl Comparison<'_> {
    /// Loads the book damaged, cut, and cut with one or two commands begun after the cut; and at times one of 128 rules or
    /// one more.
    pub(super) fn other_loads(&mut self, book: &[u8]) -> Result<(), String> {
        for number in 0..30 {
            let mut bytes = if number % 6 == 5 { soup(&mut self.rng) } else { book.to_vec() };
            if number % 2 == 0 {
                damage(&mut self.rng, &mut bytes);
            } else {
                bytes.truncate(self.rng.below(bytes.len() + 1));
                for _ in 0..self.rng.below(4) {
                    bytes
                        .push(self.rng.pick(&[0x10, 0x20, 0x30, 0x40, 0x50, 0x60, 0x00, 0x1F, 0x41, 0x41, 0x21, 0xFF]));
                }
            }
            self.load(&bytes, "other load").map_err(|what| format!("as {bytes:02X?}: {what}"))?;
        }
        if self.rng.one_in(4) {
            let bytes = full_and_more(&mut self.rng);
            self.load(&bytes, "other load").map_err(|what| format!("as {bytes:02X?}: {what}"))?;
        }
        Ok(())
    }

    /// Loads into a row and an offset of rubbish. The whole row must be written, the offset only with a refusal. Returns
    /// the grammar.
    pub fn load(&mut self, book: &[u8], name: &str) -> Result<Option<FlatGrammar>, String> {
        let lent = Lent::of(book, 0x10);
        let before = lent.clone();
        let (found, found_at) = (row(&mut self.rng), offset(&mut self.rng));
        let (mut got, mut got_at) = (found, found_at);
        let (mut due, mut due_at) = (found, found_at);
        let answer = self.reader.load(lent.part(), &mut got, &mut got_at);
        let due_answer = Lister.load(book, &mut due, &mut due_at);
        lent.against(&before, "load: the book's bytes")?;
        same("load: answer and offset", (answer, got_at), (due_answer, due_at))?;
        for at in 0..FLAT {
            same("load: the row, index and number", (at, got[at]), (at, due[at]))?;
        }
        if let Answer::Refused(number) = answer {
            same("the lister's row and offset, refused", due == [0; FLAT] && due_at <= book.len(), true)?;
            self.counts.add(&format!("{name}: refused {number}"));
            self.why_named(book, number, due_at);
            self.lookups(book, None, name)?;
            return Ok(None);
        }
        same("the lister's offset, loaded", due_at, found_at)?;
        let grammar = grammar::from_flat(&due).expect("a loaded grammar passes check 8");
        self.loaded(&grammar, due[2], name);
        self.named_places(book, name);
        self.lookups(book, Some(&grammar), name)?;
        Ok(Some(got))
    }

    /// Counts what comes up in a loaded grammar of this depth.
    fn loaded(&mut self, grammar: &Grammar, depth: u16, name: &str) {
        self.counts
            .add(&format!("{name}: depth {}", if depth < 4 { depth.to_string() } else { "4 or more".to_string() }));
        if usize::from(depth) < depth::empty_heights(grammar).iter().flatten().count() {
            self.counts.add(&format!("{name}: depth below the number of nullable kinds"));
        }
        for (_, rule) in grammar.numbered() {
            let what = match (rule.first, rule.last) {
                (0, u16::MAX) => "a rule of all years",
                (first, last) if first == last => "a rule of one year",
                _ => "a rule of some years",
            };
            self.counts.add(&format!("{name}: {what}"));
        }
        for place in grammar.numbered().flat_map(|(_, rule)| &rule.places) {
            if let Symbol::Range(low, high) = *place {
                self.counts
                    .add(&format!("{name}: a place for {}", if low == high { "one byte" } else { "several bytes" }));
            }
        }
    }
}
