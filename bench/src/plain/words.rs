//! The text of a derivation. Its length comes first, as a sum over the nodes; then a node writes itself, and calls
//! itself for each node below it.

use super::checker::{filled, is_derivation, judge};
use super::names::{end, Name, NONE};
use super::packed::Packed;
use super::{Grammar, Refusal};

/// How many bytes the text of a rule has.
fn rule_length(name: &Name) -> usize {
    if *name == NONE {
        4
    } else {
        end(name)
    }
}

/// The length of the text: for each node its rule, two brackets and the commas, and three for each byte of the input.
fn length(g: &Grammar, input: &[u8], offered: &[u16]) -> usize {
    let node = |r: usize| rule_length(&g.rules[r].name) + 2 + g.rules[r].count.saturating_sub(1);
    3 * input.len() + offered.chunks_exact(2).map(|part| node(part[1] as usize)).sum::<usize>()
}

/// A digit up to 15, in capitals.
fn digit(d: u8) -> u8 {
    if d < 10 {
        b'0' + d
    } else {
        b'A' + d - 10
    }
}

/// What stays the same while a text is written, and where the writer is: at a node, at a byte, at a byte of the buffer.
struct Writer<'a> {
    g: &'a Grammar,
    p: &'a Packed,
    w: &'a [u8],
    e: &'a [u16],
    buffer: &'a mut [u8],
    node: usize,
    byte: usize,
    at: usize,
}

impl Writer<'_> {
    fn put(&mut self, bytes: &[u8]) {
        self.buffer[self.at..self.at + bytes.len()].copy_from_slice(bytes);
        self.at += bytes.len();
    }

    fn put_rule(&mut self, r: usize) {
        let name = self.g.rules[r].name;
        if name == NONE {
            let n = r as u8;
            self.put(&[b'#', digit(n / 100), digit(n / 10 % 10), digit(n % 10)]);
        } else {
            self.put(&name[..end(&name)]);
        }
    }

    fn put_leaf(&mut self) {
        let byte = self.w[self.byte];
        self.put(&[b'=', digit(byte / 16), digit(byte % 16)]);
        self.byte += 1;
    }

    fn put_node(&mut self) {
        let r = self.e[2 * self.node + 1] as usize;
        self.node += 1;
        self.put_rule(r);
        self.put(b"(");
        let p = self.p;
        for (q, place) in p.rules[r].places().iter().enumerate() {
            if q > 0 {
                self.put(b",");
            }
            if place.is_nonterminal() {
                self.put_node();
            } else {
                self.put_leaf();
            }
        }
        self.put(b")");
    }
}

pub fn words(
    g: &Grammar,
    input: &[u8],
    year: u16,
    offered: &[u16],
    chart: &mut [u32],
    buffer: &mut [u8],
) -> Result<usize, Refusal> {
    judge(g, input, chart)?;
    let p = filled(g, input, year, chart);
    if !is_derivation(&p, g.start as usize, input, offered) {
        return Err(Refusal::NotADerivation);
    }
    let bytes = length(g, input, offered);
    if buffer.len() < bytes {
        return Err(Refusal::TextTooLong);
    }
    Writer { g, p: &p, w: input, e: offered, buffer, node: 0, byte: 0, at: 0 }.put_node();
    Ok(bytes)
}
