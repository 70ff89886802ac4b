//! Books that several tests use.
#![allow(dead_code)] // each test file uses only some of them

use filbozseg::{load, Grammar};

/// The year that inputs are read in: any, since these books hold in all years.
pub const YEAR: u16 = 2008;

/// Book T of document 01: 0 -> 1 1 (4,600), 1 -> nothing (0), 1 -> A (25).
pub const T: &[u8] = b"\x10\x00\x20\x00\xf8\x11\x30\x01\x30\x01\x20\x01\x00\x00\x20\x01\x19\x00\x40A\x50";

/// T with its rule 0 named BODY, after its places, and its rule 2 named PORT, before them.
pub const NAMED: &[u8] = b"\x10\x00\x20\x00\xf8\x11\x30\x01\x30\x01\x60BODY    \x20\x01\x00\x00\
    \x20\x01\x19\x00\x60PORT    \x40A\x50";

/// 0 -> 0 0, 0 -> A.
pub const PAIRS: &[u8] = b"\x10\x00\x20\x00\x00\x00\x30\x00\x30\x00\x20\x00\x00\x00\x40A\x50";

/// 0 -> 1 0, 0 -> 1, 1 -> A 2 B, 1 -> 2 2, 2 -> nothing, 2 -> C: terminals before and after nonterminals, and empty nodes between them.
pub const MIXED: &[u8] =
    b"\x10\x00\x20\x00\x00\x00\x30\x01\x30\x00\x20\x00\x00\x00\x30\x01\x20\x01\x00\x00\x40A\x30\x02\x40B\
    \x20\x01\x00\x00\x30\x02\x30\x02\x20\x02\x00\x00\x20\x02\x00\x00\x40C\x50";

/// 0 -> 1 0, 0 -> 1, 1 -> V 0..9 0..9 (a bore of two digits), 1 -> V 1 2, 2 -> 00..FF.
pub const RANGES: &[u8] =
    b"\x10\x00\x20\x00\x00\x00\x30\x01\x30\x00\x20\x00\x00\x00\x30\x01\x20\x01\x00\x00\x40V\x4109\x4109\
    \x20\x01\x00\x00\x40V\x401\x30\x02\x20\x02\x00\x00\x41\x00\xff\x50";

/// 0 -> 1 1, 1 -> nothing (25), 1 -> nothing (-10): an input of no bytes has four derivations.
pub const BLANK_TWINS: &[u8] = b"\x10\x00\x20\x00\x00\x00\x30\x01\x30\x01\x20\x01\x19\x00\x20\x01\xf6\xff\x50";

/// k -> k+1 for k = 0..30, 31 -> A A A A 0, 31 -> A A A A: the reading of 64 bytes has 512 nodes, each but the last with one child.
pub fn deep() -> Grammar {
    let mut book = vec![0x10, 0];
    (0..31).for_each(|k| book.extend([0x20, k, 1, 0, 0x30, k + 1]));
    book.extend(b"\x20\x1f\x01\x00\x40A\x40A\x40A\x40A\x30\x00\x20\x1f\x01\x00\x40A\x40A\x40A\x40A\x50");
    load(&book).unwrap()
}

/// 0 -> A and seven of 1, 1 -> eight of 2, 2 -> eight of 3, 3 -> nothing, 4 -> 0: the reading of A has 512 nodes from 0, and its tree 513
/// from 4.
pub fn wide(start: u8) -> Grammar {
    let mut book = vec![0x10, start];
    book.extend(b"\x20\x00\x00\x00\x40A");
    book.extend([0x30, 1].repeat(7));
    book.extend([&[0x20, 1, 0, 0][..], &[0x30, 2].repeat(8), &[0x20, 2, 0, 0], &[0x30, 3].repeat(8)].concat());
    book.extend(b"\x20\x03\x00\x00\x20\x04\x00\x00\x30\x00\x50");
    load(&book).unwrap()
}
