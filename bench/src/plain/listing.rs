//! The text of the listing program, written in pieces of up to 64 KiB.

use super::checker::{filled, judge, rounded};
use super::enumerator::list_filled;
use super::{loader, Grammar, Refusal, CHART};
use std::io::{Result, Write};

/// How much is kept before it is written.
const BUFFER: usize = 65_536;
/// No line is longer: 512 nodes of at most 7 bytes, and 20 further bytes.
const LINE: usize = 4096;

struct Text<W: Write> {
    buffer: Vec<u8>,
    out: W,
    written: Result<()>,
}

impl<W: Write> Text<W> {
    fn flush(&mut self) {
        if self.written.is_ok() {
            self.written = self.out.write_all(&self.buffer);
        }
        self.buffer.clear();
    }

    fn number(&mut self, mut n: u32) {
        let (mut digits, mut at) = ([0; 10], 10);
        loop {
            at -= 1;
            digits[at] = b'0' + (n % 10) as u8;
            n /= 10;
            if n == 0 {
                break;
            }
        }
        self.buffer.extend_from_slice(&digits[at..]);
    }

    /// Adds the line of a reading. Returns whether the text goes on.
    fn line(&mut self, g: &Grammar, place: usize, row: &[u16]) -> bool {
        if self.buffer.len() > BUFFER - LINE {
            self.flush();
        }
        self.number(place as u32);
        self.buffer.push(b':');
        let mut sum = 0;
        for node in row.chunks_exact(2) {
            self.buffer.push(b' ');
            self.number(node[0] as u32);
            self.buffer.push(b'.');
            self.number(node[1] as u32);
            sum += g.rules[node[1] as usize].length as i32;
        }
        self.buffer.extend_from_slice(b" = ");
        let tenths = rounded(sum);
        if tenths < 0 {
            self.buffer.push(b'-');
        }
        self.number(tenths.unsigned_abs());
        self.buffer.push(b'\n');
        self.written.is_ok()
    }

    /// The last line.
    fn ended(&mut self, count: std::result::Result<Option<usize>, Refusal>) {
        match count {
            Ok(Some(0)) => self.buffer.extend_from_slice(b"NO READING\n"),
            Ok(Some(n)) => {
                self.buffer.extend_from_slice(b"READINGS ");
                self.number(n as u32);
                self.buffer.push(b'\n');
            }
            Ok(None) => self.buffer.extend_from_slice(b"READINGS more\n"),
            Err(refusal) => {
                self.buffer.extend_from_slice(b"REFUSED ");
                self.number(u32::from(refusal.number()));
                self.buffer.push(b'\n');
            }
        }
    }
}

/// Writes what the program prints for the bytes of a book and of a plate in a year.
pub fn list(book: &[u8], plate: &[u8], year: u16, out: impl Write) -> Result<()> {
    let mut text = Text { buffer: Vec::with_capacity(BUFFER), out, written: Ok(()) };
    let count = loader::load(book).map_err(|(refusal, _)| refusal).and_then(|g| {
        let mut chart = [0; CHART];
        judge(&g, plate, &chart)?;
        let p = filled(&g, plate, year, &mut chart);
        list_filled(&p, g.start as usize, plate, &chart, |place, row| text.line(&g, place, row))
    });
    text.ended(count);
    text.flush();
    text.written
}
