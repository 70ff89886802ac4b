//! The listing program in plain Rust. It reads the book from `book.bin` and the year from `year.bin` in the current
//! folder, and the plate from standard input.

use bench::plain::listing::list;
use std::fs::File;
use std::io::{stdin, stdout, Read, Result};
use std::os::fd::AsFd;

/// Every book is decided by fewer bytes than this, every plate by 65, and every year by 3.
const BOOK: u64 = 8192;
const PLATE: u64 = 65;
const YEAR: u64 = 3;

/// At most this many bytes, or none if they cannot be read.
fn bytes(from: Result<impl Read>, most: u64) -> Vec<u8> {
    let mut bytes = Vec::new();
    match from.and_then(|from| from.take(most).read_to_end(&mut bytes)) {
        Ok(_) => bytes,
        Err(_) => Vec::new(),
    }
}

fn main() {
    let book = bytes(File::open("book.bin"), BOOK);
    let plate = bytes(Ok(stdin().lock()), PLATE);
    let year = match bytes(File::open("year.bin"), YEAR)[..] {
        [low, high] => u16::from_le_bytes([low, high]),
        _ => 0,
    };
    // Not through std's standard output: that keeps what follows the last newline and writes it separately.
    let written = stdout().as_fd().try_clone_to_owned().and_then(|out| list(&book, &plate, year, File::from(out)));
    if let Err(error) = written {
        eprintln!("write: {error}");
    }
}
