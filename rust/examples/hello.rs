//! Book T of document 01: 0 -> 1 1 (4,600), 1 -> nothing (0), 1 -> A (25).
use filbozseg::{check, count, length, load, open, Error, CELLS};

/// The plate's year: any, since the book holds in all years.
const YEAR: u16 = 2008;

fn main() -> Result<(), Error> {
    let book = b"\x10\x00\x20\x00\xf8\x11\x30\x01\x30\x01\x20\x01\x00\x00\x20\x01\x19\x00\x40A\x50";
    let grammar = load(book)?;
    let mut chart = vec![0; CELLS];
    let (mut plate, complete) = open(&grammar, YEAR, &mut chart);
    println!("nothing complete: {}", complete?);
    println!("A complete: {}", plate.take(&grammar, b'A', &mut chart)?);
    println!("in hand: {:?}, year {}", plate.bytes(), plate.year());
    for reading in grammar.readings(b"A", YEAR) {
        let reading = reading?;
        println!("reading: {reading}, {} tenths", length(&grammar, b"A", YEAR, reading.numbers(), &mut chart)?);
    }
    println!("count: {}", count(&grammar, b"A", YEAR, &mut chart)?);
    println!("a stranger: {}", check(&grammar, b"A", YEAR, &[1, 2], &mut chart)?);
    let fault = load(b"\x10\x20").expect_err("the book is refused");
    println!("{fault}");
    Ok(())
}
