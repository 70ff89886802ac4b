//! Draws readings as indented trees: for each node its rule, the marks that it covers, and the length of its rule.
use filbozseg::{load, Error, Node, Reading};
use std::fmt::Write;

/// 0 -> 1 0 (10), 0 -> 1 (20), 1 -> A 2 B (30), 2 -> nothing (-5), 2 -> C (25).
const BOOK: &[u8] = b"\x10\x00\x20\x00\x0a\x00\x30\x01\x30\x00\x20\x00\x14\x00\x30\x01\
    \x20\x01\x1e\x00\x40A\x30\x02\x40B\x20\x02\xfb\xff\x20\x02\x19\x00\x40C\x50";
const PLATE: &[u8] = b"ABACB";
/// Its year: any, since the book holds in all years.
const YEAR: u16 = 2008;

/// Hundredths of a millimetre, as millimetres.
fn millimetres(hundredths: i16) -> String {
    let sign = if hundredths < 0 { "-" } else { "" };
    let size = hundredths.unsigned_abs();
    format!("{sign}{}.{:02} mm", size / 100, size % 100)
}

/// The line of a node, indented by two spaces for each node above it.
fn line(plate: &[u8], node: Node<'_>) -> String {
    let rule = node.rule();
    let marks = match node.marks() {
        marks if marks.is_empty() => format!("nothing at {}", marks.start),
        marks => format!("{} to {} \"{}\"", marks.start, marks.end, plate[marks.clone()].escape_ascii()),
    };
    let tree = format!("{:blanks$}rule {}: {rule}", "", rule.number(), blanks = 2 * node.depth());
    format!("{tree:28} {marks:16} {:>8}", millimetres(rule.length()))
}

/// The picture of a reading: its line as document 01 prints it, then a line for each node.
pub fn picture(plate: &[u8], reading: &Reading) -> String {
    let mut text = format!("{reading} = {}\n", reading.length());
    for node in reading.nodes() {
        writeln!(text, "{}", line(plate, node)).expect("a string takes all");
    }
    text
}

/// The pictures of all readings of the plate.
pub fn pictures() -> Result<String, Error> {
    let grammar = load(BOOK)?;
    grammar.readings(PLATE, YEAR).map(|reading| Ok(picture(PLATE, &reading?))).collect()
}

#[allow(dead_code)] // a test includes this file and does not call `main`
fn main() -> Result<(), Error> {
    print!("{}", pictures()?);
    Ok(())
}
