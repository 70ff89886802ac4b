//! What the listing program must print for the bytes of a book and of a plate, in a year, from documents 01 and 02 alone.

mod in_order;

pub use in_order::in_order;

use crate::lister::grammar::{self, Grammar};
use crate::lister::listing::{derivations, TooLarge};
use crate::lister::trees::{self, Row, LIMIT};
use crate::lister::{has_tree, STEPS};
use crate::reader::INPUT;

/// The most readings that are printed and counted.
pub const MOST: usize = 4096;
/// Steps of the search in order, after which a list is called too large.
const SEARCH_STEPS: u64 = 1_000_000;

/// What is printed: "the book is judged first", then the plate (check 9), then its trees in its year. If the list is too
/// large, only the part that is printed is searched for.
pub fn text(book: &[u8], plate: &[u8], year: u16) -> Result<Vec<u8>, TooLarge> {
    let grammar = match judged(book, plate, year) {
        Ok(grammar) => grammar,
        Err(number) => return Ok(refused(number)),
    };
    let list = derivations(&grammar, plate, LIMIT, STEPS)
        .or_else(|TooLarge| in_order(&grammar, plate, LIMIT, MOST + 1, SEARCH_STEPS))?;
    Ok(list_text(&grammar, &list, has_tree(&grammar, plate)))
}

/// The grammar of the year, if the book loads and check 9 accepts the plate; or the refusal's number.
pub fn judged(book: &[u8], plate: &[u8], year: u16) -> Result<Grammar, u8> {
    let grammar = grammar::load(book).map_err(|(number, _)| number)?;
    match plate.len() {
        0..=INPUT => Ok(grammar.in_year(year)),
        _ => Err(9),
    }
}

/// The text for the list of all readings, or for the first 4,097 of them.
pub fn list_text(grammar: &Grammar, list: &[Row], tree: bool) -> Vec<u8> {
    match (list.len(), tree) {
        (0, true) => return refused(13),
        (0, false) => return b"NO READING\n".to_vec(),
        _ => (),
    }
    let shown = &list[..list.len().min(MOST)];
    let mut text: String = shown.iter().enumerate().map(|(at, row)| line(grammar, at + 1, row)).collect();
    text += &match list.len() {
        n if n <= MOST => format!("READINGS {n}\n"),
        _ => "READINGS more\n".to_string(),
    };
    text.into_bytes()
}

/// "Its place in the list from 1, a colon, then each part as marks covered, point, rule;
/// an equals sign; the length in tenths", with the single spaces.
pub fn line(grammar: &Grammar, place: usize, row: &[u16]) -> String {
    let parts: Vec<String> = row.chunks(2).map(|part| format!("{}.{}", part[0], part[1])).collect();
    format!("{place}: {} = {}\n", parts.join(" "), trees::tenths(grammar, row))
}

/// "A refusal prints `REFUSED` and its number."
fn refused(number: u8) -> Vec<u8> {
    format!("REFUSED {number}\n").into_bytes()
}
