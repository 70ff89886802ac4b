//! The example that adds the texts to a listing.
mod books;
#[path = "../examples/words.rs"]
mod words;

use books::{NAMED, PAIRS, T, YEAR};
use words::with_texts;

#[test]
fn each_line_of_a_reading_is_followed_by_its_text() {
    let listing = "1: 1.0 0.1 1.2 = 462\n2: 1.0 1.2 0.1 = 462\nREADINGS 2\n";
    let due = "1: 1.0 0.1 1.2 = 462\n   BODY(#001(),PORT(=41))\n2: 1.0 1.2 0.1 = 462\n   BODY(PORT(=41),#001())\nREADINGS 2\n";
    assert_eq!(with_texts(NAMED, b"A", YEAR, listing).as_deref(), Ok(due));
    let due = due.replace("BODY", "#000").replace("PORT", "#002");
    assert_eq!(with_texts(T, b"A", YEAR, listing), Ok(due));
}

#[test]
fn a_listing_without_readings_stays_as_it_is() {
    for (book, listing) in
        [(T, "NO READING\n"), (&T[..9], "REFUSED 1\n"), (b"", "REFUSED 1\n"), (T, "REFUSED 9\n"), (T, "")]
    {
        assert_eq!(with_texts(book, b"B", YEAR, listing).as_deref(), Ok(listing));
    }
}

/// The listing program hands out only readings of the plate, so such a line is of another listing.
#[test]
fn a_line_of_another_listing_is_named() {
    let line = "1: 1.0 0.1 1.2 = 462\n";
    let due = "1: 1.0 0.1 1.2 = 462: what is offered is no reading of the input (refusal 12)";
    assert_eq!(with_texts(PAIRS, b"A", YEAR, line), Err(due.to_string()));
    assert!(with_texts(&T[..9], b"A", YEAR, line).unwrap_err().starts_with("the book is refused at offset 9: "));
}
