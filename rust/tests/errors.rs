//! The errors say in words what is wrong and where.
mod books;

use books::{PAIRS, T, YEAR};
use filbozseg::*;
use std::error::Error as _;

#[test]
fn a_refused_book_says_where_and_why() {
    let fault = load(&T[..9]).unwrap_err();
    let due = "the book is refused at offset 9: the book ends inside a command, or where a command is due (refusal 1)";
    assert_eq!(fault.to_string(), due);
    assert!(fault.source().is_none(), "its text has all");
    assert_eq!(format!("{fault:?}"), "LoadError { refusal: UnexpectedEnd, offset: 9, .. }");
}

#[test]
fn each_refusal_has_a_sentence_of_its_own() {
    let mut sentences: Vec<_> = Refusal::ALL.iter().map(Refusal::to_string).collect();
    for (refusal, sentence) in Refusal::ALL.iter().zip(&sentences) {
        assert!(sentence.ends_with(&format!(" (refusal {})", refusal.number())), "{sentence}");
        assert!(sentence.starts_with(char::is_lowercase) && !sentence.contains(&format!("{refusal:?}")), "{sentence}");
    }
    sentences.sort();
    sentences.dedup();
    assert_eq!(sentences.len(), Refusal::ALL.len());
}

#[test]
fn one_error_holds_both() {
    fn listed(book: &[u8], input: &[u8]) -> Result<usize, Error> {
        load(book)?.readings(input, YEAR).map(|reading| Ok(reading.map(|_| 1)?)).sum()
    }
    fn boxed(book: &[u8]) -> Result<Grammar, Box<dyn std::error::Error + Send + Sync>> {
        Ok(load(book)?)
    }
    assert_eq!(listed(PAIRS, b"AAAA"), Ok(5));
    let (book, input) = (listed(b"\x99", b"A").unwrap_err(), listed(T, &[b'A'; 65]).unwrap_err());
    let due = "the book is refused at offset 0: a byte of the book is no command (refusal 2)";
    assert_eq!((book.to_string(), book.refusal()), (due.into(), Refusal::UnknownCommand));
    assert_eq!((input.to_string(), &input), (Refusal::InputLength.to_string(), &Error::Refused(Refusal::InputLength)));
    assert!(
        input.source().is_none()
            && book.source().is_none()
            && matches!(book, Error::Load(fault) if fault.grammar.rules().len() == 0)
    );
    assert!(boxed(T).is_ok() && boxed(b"").unwrap_err().is::<LoadError>());
}
