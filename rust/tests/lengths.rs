//! A reading knows its length and its rules, also after its grammar and its input are gone.
mod books;

use books::{deep, wide, BLANK_TWINS, MIXED, PAIRS, T, YEAR};
use filbozseg::*;

#[test]
fn the_length_is_that_of_the_call() {
    let (t, twins, mixed, pairs) =
        (load(T).unwrap(), load(BLANK_TWINS).unwrap(), load(MIXED).unwrap(), load(PAIRS).unwrap());
    let mut readings = 0;
    for (grammar, input) in [
        (&t, &b"A"[..]),
        (&t, b"AA"),
        (&t, b""),
        (&twins, b""),
        (&mixed, b"ABACB"),
        (&pairs, b"AAAA"),
        (&deep(), &[b'A'; 64]),
        (&wide(0), b"A"),
    ] {
        for reading in grammar.readings(input, YEAR).map(Result::unwrap) {
            let due = length(grammar, input, YEAR, reading.numbers(), &mut vec![0; CELLS]).unwrap();
            assert_eq!((reading.length(), reading.clone().length()), (due, due));
            let numbers: Vec<_> = reading.parts().map(|(_, rule)| usize::from(rule)).collect();
            assert_eq!(reading.rules().map(Rule::number).collect::<Vec<_>>(), numbers);
            assert!(reading.rules().eq(reading.nodes().map(Node::rule)));
            assert!(reading.rules().all(|rule| grammar.rule(rule.number()) == Some(rule)));
            readings += 1;
        }
    }
    assert!(readings > 15, "{readings}");
}

/// 0 -> A from 1998 to 2007 (100), and 0 -> A from 2008 on (205): a reading stays with its year.
#[test]
fn a_reading_outlives_its_book() {
    let read = |year: u16| -> Reading {
        let book = b"\x10\x00\x21\x00\x64\x00\xce\x07\xd7\x07\x40A\x21\x00\xcd\x00\xd8\x07\xff\xff\x40A\x50";
        let (grammar, input) = (load(book).unwrap(), String::from("A"));
        let reading = grammar.readings(input.as_bytes(), year).next();
        reading.unwrap().unwrap()
    };
    assert_eq!((read(2007).length(), read(2008).length()), (10, 20));
    assert_eq!(format!("{:?}", read(2008).root().rule()), "0 -> 'A' (205, 2008 to 65535)");
    let numbers = read(2007);
    assert_eq!(numbers.rules().map(Rule::number).collect::<Vec<_>>(), [0]);
}
