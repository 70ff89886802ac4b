//! The lister's text of the listing program, with the lines written out by hand; and the search in order, compared
//! with the whole list.

#[allow(dead_code)] // not all of it is called from here
mod calls;

use calls::{blank_bush, book, deepest, deepest_row, of_length, SEAL, SUMS, T};
use outside_tests::books::{self, boundary};
use outside_tests::lister::listing::{derivations, TooLarge};
use outside_tests::lister::trees::LIMIT;
use outside_tests::lister::STEPS;
use outside_tests::text::{in_order, judged, text, MOST};

fn printed(book: &[u8], plate: &[u8]) -> String {
    printed_in(book, plate, 0)
}

/// The same in a year.
fn printed_in(book: &[u8], plate: &[u8], year: u16) -> String {
    String::from_utf8(text(book, plate, year).expect("small enough")).expect("ASCII")
}

#[test]
fn the_lines_of_document_01() {
    assert_eq!(printed(&T, b"A"), "1: 1.0 0.1 1.2 = 462\n2: 1.0 1.2 0.1 = 462\nREADINGS 2\n");
    assert_eq!(printed(&T, b"AA"), "1: 2.0 1.2 1.2 = 465\nREADINGS 1\n");
    assert_eq!(printed(&T, b"AAA"), "NO READING\n");
    assert_eq!(printed(&T, b"B"), "NO READING\n");
    assert_eq!(printed(&[0x10, 0x00, 0x50], b"A"), "NO READING\n");
    let pairs = book(0, &["0: 0 0", "0: A"]);
    let three = "1: 3.0 1.1 2.0 1.1 1.1 = 0\n2: 3.0 2.0 1.1 1.1 1.1 = 0\nREADINGS 2\n";
    assert_eq!(printed(&pairs, b"AAA"), three);
    assert_eq!(printed(&book(1, &["1: 0 A", "0: 0", "0:"]), b"A"), "1: 1.0 0.2 = 0\nREADINGS 1\n");
}

#[test]
fn sums_are_printed_in_tenths() {
    for (sum, tenths) in SUMS {
        assert_eq!(printed(&of_length(sum), b"A"), format!("1: 1.0 = {tenths}\nREADINGS 1\n"));
    }
}

#[test]
fn refusals_are_printed() {
    for plate in [&b""[..], b"A", &[b'A'; 65]] {
        assert_eq!(printed(&[], plate), "REFUSED 1\n"); // the book is judged first
        assert_eq!(printed(&[0x70], plate), "REFUSED 2\n");
        assert_eq!(printed(&[0x60], plate), "REFUSED 3\n");
        assert_eq!(printed(&[&T[..6], b"\x60        \x50"].concat(), plate), "REFUSED 17\n");
        assert_eq!(printed(&[&T[..], &[0]].concat(), plate), "REFUSED 7\n");
    }
    assert_eq!(printed(&T, &[b'A'; 64]), "NO READING\n");
    assert_eq!(printed(&T, &[b'A'; 65]), "REFUSED 9\n");
    let rules = ["0: A 1 1 1 1 1 1 1", "1: 2 2 2 2 2 2 2 2", "2: 3 3 3 3 3 3 3 3", "3:"];
    assert!(printed(&book(0, &rules), b"A").ends_with("0.3 0.3 = 0\nREADINGS 1\n"));
    assert_eq!(printed(&book(4, &[&rules[..], &["4: 0"]].concat()), b"A"), "REFUSED 13\n");
    assert_eq!(printed(&deepest(), &[b'A'; 17]), "REFUSED 13\n");
    let row: String = deepest_row(16).chunks(2).map(|part| format!("{}.{} ", part[0], part[1])).collect();
    assert_eq!(printed(&deepest(), &[b'A'; 16]), format!("1: {row}= 0\nREADINGS 1\n"));
}

/// A plate of no marks is read like any other: request U2 of document 02.
#[test]
fn the_lines_of_an_empty_plate() {
    assert_eq!(printed(&T, b""), "1: 0.0 0.1 0.1 = 460\nREADINGS 1\n");
    assert_eq!(printed(&T, b"\n"), "NO READING\n"); // a newline is a mark
    let twins = "1: 0.0 0.1 0.1 = 0\n2: 0.0 0.1 0.2 = 0\n3: 0.0 0.2 0.1 = 0\n4: 0.0 0.2 0.2 = 0\nREADINGS 4\n";
    assert_eq!(printed(&book(0, &["0: 1 1", "1:", "1:"]), b""), twins);
    assert_eq!(printed(&book(0, &["0: A"]), b""), "NO READING\n");
    assert_eq!(printed(&[0x10, 0x00, 0x50], b""), "NO READING\n");
    assert!(printed(&blank_bush(0), b"").ends_with("0.3 0.3 = 0\nREADINGS 1\n"));
    assert_eq!(printed(&blank_bush(4), b""), "REFUSED 13\n");
}

/// The readings of a plate are those of its year: request U9 of document 02.
#[test]
fn the_lines_of_a_year() {
    for (year, due) in [(0, None), (1997, None), (1998, Some("1.0 = 10")), (2007, Some("1.0 = 10"))] {
        let text = due.map_or("NO READING\n".to_string(), |line| format!("1: {line}\nREADINGS 1\n"));
        assert_eq!(printed_in(&SEAL, b"A", year), text, "{year}");
    }
    for year in [2008, 65_535] {
        assert_eq!(printed_in(&SEAL, b"A", year), "1: 1.1 = 20\nREADINGS 1\n");
        assert_eq!(printed_in(&[&SEAL[..], &[0]].concat(), b"A", year), "REFUSED 7\n");
        // the book is judged first
    }
    assert_eq!(printed_in(&T, b"A", 0), printed_in(&T, b"A", 65_535));
}

/// The lines of a text, with the last one separate.
fn lines(text: &str) -> (Vec<&str>, &str) {
    let mut lines: Vec<&str> = text.strip_suffix('\n').expect("a newline ends each line").split('\n').collect();
    let last = lines.pop().expect("a line");
    (lines, last)
}

#[test]
fn at_most_4096_readings_are_printed() {
    let pairs = book(0, &["0: 0 0", "0: A"]);
    for (book, marks, count, due) in [
        (&pairs, 9, 1430, "READINGS 1430"),
        (&pairs, 10, 4096, "READINGS more"),
        (&pairs, 64, 4096, "READINGS more"),
        (&boundary(false).bytes, 12, 4096, "READINGS 4096"),
        (&boundary(true).bytes, 12, 4096, "READINGS more"),
    ] {
        let text = printed(book, &vec![b'A'; marks]);
        let (readings, last) = lines(&text);
        assert_eq!((readings.len(), last), (count, due));
        assert!((1..).zip(&readings).all(|(place, line)| line.starts_with(&format!("{place}: {marks}.0 "))));
    }
}

/// If the list is not too large, the search in order finds it, or as much of its front as is asked for.
#[test]
fn the_search_in_order_finds_the_front_of_the_list() {
    let (mut compared, mut front, mut given_up) = (0, 0, 0);
    for seed in 0..400 {
        let book = books::book(seed);
        for (number, plate) in book.inputs.iter().enumerate() {
            let year = book.years[number % book.years.len()];
            let Ok(grammar) = judged(&book.bytes, plate, year) else { continue };
            let Ok(list) = derivations(&grammar, plate, LIMIT, STEPS / 4) else { continue };
            for most in [MOST + 1, 3] {
                match in_order(&grammar, plate, LIMIT, most, STEPS) {
                    Ok(found) => {
                        assert!(found == list[..list.len().min(most)], "seed {seed}, plate {plate:?}");
                        compared += 1;
                        front += usize::from(list.len() > most);
                    }
                    Err(TooLarge) => given_up += 1,
                }
            }
        }
    }
    println!("{compared} compared, {front} of them fronts; {given_up} given up");
    assert!(compared >= 1500 && front >= 100 && given_up * 10 < compared, "{compared} {front} {given_up}");
}
