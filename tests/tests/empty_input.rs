//! Request U2 of document 02: an input of no bytes is read like any other. The cases of its table, the limits, the order
//! of the refusals and what each call leaves, run on the reader under test. The results are written out by hand.

#[allow(dead_code)] // not all of it is called from here
mod calls;
#[allow(dead_code)] // not all of it is called from here
mod plates;

use calls::{
    blank_bush, blank_bush_row, book, check, complete, count, first, length, loaded, next, row, same_build, T, YEAR,
};
use outside_tests::books::Rng;
use outside_tests::compare::{rubbish, Lent};
use outside_tests::lister::walk::Given;
use outside_tests::reader::{Answer, FlatGrammar, Reader, CELLS, HAND, OUTPUT};
use outside_tests::reader_under_test;
use plates::{compared, plate};

/// A plate of no marks has exactly these readings, each with its length.
fn bare(book: &[u8], readings: &[(&str, i32)]) {
    plate(book, "", &readings.iter().map(|(text, _)| *text).collect::<Vec<_>>());
    let flat = loaded(book);
    assert_eq!(count(&flat, b""), Given::Count(readings.len()));
    for (text, tenths) in readings {
        assert_eq!(length(&flat, b"", &row(text)), Ok(*tenths), "{text}");
    }
}

/// Blank options, each in two ways.
fn twins() -> Vec<u8> {
    book(0, &["0: 1 1", "1:", "1:"])
}

#[test]
fn the_table_of_the_request() {
    bare(&T, &[("0.0 0.1 0.1", 460)]);
    bare(&book(0, &["0: 0", "0:"]), &[("0.1", 0)]);
    bare(&book(0, &["0: 0 0", "0:"]), &[("0.1", 0)]);
    bare(&twins(), &[("0.0 0.1 0.1", 0), ("0.0 0.1 0.2", 0), ("0.0 0.2 0.1", 0), ("0.0 0.2 0.2", 0)]);
    for none in [book(0, &["0: A"]), vec![0x10, 0x00, 0x50]] {
        bare(&none, &[]);
        assert_eq!(first(&loaded(&none), b""), Given::NoDerivation);
    }
}

/// A root over nothing may not have its own kind below it: in 0 -> 0, 0 -> nothing and in 0 -> 0 0, 0 -> nothing.
#[test]
fn superfluous_recursion_at_an_empty_root() {
    for (rules, reading) in [(["0: 0", "0:"], "0.0 0.1"), (["0: 0 0", "0:"], "0.0 0.1 0.1")] {
        let (flat, superfluous) = (loaded(&book(0, &rules)), row(reading));
        assert_eq!(check(&flat, b"", &superfluous), Answer::No);
        assert_eq!(length(&flat, b"", &superfluous), Err(12));
        assert_eq!(same_build(&flat, b"", &row("0.1"), &superfluous), Answer::Refused(12));
        assert_eq!(next(&flat, b"", &superfluous), Given::Refused(12));
        assert_eq!(next(&flat, b"", &row("0.1")), Given::NoneLeft);
    }
}

#[test]
fn the_limit_of_512_over_nothing() {
    let (fits, over, most) = (loaded(&blank_bush(0)), loaded(&blank_bush(4)), blank_bush_row());
    assert_eq!(most.len(), 2 * 512);
    assert_eq!((first(&fits, b""), count(&fits, b"")), (Given::Row(most.clone()), Given::Count(1)));
    assert_eq!((check(&fits, b"", &most), length(&fits, b"", &most)), (Answer::Yes, Ok(0)));
    assert_eq!(next(&fits, b"", &most), Given::NoneLeft);
    let larger = [&[0, 4], &most[..]].concat();
    assert!(complete(&fits, b"") && complete(&over, b""));
    assert_eq!((first(&over, b""), count(&over, b"")), (Given::Refused(13), Given::Refused(13)));
    for offered in [&most, &larger] {
        assert_eq!((check(&over, b"", offered), length(&over, b"", offered)), (Answer::No, Err(12)));
        assert_eq!(next(&over, b"", offered), Given::Refused(12));
    }
    compared(&blank_bush(0), b"");
    compared(&blank_bush(4), b"");
}

/// No node covers anything, so any two derivations are the same build.
#[test]
fn all_builds_are_the_same() {
    let (flat, readings) = (loaded(&twins()), ["0.0 0.1 0.1", "0.0 0.1 0.2", "0.0 0.2 0.1", "0.0 0.2 0.2"].map(row));
    for (one, other) in readings.iter().flat_map(|one| readings.iter().map(move |other| (one, other))) {
        assert_eq!(same_build(&flat, b"", one, other), Answer::Yes);
    }
}

/// The row of no numbers covers as much as the input, and is no derivation: each tree has a node. So the copy that a
/// caller has before any first is refused.
#[test]
fn the_empty_row_is_no_derivation() {
    for book in [&T[..], &book(0, &["0:"]), &twins(), &blank_bush(4), &[0x10, 0x00, 0x50]] {
        let flat = loaded(book);
        assert_eq!((check(&flat, b"", &[]), length(&flat, b"", &[])), (Answer::No, Err(12)));
        assert_eq!(same_build(&flat, b"", &[], &[]), Answer::Refused(12));
        assert_eq!(next(&flat, b"", &[]), Given::Refused(12));
    }
}

/// First, and then next until none is left.
#[test]
fn the_walk_over_nothing() {
    let (flat, mut all, mut given) = (loaded(&twins()), Vec::new(), first(&loaded(&twins()), b""));
    while let Given::Row(row) = given {
        given = next(&flat, b"", &row);
        all.push(row);
    }
    assert_eq!(
        (given, all),
        (Given::NoneLeft, ["0.0 0.1 0.1", "0.0 0.1 0.2", "0.0 0.2 0.1", "0.0 0.2 0.2"].map(row).to_vec())
    );
}

/// What is handed to a call on an input, apart from what is lent for writing.
type Call<'a> = (&'a str, &'a FlatGrammar, &'a [u8], &'a [u16]);

/// Makes the call. What it leaves of a number lent is not looked at here.
fn made((name, flat, input, offered): Call<'_>, chart: &mut [u32], out: &mut [u16]) -> Answer {
    let reader = reader_under_test();
    match name {
        "check" => reader.check(flat, input, YEAR, offered, chart),
        "length" => reader.length(flat, input, YEAR, offered, chart, &mut 0),
        "same build" => reader.same_build(flat, input, YEAR, offered, offered, chart),
        "first" => reader.first(flat, input, YEAR, chart, out, &mut 0),
        "next" => reader.next(flat, input, YEAR, offered, chart, out, &mut 0),
        _ => reader.count(flat, input, YEAR, chart, &mut 0),
    }
}

const CALLS: [&str; 6] = ["check", "length", "same build", "first", "next", "count"];

/// Orders: check 8, 9, 10; count 13 after them; length and same build 12; first 11, 13; next 11, 12. Refusal 9 is for more
/// than 64 bytes only. Refusals 8 to 11 leave everything as found.
#[test]
fn refusals_in_their_order() {
    let (t, over, mut bad) = (loaded(&T), loaded(&blank_bush(4)), loaded(&T));
    bad[0] = 32;
    let (none, most, long) = (&b""[..], &[b'A'; 64][..], &[b'A'; 65][..]);
    for name in CALLS {
        for input in [none, most, long] {
            refused((name, &bad, input, &[]), CELLS - 1, OUTPUT - 1, 8);
        }
        refused((name, &t, long, &[]), CELLS - 1, OUTPUT - 1, 9);
        refused((name, &t, long, &[]), CELLS, OUTPUT, 9);
        for input in [none, most] {
            refused((name, &t, input, &[]), CELLS - 1, OUTPUT - 1, 10);
            if matches!(name, "first" | "next") {
                refused((name, &t, input, &[]), CELLS, OUTPUT - 1, 11);
            }
        }
        let last = match name {
            "check" => Answer::No,
            "first" | "count" => Answer::Refused(13),
            _ => Answer::Refused(12),
        };
        assert_eq!(made((name, &over, none, &[]), &mut [7; CELLS], &mut [7; OUTPUT]), last, "{name}");
    }
}

/// The call is refused with this number, and leaves chart and output as found.
fn refused(call: Call<'_>, cells: usize, numbers: usize, due: u8) {
    let mut rng = Rng::new(8);
    let (mut chart, mut out) = (rubbish(&mut rng, cells), Lent::filled(numbers, || rng.draw() as u16));
    let (found, found_out) = (chart.clone(), out.clone());
    let answer = made(call, chart.part_mut(), out.part_mut());
    assert_eq!(answer, Answer::Refused(due), "{} of {} bytes", call.0, call.2.len());
    assert!(chart == found && out == found_out, "{} of {} bytes: refused {due}", call.0, call.2.len());
}

/// Each call leaves the chart that opening leaves, whatever it answers.
#[test]
fn the_chart_is_that_of_opening() {
    let reading = row("0.0 0.1 0.1");
    for book in [&T[..], &twins(), &blank_bush(4), &book(0, &["0: A"]), &[0x10, 0x00, 0x50]] {
        let flat = loaded(book);
        let found = rubbish(&mut Rng::new(9), CELLS + 3);
        let mut opened = found.clone();
        reader_under_test().open(&flat, YEAR, &mut [9; HAND], opened.part_mut());
        for call in CALLS.iter().flat_map(|name| [&[][..], &reading].map(|offered| (*name, &flat, &b""[..], offered))) {
            let mut chart = found.clone();
            made(call, chart.part_mut(), &mut vec![7; OUTPUT]);
            assert!(chart == opened, "{}", call.0);
        }
    }
}
