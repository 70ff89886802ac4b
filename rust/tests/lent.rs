//! What is lent to the calls: empty slices, the same row twice, and the stacks of several threads.
mod books;

use books::{deep, wide, MIXED, NAMED, PAIRS, T, YEAR};
use filbozseg::*;

#[test]
fn slices_of_no_length_are_judged_as_any() {
    let (t, mut chart, mut output) = (load(T).unwrap(), vec![7; CELLS], vec![9; OUTPUT]);
    let (none, good) = (&[][..], &[1, 0, 0, 1, 1, 2][..]);
    assert_eq!(load(b"").map_err(|fault| (fault.refusal.number(), fault.offset)), Err((1, 0)));
    assert_eq!(open(&t, YEAR, &mut []).1, Err(Refusal::ChartTooShort));
    assert_eq!(open(&t, YEAR, &mut chart).0.take(&t, b'A', &mut []), Err(Refusal::ChartTooShort));
    assert_eq!(open(&t, YEAR, &mut chart).0.set_point(&t, 8, &[]), Err(Refusal::ChartTooShort));
    assert_eq!(open(&t, YEAR, &mut chart).0.return_to(&t, 8, &mut []), Err(Refusal::ChartTooShort));
    for (cells, number) in [(0, 10), (CELLS, 20)] {
        let fault = open(&t, YEAR, &mut chart).0.learn(&mut t.clone(), b"", &mut chart[..cells]).unwrap_err();
        assert_eq!((fault.refusal.number(), fault.offset), (number, 0));
    }
    chart.fill(7);
    for input in [&b""[..], b"A"] {
        let refusal = Refusal::ChartTooShort;
        for offered in [none, good] {
            assert_eq!(check(&t, input, YEAR, offered, &mut []), Err(refusal));
            assert_eq!(length(&t, input, YEAR, offered, &mut []), Err(refusal));
            assert_eq!(words(&t, input, YEAR, offered, &mut [], &mut []), Err(refusal));
            assert_eq!(same_build(&t, input, YEAR, offered, none, &mut []), Err(refusal));
            assert_eq!(next(&t, input, YEAR, offered, &mut [], &mut []), Err(refusal));
        }
        assert_eq!(first(&t, input, YEAR, &mut [], &mut []), Err(refusal));
        assert_eq!(count(&t, input, YEAR, &mut []), Err(refusal));
        assert_eq!(first(&t, input, YEAR, &mut chart, &mut []), Err(Refusal::OutputTooShort));
        assert_eq!(next(&t, input, YEAR, none, &mut chart, &mut []), Err(Refusal::OutputTooShort));
    }
    assert!(chart.iter().all(|&cell| cell == 7));
    for input in [&b""[..], b"A"] {
        assert_eq!(check(&t, input, YEAR, none, &mut chart), Ok(false));
        assert_eq!(length(&t, input, YEAR, none, &mut chart), Err(Refusal::NotADerivation));
        assert_eq!(words(&t, input, YEAR, none, &mut chart, &mut []), Err(Refusal::NotADerivation));
        assert_eq!(same_build(&t, input, YEAR, none, none, &mut chart), Err(Refusal::NotADerivation));
        assert_eq!(same_build(&t, input, YEAR, good, none, &mut chart), Err(Refusal::NotADerivation));
        assert_eq!(next(&t, input, YEAR, none, &mut chart, &mut output), Err(Refusal::NotADerivation));
    }
    assert!(output.iter().all(|&number| number == 9));
}

#[test]
fn one_row_may_be_both_readings_of_same_build() {
    let (mixed, mut chart) = (load(MIXED).unwrap(), vec![0; CELLS]);
    for reading in mixed.readings(b"ACB", YEAR).map(Result::unwrap) {
        let row = reading.numbers();
        assert_eq!(same_build(&mixed, b"ACB", YEAR, row, row, &mut chart), Ok(true));
        assert_eq!(
            same_build(&mixed, b"ACB", YEAR, row, &row[..row.len() - 2], &mut chart),
            Err(Refusal::NotADerivation)
        );
        assert_eq!(same_build(&mixed, b"ACB", YEAR, &row[1..], row, &mut chart), Err(Refusal::NotADerivation));
    }
    let mut row = vec![64, 0];
    assert_eq!(same_build(&mixed, b"ACB", YEAR, &row, &row, &mut chart), Err(Refusal::NotADerivation));
    row.clear();
    assert_eq!(same_build(&mixed, b"ACB", YEAR, &row, &row, &mut chart), Err(Refusal::NotADerivation));
}

/// Everything that the library answers for an input, with at most 200 readings.
fn said(grammar: &Grammar, input: &[u8]) -> String {
    let (mut chart, mut text) = (vec![0; CELLS], String::new());
    let (mut recognizer, complete) = open(grammar, YEAR, &mut chart);
    text += &format!("{complete:?}");
    for (name, &byte) in input.iter().enumerate() {
        text += &format!(" {:?}", recognizer.set_point(grammar, name, &chart));
        text += &format!(" {:?}", recognizer.take(grammar, byte, &mut chart));
    }
    let mut longer = grammar.clone();
    for rule in [&b"\x20\x00\x01\x00"[..], b"\x21\x00\x01\x00\x00\x00\xff\xff\x30\x00\x40C\x60LEARNT  ", b"\x50"] {
        text += &format!(" {:?} {recognizer:?}", recognizer.learn(&mut longer, rule, &mut chart));
    }
    text += &format!("{:?} {chart:?}", longer.row());
    for name in (0..=POINTS).rev() {
        text += &format!(" {:?} {recognizer:?}", recognizer.return_to(grammar, name, &mut chart));
    }
    let mut last = Vec::new();
    for item in grammar.readings(input, YEAR).take(200) {
        let row = item.as_ref().map_or(vec![], |reading| reading.numbers().to_vec());
        let checked = check(grammar, input, YEAR, &row, &mut chart);
        let tenths = length(grammar, input, YEAR, &row, &mut chart);
        let same = same_build(grammar, input, YEAR, &row, &last, &mut chart);
        let words = words(grammar, input, YEAR, &row, &mut chart, &mut [0; TEXT]).map(|text| text.to_vec());
        text += &format!("\n{item:?} {checked:?} {tenths:?} {same:?} {words:?}");
        last = row;
    }
    text += &format!("\n{:?}", count(grammar, input, YEAR, &mut chart));
    text + &format!(" {chart:?}")
}

/// The results of loading a book cut to each length, and the name of its first rule.
fn loads(book: &[u8]) -> String {
    (0..=book.len())
        .map(|length| (load(&book[..length]), name(&book[..length], 0)))
        .map(|(loaded, name)| format!("{:?} {name:?}\n", loaded.map(|grammar| grammar.row().to_vec())))
        .collect()
}

#[test]
fn four_threads_say_what_one_says() {
    let grammars = [load(NAMED).unwrap(), load(PAIRS).unwrap(), load(MIXED).unwrap(), wide(0), wide(4), deep()];
    let inputs = [&b"A"[..], b"AA", b"", b"ACBABC", b"AAAAAAA", &[b'A'; 64]];
    let cases: Vec<_> = grammars.iter().flat_map(|grammar| inputs.map(|input| (grammar, input))).collect();
    let serial: Vec<_> = cases.iter().map(|(grammar, input)| said(grammar, input)).collect();
    let loaded = [NAMED, PAIRS, MIXED].map(loads);
    std::thread::scope(|scope| {
        for thread in 0..4 {
            let (cases, serial, loaded) = (&cases, &serial, &loaded);
            scope.spawn(move || {
                assert_eq!([NAMED, PAIRS, MIXED].map(loads), *loaded);
                for at in (0..cases.len()).map(|at| (at + 9 * thread) % cases.len()) {
                    assert_eq!(said(cases[at].0, cases[at].1), serial[at]);
                }
            });
        }
    });
}

#[test]
fn all_types_may_go_to_other_threads() {
    fn goes<T: Send + Sync>() {}
    goes::<(Grammar, Rule<'_>, Recognizer, Reading, Node<'_>, Nodes<'_>, Children<'_>, Readings<'_>)>();
    goes::<(Error, LoadError, Refusal, Count, Symbol, Name)>();
}

/// The variable with which the next test tells its child process to overflow the stack.
const OVERFLOW: &str = "FILBOZSEG_TEST_OVERFLOW";

#[test]
fn too_small_a_stack_ends_the_process() {
    if std::env::var_os(OVERFLOW).is_some() {
        let look = || deep().readings(&[b'A'; 64], YEAR).next().unwrap().unwrap();
        std::thread::Builder::new().stack_size(256 * 1024).spawn(look).unwrap().join().unwrap();
        return;
    }
    let mut again = std::process::Command::new(std::env::current_exe().unwrap());
    let left = again.args(["--exact", "too_small_a_stack_ends_the_process"]).env(OVERFLOW, "1").output().unwrap();
    assert!(!left.status.success());
    assert!(String::from_utf8_lossy(&left.stderr).contains("has overflowed its stack"), "{left:?}");
}
