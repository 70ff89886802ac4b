//! The iterator finds the readings of an input in order, and ends.
mod books;

use books::{deep, wide, PAIRS, T, YEAR};
use filbozseg::*;

fn written(grammar: &Grammar, input: &[u8]) -> Vec<String> {
    grammar.readings(input, YEAR).map(|reading| reading.unwrap().to_string()).collect()
}

#[test]
fn readings_come_in_their_order() {
    let (t, pairs) = (load(T).unwrap(), load(PAIRS).unwrap());
    assert_eq!(written(&t, b"A"), ["1.0 0.1 1.2", "1.0 1.2 0.1"]);
    assert_eq!(written(&t, b"AA"), ["2.0 1.2 1.2"]);
    assert_eq!(written(&pairs, b"AAA"), ["3.0 1.1 2.0 1.1 1.1", "3.0 2.0 1.1 1.1 1.1"]);
    let all = pairs.readings(&[b'A'; 9], YEAR).collect::<Result<Vec<_>, _>>().unwrap();
    assert!(all.len() == 1430 && all.is_sorted_by(|one, other| one < other));
    assert!(all.windows(2).all(|two| two[0].numbers() < two[1].numbers() && two[0] != two[1]));
}

#[test]
fn after_the_last_there_is_none_for_good() {
    let t = load(T).unwrap();
    let mut readings = t.readings(b"A", YEAR);
    assert_eq!((readings.next().is_some(), readings.next().is_some()), (true, true));
    assert!((0..3).all(|_| readings.next().is_none()));
    for input in [&b"B"[..], b"AAA", &[b'A'; 64]] {
        let mut readings = t.readings(input, YEAR);
        assert!((0..3).all(|_| readings.next().is_none()));
    }
}

#[test]
fn a_refusal_is_the_only_item() {
    let (t, mut bad) = (load(T).unwrap(), [0; ROW]);
    bad[0] = 32;
    let (bad, larger) = (Grammar::from_row(&bad), wide(4));
    let refused = [
        (&t, &[b'A'; 65][..], Refusal::InputLength),
        (&t, &[b'A'; 1000], Refusal::InputLength),
        (&bad, b"", Refusal::InvalidGrammar),
        (&bad, b"A", Refusal::InvalidGrammar),
        (&larger, b"A", Refusal::OnlyLargerTrees),
    ];
    for (grammar, input, refusal) in refused {
        let mut readings = grammar.readings(input, YEAR);
        assert_eq!(readings.next(), Some(Err(refusal)));
        assert!((0..3).all(|_| readings.next().is_none()));
        assert_eq!(grammar.readings(input, YEAR).collect::<Result<Vec<_>, _>>(), Err(refusal));
    }
    assert_eq!(t.readings(&[b'A'; 65], YEAR).next().unwrap().unwrap_err().number(), 9);
}

#[test]
fn a_copy_of_the_iterator_goes_its_own_way() {
    let pairs = load(PAIRS).unwrap();
    let mut one = pairs.readings(b"AAAA", YEAR);
    one.next();
    let (copy, rest) = (one.clone(), one.collect::<Vec<_>>());
    assert_eq!((rest.len(), copy.collect::<Vec<_>>()), (4, rest));
}

#[test]
fn the_count_is_that_of_the_iterator_or_more() {
    let (t, pairs, mut chart) = (load(T).unwrap(), load(PAIRS).unwrap(), vec![0; CELLS]);
    for (grammar, input) in
        [(&t, &b"A"[..]), (&t, b"AAA"), (&pairs, b"AAAAAA"), (&wide(0), b"A"), (&deep(), &[b'A'; 64])]
    {
        assert_eq!(count(grammar, input, YEAR, &mut chart), Ok(Count::Exactly(grammar.readings(input, YEAR).count())));
    }
    let ten = count(&pairs, &[b'A'; 10], YEAR, &mut chart).unwrap();
    assert_eq!((ten, pairs.readings(&[b'A'; 10], YEAR).take(4097).count()), (Count::More, 4097));
    assert!(Count::Exactly(0) < Count::Exactly(4096) && Count::Exactly(4096) < Count::More);
    assert_eq!(format!("{} {} [{:5}]", Count::Exactly(2), ten, Count::More), "2 more [more ]");
}

#[test]
fn a_reading_is_made_from_its_numbers_only_if_it_is_one() {
    let t = load(T).unwrap();
    for reading in t.readings(b"A", YEAR).map(Result::unwrap) {
        let again = t.reading(b"A", YEAR, reading.numbers()).unwrap();
        assert_eq!((&again, again.as_ref()), (&reading, reading.numbers()));
        assert_eq!(t.reading(b"AA", YEAR, reading.numbers()), Err(Refusal::NotADerivation));
        assert_eq!(t.reading(b"", YEAR, reading.numbers()), Err(Refusal::NotADerivation));
        assert_eq!(t.reading(&[b'A'; 65], YEAR, reading.numbers()), Err(Refusal::InputLength));
    }
    for stranger in [&[][..], &[1], &[1, 0], &[1, 0, 0, 1, 1, 3], &[1, 0, 0, 1, 1, 2, 0], &[9; OUTPUT + 2]] {
        assert_eq!(t.reading(b"A", YEAR, stranger), Err(Refusal::NotADerivation));
    }
}

#[test]
fn equal_readings_are_equal_and_hash_alike() {
    let (t, pairs) = (load(T).unwrap(), load(PAIRS).unwrap());
    let all: std::collections::HashSet<Reading> = t
        .readings(b"A", YEAR)
        .chain(pairs.readings(b"AAA", YEAR))
        .chain(t.readings(b"A", YEAR))
        .map(Result::unwrap)
        .collect();
    assert_eq!(all.len(), 4);
    assert_eq!(format!("{:?}", t.readings(b"AA", YEAR).next()), "Some(Ok(Reading(2.0 1.2 1.2)))");
}
