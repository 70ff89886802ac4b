//! A rule is in force from its first year to its last, and each call on an input goes by the year that it is given.
mod books;

use books::T;
use filbozseg::*;

/// 0 -> A (100) from 1998 to 2007, 0 -> A (200) from 2008 on: a seal code that was used again.
const SEAL: &[u8] = b"\x10\x00\x21\x00\x64\x00\xce\x07\xd7\x07\x40A\x21\x00\xc8\x00\xd8\x07\xff\xff\x40A\x50";

/// 0 -> 1 A, 1 -> nothing up to 1999, 1 -> 1 2 in 2000 alone, 2 -> nothing.
const BLANK: &[u8] = b"\x10\x00\x20\x00\x00\x00\x30\x01\x40A\x21\x01\x00\x00\x00\x00\xcf\x07\
    \x21\x01\x00\x00\xd0\x07\xd0\x07\x30\x01\x30\x02\x20\x02\x00\x00\x50";

/// The numbers of the readings of A in a year.
fn read(grammar: &Grammar, year: u16) -> Vec<Vec<u16>> {
    grammar.readings(b"A", year).map(|reading| reading.unwrap().numbers().to_vec()).collect()
}

#[test]
fn a_rule_says_its_years() {
    let (seal, t) = (load(SEAL).unwrap(), load(T).unwrap());
    assert_eq!(seal.rules().map(Rule::years).collect::<Vec<_>>(), [1998..=2007, 2008..=65_535]);
    assert_eq!(format!("{:?}", seal.rule(0).unwrap()), "0 -> 'A' (100, 1998 to 2007)");
    assert!(t.rules().all(|rule| rule.years() == (0..=65_535)));
    assert_eq!(format!("{:?}", t.rule(2).unwrap()), "1 -> 'A' (25)");
    assert_eq!((&seal.row()[22..24], &seal.row()[51..53]), (&[1998, 2007][..], &[2008, 65_535][..]));
    assert!(seal.row()[53..].iter().all(|&number| number == 0)); // unused rules, their years included
}

#[test]
fn both_ends_of_the_years_are_included() {
    let seal = load(SEAL).unwrap();
    let cases = [(0, None), (1997, None), (1998, Some(0)), (2007, Some(0)), (2008, Some(1)), (65_535, Some(1))];
    for (year, rule) in cases {
        let due: Vec<Vec<u16>> = rule.map(|rule| vec![1, rule]).into_iter().collect();
        assert_eq!(read(&seal, year), due, "{year}");
        let mut chart = vec![7; CELLS];
        assert_eq!(count(&seal, b"A", year, &mut chart), Ok(Count::Exactly(due.len())));
        for (rule, tenths) in [(0, 10), (1, 20)] {
            let in_force = due == [vec![1, rule]];
            assert_eq!(check(&seal, b"A", year, &[1, rule], &mut chart), Ok(in_force));
            let measured = length(&seal, b"A", year, &[1, rule], &mut chart);
            assert_eq!(measured, if in_force { Ok(tenths) } else { Err(Refusal::NotADerivation) });
            let text = words(&seal, b"A", year, &[1, rule], &mut chart, &mut [0; TEXT]).map(|text| text.to_vec());
            let due = format!("#00{rule}(=41)").into_bytes();
            assert_eq!(text, if in_force { Ok(due) } else { Err(Refusal::NotADerivation) });
            let same = same_build(&seal, b"A", year, &[1, rule], &[1, rule], &mut chart);
            assert_eq!(same, if in_force { Ok(true) } else { Err(Refusal::NotADerivation) });
            assert_eq!(seal.reading(b"A", year, &[1, rule]).is_ok(), in_force);
            let next = next(&seal, b"A", year, &[1, rule], &mut chart, &mut [0; OUTPUT]).map(|row| row.is_some());
            assert_eq!(next, if in_force { Ok(false) } else { Err(Refusal::NotADerivation) });
        }
    }
}

#[test]
fn a_blank_rule_out_of_force_builds_no_empty_tree() {
    let blank = load(BLANK).unwrap();
    assert_eq!(blank.nullable_depth(), 1); // of the whole book: kinds 1 and 2
    let mut chart = vec![7; CELLS];
    for (year, nullable) in [(0, 0b110), (1999, 0b110), (2000, 0b100), (2001, 0b100)] {
        assert_eq!(read(&blank, year), if year < 2000 { vec![vec![1, 0, 0, 1]] } else { vec![] });
        let (mut recognizer, complete) = open(&blank, year, &mut chart);
        assert_eq!((complete, chart[0]), (Ok(false), nullable));
        assert_eq!(recognizer.take(&blank, b'A', &mut chart), Ok(year < 2000));
    }
}

#[test]
fn a_recognizer_keeps_its_year() {
    let seal = load(SEAL).unwrap();
    let (mut chart, mut other) = (vec![7; CELLS], vec![7; CELLS]);
    let ((mut early, _), (mut late, _)) = (open(&seal, 1997, &mut chart), open(&seal, 2008, &mut other));
    assert_eq!((early.year(), late.year()), (1997, 2008));
    assert_eq!(early.take(&seal, b'A', &mut chart), Ok(false));
    assert_eq!(late.take(&seal, b'A', &mut other), Ok(true));
    assert_eq!((early.year(), late.year()), (1997, 2008));
    // any year, and a refused take leaves it
    let mut row = *late.row();
    (row[BYTES], row[BYTES + 1]) = (64, 65_535);
    let mut full = Recognizer::from_row(&row);
    assert_eq!(full.take(&seal, b'A', &mut chart), Err(Refusal::RecognizerFull));
    assert_eq!((full.row(), full.year()), (&row, 65_535));
}

#[test]
fn years_reversed_are_refused_where_the_rule_is_used() {
    let seal = load(SEAL).unwrap();
    let with = |at: usize, first: u16, last: u16| {
        let mut row = *seal.row();
        (row[at], row[at + 1]) = (first, last);
        open(&Grammar::from_row(&row), 2008, &mut vec![0; CELLS]).1
    };
    assert_eq!(with(22, 1998, 1997), Err(Refusal::InvalidGrammar));
    assert_eq!(with(51, 65_535, 0), Err(Refusal::InvalidGrammar));
    assert_eq!((with(22, 1998, 1998), with(80, 1, 0)), (Ok(false), Ok(false)));
}
