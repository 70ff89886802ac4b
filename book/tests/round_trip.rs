//! Texts and books converted into each other: nothing is lost, and a text may be spelt in many ways.

mod drafts;

use book::{to_bytes, to_text};
use drafts::{draft, spelt};
use outside_tests::books::{book, filled, full_book, Draft, Rng, Sym};
use outside_tests::lister::grammar::load;
use std::collections::BTreeSet;

/// From a book to its text and back to the same book.
fn returns(bytes: &[u8]) -> String {
    let text = to_text(bytes).unwrap_or_else(|refusal| panic!("{bytes:02X?}: {refusal}"));
    assert_eq!(to_bytes(&text).as_deref(), Ok(bytes), "{text}");
    text
}

#[test]
fn random_books_return() {
    let (mut lefts, mut kinds, mut marks, mut lows) =
        (BTreeSet::new(), BTreeSet::new(), BTreeSet::new(), BTreeSet::new());
    let (mut starts, mut places, mut rules, mut negative) = (BTreeSet::new(), BTreeSet::new(), BTreeSet::new(), 0);
    let (mut dated, mut named) = (0, [0; 3]);
    for seed in 0..2000 {
        let draft = draft(&mut Rng::new(seed));
        let text = returns(&draft.bytes());
        assert_eq!(text.lines().count(), 1 + draft.rules.len());
        starts.insert(draft.start);
        rules.insert(draft.rules.len());
        dated += draft.years.len();
        for (number, (_, after)) in &draft.names {
            let places = draft.rules[*number].2.len();
            named[if *after == places { 2 } else { usize::from(*after > 0) }] += 1;
        }
        for (left, length, row) in &draft.rules {
            lefts.insert(*left);
            places.insert(row.len());
            negative += usize::from(*length < 0);
            for place in row {
                match *place {
                    Sym::N(kind) => kinds.insert(kind),
                    Sym::T(mark) => marks.insert(mark),
                    Sym::R(low, _) => lows.insert(low),
                };
            }
        }
    }
    // What must have come up.
    assert_eq!([starts.len(), lefts.len(), kinds.len(), marks.len(), lows.len()], [32, 32, 32, 256, 256]);
    assert!((0..=8).all(|count| places.contains(&count)));
    assert!([0, 1, 127, 128].iter().all(|count| rules.contains(count)) && rules.len() > 100);
    assert!(negative > 10_000 && dated > 10_000 && named.iter().all(|times| *times > 1500), "{named:?}");
}

/// The books with which the lister and the proved library are compared, as far as they load.
#[test]
fn the_random_books_of_the_comparison_return() {
    let books = (0..1300).map(book).chain((0..40).map(full_book)).map(|book| book.bytes);
    let loading: Vec<Vec<u8>> = books.filter(|bytes| load(bytes).is_ok()).collect();
    assert!(loading.len() > 1000, "{} load", loading.len());
    for bytes in loading {
        returns(&bytes);
    }
}

#[test]
fn every_length_and_every_mark_returns() {
    let lengths: Vec<i16> = (i16::MIN..=i16::MAX).collect();
    for some in lengths.chunks(128) {
        let mut draft = Draft::new(31);
        draft.rules = some.iter().map(|length| (7, *length, vec![])).collect();
        returns(&draft.bytes());
    }
    let mut draft = Draft::new(0);
    draft.rules = (0..128).map(|half| (0, 0, vec![Sym::T(half), Sym::T(128 + half)])).collect();
    let text = returns(&draft.bytes());
    let quoted = text.matches('\'').count() / 2;
    assert_eq!(quoted, 95 - 2, "all printable characters but the quote and the backslash");
    assert!(text.contains("0 -> ' ' =A0 : 0.00\n") && text.contains("0 -> '#' =A3 : 0.00\n"));
    assert!(text.contains("0 -> =27 =A7 : 0.00\n") && text.contains("0 -> =5C =DC : 0.00\n"));
    assert!(text.contains("0 -> =00 =80 : 0.00\n") && text.contains("0 -> =7F =FF : 0.00\n"));
}

/// All pairs of a low and a high end.
#[test]
fn every_range_returns() {
    let ranges: Vec<Sym> = (0..=255).flat_map(|high| (0..=high).map(move |low| Sym::R(low, high))).collect();
    assert_eq!(ranges.len(), 32_896);
    let rules: Vec<_> = ranges.chunks(8).map(|some| (0, 0, some.to_vec())).collect();
    let mut texts = String::new();
    for some in rules.chunks(128) {
        let mut draft = Draft::new(0);
        draft.rules = some.to_vec();
        texts += &returns(&draft.bytes());
    }
    for word in
        ["'0'..'9'", "=00..=FF", "=1F..' '", "' '..' '", "'#'..'#'", "=27..=27", "'.'..'/'", "' '..=5C", "'~'..=7F"]
    {
        assert_eq!(
            texts.split([' ', '\n']).filter(|other| *other == word).count(),
            usize::from(!word.contains(' ')),
            "{word}"
        );
        assert!(texts.contains(word), "{word}");
    }
}

#[test]
fn ranges_are_spelt_in_many_ways() {
    let mut draft = Draft::new(0);
    draft.rules.push((0, 0, vec![Sym::R(b'0', b'9'); 4]));
    draft.rules.push((0, 0, vec![Sym::R(b' ', b' '), Sym::R(b' ', b'#'), Sym::R(b'#', b'\''), Sym::R(b'.', b'.')]));
    let text =
        "start 0\n0 -> '0'..'9' =30..=39 '0'..=39 =30..'9' : 0\n0 -> ' '..' ' =20..'#'\t'#'..=27 '.'..'.' : 0# '..'\n";
    assert_eq!(to_bytes(text), Ok(draft.bytes()));
    assert!(returns(&draft.bytes()).ends_with("0 -> ' '..' ' ' '..'#' '#'..=27 '.'..'.' : 0.00\n"));
}

/// The same book in other spellings: blanks or none, arrows, a byte order mark, comments, empty lines, line ends,
/// zeros, signs, decimals, marks in hexadecimal.
#[test]
fn random_spellings_are_read() {
    for seed in 0..2000 {
        let rng = &mut Rng::new(seed ^ 0x5_9E17);
        let draft = draft(rng);
        let text = spelt(rng, &draft);
        assert_eq!(to_bytes(&text), Ok(draft.bytes()), "{text}");
    }
}

/// A rule that holds in all years is opened by 20 or by 21, and its text says which.
#[test]
fn years_return() {
    let mut draft = Draft::new(0);
    draft.rules = vec![(0, 100, vec![Sym::T(b'A')]); 4];
    draft.years = [(0, (1998, 2007)), (1, (2008, 65_535)), (2, (0, 65_535))].into();
    let due = "start 0\n0 -> 'A' : 1.00 years 1998 2007\n0 -> 'A' : 1.00 years 2008 65535\n\
        0 -> 'A' : 1.00 years 0 65535\n0 -> 'A' : 1.00\n";
    assert_eq!(returns(&draft.bytes()), due);
    for spelt in ["1 years 1998 2007", "1.0\tyears  01998\t0002007 # years", "+1 years 1998 2007# 3"] {
        let text = due.replacen("1.00 years 1998 2007", spelt, 1);
        assert_eq!(to_bytes(&text), Ok(draft.bytes()), "{text}");
    }
    let one = |year: u16| {
        let mut draft = Draft::new(31);
        draft.rules.push((7, 0, vec![]));
        draft.years.insert(0, (year, year));
        returns(&draft.bytes())
    };
    assert!((0..=u16::MAX)
        .step_by(13)
        .all(|year| one(year) == format!("start 31\n7 -> - : 0.00 years {year} {year}\n")));
}

/// A name is written after length and years, and with it where it is given, unless that is after all places.
#[test]
fn names_return() {
    let mut draft = Draft::new(0);
    draft.rules = vec![(0, 100, vec![Sym::T(b'A'), Sym::N(1)]); 4];
    draft.rules.push((1, 0, vec![]));
    draft.years = [(0, (1998, 2007))].into();
    let named = |(number, name, after): (usize, &str, usize)| (number, (filled(name), after));
    draft.names = [(0, "BODY", 2), (1, "BODY0", 0), (2, "B", 1), (4, "01234567", 0)].map(named).into_iter().collect();
    let due = "start 0\n0 -> 'A' 1 : 1.00 years 1998 2007 name BODY\n0 -> 'A' 1 : 1.00 name BODY0 after 0\n\
        0 -> 'A' 1 : 1.00 name B after 1\n0 -> 'A' 1 : 1.00\n1 -> - : 0.00 name 01234567\n";
    assert_eq!(returns(&draft.bytes()), due);
    for (word, spelt) in [
        (" name BODY\n", "\tname  BODY# name\n"),
        (" name BODY\n", " name BODY after 2\n"),
        (" name B after 1", " name B  after\t01"),
        (" name 01234567", " name 01234567 after 000 # after"),
    ] {
        let text = due.replacen(word, spelt, 1);
        assert_ne!(text, due);
        assert_eq!(to_bytes(&text), Ok(draft.bytes()), "{text}");
    }
    // words of a text are names too
    for word in ["START", "NAME", "AFTER", "YEARS", "0", "A", "ZZZZZZZZ", "99999999"] {
        let mut draft = Draft::new(0);
        draft.rules.push((0, 0, vec![]));
        draft.names.insert(0, (filled(word), 0));
        assert_eq!(returns(&draft.bytes()), format!("start 0\n0 -> - : 0.00 name {word}\n"));
    }
}

/// Arrows and colons need no blanks, and in a mark they are nothing but a mark.
#[test]
fn arrows_and_colons_are_spelt_in_many_ways() {
    let mut draft = Draft::new(0);
    draft.rules.push((0, 4600, vec![Sym::N(1), Sym::N(1)]));
    draft.rules.push((1, -25, vec![]));
    draft.rules.push((1, 25, vec![Sym::T(b':'), Sym::R(b'-', b'>'), Sym::R(b' ', b':')]));
    for text in [
        "start 0\n0 -> 1 1 : 46\n1 -> - : -0.25\n1 -> ':' '-'..'>' ' '..':' : 0.25\n",
        "start 0\n0->1 1:46\n1->-:-0.25\n1->':' '-'..'>' ' '..':':0.25#:\n",
        "start 0\n0\u{2192}1 1:46\n1 \u{2192} -: -0.25\n1\u{2192} =3A =2d..'>' =20..':' :0.25",
        "\u{feff}start 0\r\n0 ->1 1 :46\r\n\r\n1-> - :-0.25\r\n1 ->':' '-'..=3E\t' '..=3a : +0.25\r\n",
    ] {
        assert_eq!(to_bytes(text), Ok(draft.bytes()), "{text}");
    }
}

#[test]
fn lengths_are_spelt_in_many_ways() {
    let cases = [
        ("46", 4600),
        ("46.0", 4600),
        ("46.00", 4600),
        ("+46", 4600),
        ("046.5", 4650),
        ("46.05", 4605),
        ("0.25", 25),
        ("-0.25", -25),
        ("-0.2", -20),
        ("-0", 0),
        ("-0.00", 0),
        ("00000000000000000000000000001", 100),
        ("327.67", i16::MAX),
        ("-327.68", i16::MIN),
    ];
    for (word, length) in cases {
        let mut draft = Draft::new(0);
        draft.rules.push((0, length, vec![]));
        assert_eq!(to_bytes(&format!("start 0\n0 -> - : {word}")), Ok(draft.bytes()), "{word}");
    }
}

#[test]
fn marks_that_look_like_the_text_are_read() {
    let text = "start 0 # '\n0 -> '#' ' ' ':' '-' '=' '\"' '>' '0' : 1 # : 2\n0 -> =3a =3A 'a' : 0#'\n";
    let mut draft = Draft::new(0);
    draft.rules.push((0, 100, b"# :-=\">0".map(Sym::T).to_vec()));
    draft.rules.push((0, 0, b"::a".map(Sym::T).to_vec()));
    assert_eq!(to_bytes(text), Ok(draft.bytes()));
}

#[test]
fn the_smallest_book_and_the_largest_return() {
    assert_eq!(returns(&[0x10, 0x00, 0x50]), "start 0\n");
    assert_eq!(to_bytes("start 31"), Ok(vec![0x10, 0x1F, 0x50]));
    let mut draft = Draft::new(31);
    draft.rules = vec![(31, -32768, vec![Sym::N(31); 8]); 128];
    let line = "31 -> 31 31 31 31 31 31 31 31 : -327.68\n";
    assert_eq!(returns(&draft.bytes()), format!("start 31\n{}", line.repeat(128)));
    draft.rules = vec![(31, -32768, vec![Sym::R(0, 255); 8]); 128];
    draft.years = (0..128).map(|rule| (rule, (0, 65_535))).collect();
    draft.names = (0..128).map(|rule| (rule, (filled(&format!("RULE{rule:04}")), rule % 9))).collect();
    assert_eq!(draft.bytes().len(), 5251);
    returns(&draft.bytes());
}
