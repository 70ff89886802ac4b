//! A rule may have a name: command 60, the eight numbers of a row, and the lookup in the bytes of a book.
mod books;

use books::{NAMED, T, YEAR};
use filbozseg::*;

/// A book of rules 0 -> nothing, each followed by these bytes.
fn book(rules: &[&[u8]]) -> Vec<u8> {
    let rules = rules.iter().flat_map(|rest| [&[0x20, 0, 0, 0][..], rest].concat());
    [0x10, 0].into_iter().chain(rules).chain([0x50]).collect()
}

/// The command that names a rule.
fn named(name: &[u8; 8]) -> Vec<u8> {
    [&[0x60][..], name].concat()
}

/// How a book is refused, and where; none if it loads.
fn fault(book: &[u8]) -> Option<(u8, usize)> {
    load(book).err().map(|fault| (fault.refusal.number(), fault.offset))
}

/// Faulty names: empty, with another byte at either end of each range, with a blank before a letter.
const FAULTY: [&[u8; 8]; 15] = [
    b"        ",
    b"\0\0\0\0\0\0\0\0",
    b"SEAL\0\0\0\0",
    b"\0       ",
    b"SEAL   \0",
    b"seal    ",
    b"SEAL@   ",
    b"SEAL[   ",
    b"SEAL/   ",
    b"SEAL:   ",
    b" SEAL   ",
    b"SE AL   ",
    b"SEAL   1",
    b"SEAL\t   ",
    b"SEALSEA\xff",
];

#[test]
fn a_rule_says_its_name() {
    let (t, both) = (load(T).unwrap(), load(NAMED).unwrap());
    assert!(t.rules().all(|rule| rule.name().is_none()));
    let names: Vec<_> = both.rules().map(|rule| rule.name().map(|name| name.to_string())).collect();
    assert_eq!(names, [Some("BODY".to_string()), None, Some("PORT".to_string())]);
    let body = both.rule(0).unwrap().name().unwrap();
    assert_eq!((body.as_bytes(), body.as_ref(), body.filled()), (&b"BODY"[..], &b"BODY"[..], *b"BODY    "));
    assert_eq!(
        (format!("{body:?}"), format!("{:?}", both.rule(2).unwrap())),
        ("Name(BODY)".into(), "1 -> 'A' (25, PORT)".into())
    );
    assert_eq!(both.row()[24..32], b"BODY    ".map(u16::from));
    assert!(both.row()[53..61].iter().all(|&number| number == 0));
    let years = load(b"\x10\x00\x21\x00\x64\x00\xce\x07\xd7\x07\x60OLDSEAL9\x40A\x50").unwrap();
    assert_eq!(format!("{:?}", years.rule(0).unwrap()), "0 -> 'A' (100, 1998 to 2007, OLDSEAL9)");
}

#[test]
fn names_of_one_to_eight_capitals_and_digits_load() {
    for name in [b"A       ", b"Z       ", b"0       ", b"9       ", b"SEALSEAL", b"01234567", b"A0Z9    ", b"SEALSE  "]
    {
        let bytes = book(&[&named(name)]);
        let shown = load(&bytes).unwrap().rule(0).unwrap().name().unwrap();
        let due: Vec<u8> = name.iter().copied().filter(|&byte| byte != b' ').collect();
        assert_eq!((shown.as_bytes(), shown.filled(), filbozseg::name(&bytes, 0)), (&due[..], *name, &due[..]));
    }
    // a name may be the front of another, or end in it
    assert_eq!(
        fault(&book(&[&named(b"SEAL    "), &named(b"SEA     "), &named(b"SEALS   "), &named(b"EAL     ")])),
        None
    );
}

#[test]
fn a_faulty_name_is_17_in_a_book_and_8_in_a_row() {
    let t = load(T).unwrap();
    for name in FAULTY {
        let bytes = book(&[&named(name)]);
        assert_eq!((fault(&bytes), filbozseg::name(&bytes, 0)), (Some((17, 6)), &[][..]), "{name:?}");
        for (rule, used) in [(0, true), (2, true), (3, false), (127, false)] {
            let mut row = *t.row();
            row[3 + 29 * rule + 21..][..8].copy_from_slice(&name.map(u16::from));
            let answer = open(&Grammar::from_row(&row), YEAR, &mut [0; CELLS]).1;
            let none = name == &[0; 8];
            assert_eq!(answer, if used && !none { Err(Refusal::InvalidGrammar) } else { Ok(true) }, "{name:?} {rule}");
        }
    }
}

#[test]
fn a_number_over_255_is_no_byte_of_a_name() {
    let grammar = load(NAMED).unwrap();
    for number in [256 + 0x42, 0x4242, u16::MAX] {
        let mut row = *grammar.row();
        row[24] = number;
        let changed = Grammar::from_row(&row);
        assert_eq!(open(&changed, YEAR, &mut [0; CELLS]).1, Err(Refusal::InvalidGrammar));
        assert_eq!(changed.rule(0).unwrap().name().unwrap().as_bytes(), b"\xffODY");
        assert_eq!(changed.rule(0).unwrap().name().unwrap().to_string(), "\\xffODY");
    }
}

#[test]
fn two_rules_have_two_names() {
    let (a, b) = (named(b"SEAL    "), named(b"PORT    "));
    assert_eq!(fault(&book(&[&a, &b])), None);
    assert_eq!(fault(&book(&[&a, &a])), Some((17, 19)));
    assert_eq!(fault(&book(&[&a, &b, &[], &a])), Some((17, 36)));
    // in a row: eight zeros twice are no name, and an unused rule may have the name of a used one
    let grammar = load(&book(&[&a, &[], &[], &b])).unwrap();
    let with = |rule: usize, count: u16| {
        let mut row = *grammar.row();
        row[1] = count;
        row.copy_within(24..32, 24 + 29 * rule);
        open(&Grammar::from_row(&row), YEAR, &mut [0; CELLS]).1
    };
    assert_eq!(
        (with(0, 4), with(1, 4), with(3, 4)),
        (Ok(true), Err(Refusal::InvalidGrammar), Err(Refusal::InvalidGrammar))
    );
    assert_eq!((with(3, 3), with(4, 4), with(127, 4)), (Ok(true), Ok(true), Ok(true)));
}

#[test]
fn the_turn_of_a_name_comes_before_its_length_and_its_bytes() {
    let (good, bad) = (named(b"SEAL    "), named(b"seal    "));
    // the first command, before any rule, a second name: even where it is cut short or faulty
    for name in [&good[..], &bad, &good[..1], &good[..8]] {
        assert_eq!(fault(name), Some((3, 0)));
        assert_eq!(fault(&[&[0x10, 0], name].concat()), Some((3, 2)));
        assert_eq!(fault(&[&[0x10, 0, 0x20, 0, 0, 0], &good[..], name].concat()), Some((3, 15)));
    }
    for cut in 1..9 {
        let due = Some((1, 6 + cut));
        assert_eq!(fault(&[&[0x10, 0, 0x20, 0, 0, 0], &good[..cut]].concat()), due);
        assert_eq!(fault(&[&[0x10, 0, 0x20, 0, 0, 0], &bad[..cut]].concat()), due, "1 comes before 17");
    }
    // before, between and after the places, of which there may be eight
    let place = [0x40, b'A'];
    for before in 0..=8 {
        let places = [place.repeat(before), good.clone(), place.repeat(8 - before)].concat();
        let grammar = load(&book(&[&places])).unwrap();
        assert_eq!((grammar.rule(0).unwrap().places().len(), grammar.rule(0).unwrap().name().is_some()), (8, true));
        assert_eq!(name(&book(&[&places]), 0), b"SEAL");
    }
}

#[test]
fn a_name_is_found_in_the_bytes_of_the_book() {
    for (rule, part) in [(0, 11..15), (2, 28..32)] {
        assert!(std::ptr::eq(name(NAMED, rule), &NAMED[part]), "{rule}");
    }
    for rule in [1, 3, 127, 128, usize::MAX] {
        assert_eq!(name(NAMED, rule), b"");
    }
    // cut short, and with a byte too many
    assert!((0..NAMED.len()).all(|cut| name(&NAMED[..cut], 0).is_empty()));
    assert_eq!(name(&[NAMED, &[0x50]].concat(), 0), b"");
    assert_eq!((name(T, 0), name(b"", 0), name(b"\x10\x00\x50", 0)), (&[][..], &[][..], &[][..]));
    // places with the bytes of the command and of the name before the name itself
    let places: Vec<u8> = b"\x60SEAL".iter().flat_map(|&mark| [0x40, mark]).collect();
    let bytes = book(&[&[&places[..], &named(b"SEAL    ")].concat()]);
    assert!(std::ptr::eq(name(&bytes, 0), &bytes[17..21]));
}

#[test]
fn the_name_found_is_that_of_the_record() {
    let rules: Vec<Vec<u8>> =
        (0..128).map(|r| if r % 3 == 1 { vec![] } else { format!("\x60N{r:<7}").into() }).collect();
    let bytes = book(&rules.iter().map(|rule| &rule[..]).collect::<Vec<_>>());
    let grammar = load(&bytes).unwrap();
    for rule in grammar.rules() {
        let record = rule.name();
        assert_eq!(name(&bytes, rule.number()), record.as_ref().map_or(&[][..], Name::as_bytes));
        assert_eq!(record.is_none(), rule.number() % 3 == 1);
    }
    assert_eq!(name(&bytes, 128), b"");
}
