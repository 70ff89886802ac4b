//! Request U4 of document 02, readings in words: names in books and rows, texts, refusals and lookups, run on the reader under
//! test. The results are written out by hand.

#[allow(dead_code)] // not all of it is called from here
mod calls;
#[allow(dead_code)] // not all of it is called from here
mod plates;

use calls::{
    blank_bush, blank_bush_row, book, check, deepest, deepest_row, fault, loaded, name, row, words, words_in, LONGEST,
    SEAL, T, YEAR,
};
use outside_tests::books::{filled, Draft, Sym};
use outside_tests::lister::{grammar, parse};
use outside_tests::reader::{record, Answer, FlatGrammar, Reader, CELLS, FLAT, NAME, NAME_WIDTH};
use outside_tests::reader_under_test;
use plates::compared;

/// A command 60 with these bytes.
fn named(name: &[u8; 8]) -> Vec<u8> {
    [&[0x60][..], name].concat()
}

/// Book T with its rules 0, 1 and 2 named, those that have a name here.
fn t_named(names: [&str; 3]) -> Vec<u8> {
    let mut draft = Draft::new(0);
    draft.rules = vec![(0, 4600, vec![Sym::N(1); 2]), (1, 0, vec![]), (1, 25, vec![Sym::T(b'A')])];
    for (number, name) in names.iter().enumerate().filter(|(_, name)| !name.is_empty()) {
        draft.names.insert(number, (filled(name), 0));
    }
    draft.bytes()
}

/// The texts of both readings of `A`, which are parsed back.
fn texts(book: &[u8]) -> [String; 2] {
    let flat = loaded(book);
    let whole = grammar::from_flat(&flat).expect("loaded");
    [row("1.0 0.1 1.2"), row("1.0 1.2 0.1")].map(|row| {
        let text = words(&flat, b"A", &row).expect("a reading");
        assert_eq!(parse::parsed(&whole, text.as_bytes()), Some((b"A".to_vec(), row)));
        text
    })
}

#[test]
fn the_texts_of_book_t() {
    assert_eq!(t_named(["", "", ""]), T);
    assert_eq!(texts(&T), ["#000(#001(),#002(=41))", "#000(#002(=41),#001())"]);
    assert_eq!(texts(&t_named(["BODY", "", ""])), ["BODY(#001(),#002(=41))", "BODY(#002(=41),#001())"]);
    assert_eq!(texts(&t_named(["", "NONE", ""])), ["#000(NONE(),#002(=41))", "#000(#002(=41),NONE())"]);
    assert_eq!(texts(&t_named(["A", "AB", "ABC"])), ["A(AB(),ABC(=41))", "A(ABC(=41),AB())"]);
    let eight = texts(&t_named(["HOUSING1", "HOUSING2", "00000000"]));
    assert_eq!(eight, ["HOUSING1(HOUSING2(),00000000(=41))", "HOUSING1(00000000(=41),HOUSING2())"]);
    assert_eq!(words(&loaded(&T), b"", &row("0.0 0.1 0.1")).as_deref(), Ok("#000(#001(),#001())"));
    compared(&t_named(["A", "AB", "ABC"]), b"A");
}

/// A mark is written as `=` and two digits, also where the place holds a range; a rule without a name has three digits.
#[test]
fn marks_and_numbers() {
    let mut draft = Draft::new(0);
    draft.rules = vec![(1, 0, vec![]); 127];
    draft.rule(0, &[Sym::R(0, 255), Sym::T(b'A')]);
    let flat = loaded(&draft.bytes());
    for mark in 0..=255 {
        assert_eq!(words(&flat, &[mark, b'A'], &[2, 127]), Ok(format!("#127(={mark:02X},=41)")));
    }
    for number in [0, 1, 9, 10, 15, 16, 99, 100, 126] {
        let mut draft = Draft::new(0);
        draft.rules = vec![(1, 0, vec![]); 127];
        draft.rules[number] = (0, 0, vec![]);
        let text = words(&loaded(&draft.bytes()), b"", &[0, number as u16]);
        assert_eq!(text, Ok(format!("#{number:03}()")));
    }
}

/// The buffer may have any length. A text that just fits is written; 18 comes after 12, and before it 8, 9 and 10.
#[test]
fn buffers() {
    let (flat, offered, text) = (loaded(&T), row("1.0 0.1 1.2"), "#000(#001(),#002(=41))");
    for length in 0..=60 {
        let due = if length < text.len() { Err(18) } else { Ok(text.to_string()) };
        assert_eq!(words_in(&flat, b"A", YEAR, &offered, length), due, "{length}");
        assert_eq!(words_in(&flat, b"A", YEAR, &row("1.0 0.1"), length), Err(12));
        assert_eq!(words_in(&flat, b"A", YEAR, &[], length), Err(12));
        assert_eq!(words_in(&flat, &[b'A'; 65], YEAR, &offered, length), Err(9));
        let mut bad = flat;
        bad[0] = 32;
        assert_eq!(words_in(&bad, &[b'A'; 65], YEAR, &offered, length), Err(8));
        let (mut chart, mut buffer, mut bytes) = ([7; CELLS - 1], vec![7; length], 7);
        let ten = reader_under_test().words(&flat, b"A", YEAR, &offered, &mut chart, &mut buffer, &mut bytes);
        assert_eq!((ten, bytes, chart), (Answer::Refused(10), 7, [7; CELLS - 1]));
        assert!(buffer.iter().all(|byte| *byte == 7));
    }
}

/// A reading is written in the years in which its rules are in force, and refused with 12 in others.
#[test]
fn the_year_in_force() {
    let flat = loaded(&SEAL);
    for (year, due) in [(1997, [None, None]), (1998, [Some(0), None]), (2008, [None, Some(1)])] {
        for rule in 0..2 {
            let due = due[usize::from(rule)].map_or(Err(12), |rule| Ok(format!("#00{rule}(=41)")));
            assert_eq!(words_in(&flat, b"A", year, &[1, rule], LONGEST), due);
        }
    }
}

/// k -> k + 1 for k of 0 to 6, 7 -> A 0, 7 -> A, all with names of eight letters: 64 marks have one reading of 512 nodes, 512
/// deep.
fn deep() -> (Vec<u8>, Vec<u16>) {
    let mut draft = Draft::new(0);
    (0..7).for_each(|k| draft.rule(k, &[Sym::N(k + 1)]));
    draft.rule(7, &[Sym::T(b'A'), Sym::N(0)]);
    draft.rule(7, &[Sym::T(b'A')]);
    draft.names = (0..9).map(|rule| (rule, (filled(&format!("DEEPEST{rule}")), 0))).collect();
    let node = |cover: u16, k: u16| [cover, if (cover, k) == (1, 7) { 8 } else { k }];
    let row = (1..=64).rev().flat_map(|cover| (0..8).flat_map(move |k| node(cover, k))).collect();
    (draft.bytes(), row)
}

/// 0 -> eight of 1, 1 -> eight of 2, 2 -> A and seven of 3, 2 -> A A and five of 3, 2 -> nothing, 3 -> nothing, all with names of
/// eight letters. A reading of 64 marks has 512 nodes, and as few nodes with places as eight places each allow, so as many commas
/// as there can be.
fn longest() -> (Vec<u8>, Vec<u16>) {
    let mut draft = Draft::new(0);
    draft.rule(0, &[Sym::N(1); 8]);
    draft.rule(1, &[Sym::N(2); 8]);
    draft.rule(2, &[&[Sym::T(b'A')][..], &[Sym::N(3); 7]].concat());
    draft.rule(2, &[&[Sym::T(b'A'); 2][..], &[Sym::N(3); 5]].concat());
    draft.rule(2, &[]);
    draft.rule(3, &[]);
    draft.names = (0..6).map(|rule| (rule, (filled(&format!("LONGEST{rule}")), 0))).collect();
    let one = [&[1, 2][..], &[0, 5].repeat(7)].concat();
    let last = [&[8, 1][..], &one.repeat(6), &[2, 3], &[0, 5].repeat(5), &[0, 4]].concat();
    let row = [&[64, 0][..], &[&[8, 1][..], &one.repeat(8)].concat().repeat(7), &last].concat();
    (draft.bytes(), row)
}

/// The longest text there is: 10 bytes for each of 512 nodes, 3 for each of 64 marks, and 503 commas.
#[test]
fn the_longest_text() {
    let (book, row) = longest();
    let flat = loaded(&book);
    let text = words_in(&flat, &[b'A'; 64], YEAR, &row, 5815).expect("it just fits");
    assert_eq!((text.len(), text.matches(',').count(), row.len()), (5815, 503, 1024));
    let one = format!("LONGEST2(=41,{})", ["LONGEST5()"; 7].join(","));
    let most = format!("LONGEST1({})", [one.as_str(); 8].join(","));
    let last = format!("LONGEST3(=41,=41,{}),LONGEST4()", ["LONGEST5()"; 5].join(","));
    let last = format!("LONGEST1({},{last})", [one.as_str(); 6].join(","));
    assert_eq!(text, format!("LONGEST0({},{last})", [most.as_str(); 7].join(",")));
    assert_eq!(words_in(&flat, &[b'A'; 64], YEAR, &row, 5814), Err(18));
}

/// 512 nodes, 512 deep or as a bush, are written on a stack of 256 KiB.
#[cfg(feature = "library")]
#[test]
fn large_readings_on_a_small_stack() {
    let call = || {
        let ((deep, deep_row), (longest, longest_row)) = (deep(), longest());
        for (book, input, row, bytes) in [
            (deepest(), vec![b'A'; 16], deepest_row(16), 512 * 6 + 16 * 3 + 15),
            (deep, vec![b'A'; 64], deep_row, 512 * 10 + 64 * 3 + 63),
            (longest, vec![b'A'; 64], longest_row, 5815),
            (blank_bush(0), vec![], blank_bush_row(), 512 * 6 + 6 + 7 * 7 + 56 * 7),
        ] {
            let text = words(&loaded(&book), &input, &row).expect("a reading");
            assert_eq!(text.len(), bytes);
            assert_eq!(words_in(&loaded(&book), &input, YEAR, &row, bytes - 1), Err(18));
        }
    };
    std::thread::Builder::new().stack_size(256 * 1024).spawn(call).unwrap().join().unwrap();
}

/// The deepest reading and the bush of 512 nodes: their texts begin and end like this, and parse back.
#[test]
fn large_readings() {
    let deep_text = words(&loaded(&deepest()), &[b'A'; 16], &deepest_row(16)).expect("a reading");
    assert!(deep_text.starts_with("#000(#001(#002(") && deep_text.ends_with(&format!("#032(=41){}", ")".repeat(511))));
    assert_eq!(deep_text.matches('(').count(), 512);
    let bush = words(&loaded(&blank_bush(0)), b"", &blank_bush_row()).expect("a reading");
    let leaves = format!("#002({})", ["#003()"; 8].join(","));
    let branch = format!("#001({})", [leaves.as_str(); 8].join(","));
    assert_eq!(bush, format!("#000({})", [branch.as_str(); 7].join(",")));
    let named_text = words(&loaded(&deep().0), &[b'A'; 64], &deep().1).expect("a reading");
    let above = "DEEPEST0(DEEPEST1(DEEPEST2(DEEPEST3(DEEPEST4(DEEPEST5(DEEPEST6(";
    let due = [&[above, "DEEPEST7(=41,"].concat().repeat(63), above, "DEEPEST8(=41)"].concat();
    assert_eq!(named_text, due + &")".repeat(511));
    for (book, text, input, row) in [
        (deepest(), deep_text, &[b'A'; 16][..], deepest_row(16)),
        (blank_bush(0), bush, &[], blank_bush_row()),
        (deep().0, named_text, &[b'A'; 64], deep().1),
    ] {
        let whole = grammar::load(&book).expect("a book");
        assert_eq!(parse::parsed(&whole, text.as_bytes()), Some((input.to_vec(), row)));
    }
}

/// Two texts of one book are equal only if plate and reading are: names that are fronts of others, digits, and numbers.
#[test]
fn equal_texts() {
    let mut draft = Draft::new(0);
    draft.rule(0, &[Sym::N(1), Sym::N(1)]);
    (0..4).for_each(|_| draft.rule(1, &[Sym::R(0x40, 0x42)]));
    draft.rule(1, &[]);
    draft.names =
        [(0, (filled("0"), 2)), (1, (filled("001"), 0)), (2, (filled("00"), 1)), (4, (filled("41"), 0))].into();
    let (flat, mut all) = (loaded(&draft.bytes()), std::collections::BTreeMap::new());
    let whole = grammar::from_flat(&flat).expect("loaded");
    for one in 1..=5_u16 {
        for other in 1..=5_u16 {
            let marks = [one, other].iter().filter(|rule| **rule < 5).count();
            for bits in 0..3_u8.pow(marks as u32) {
                let plate: Vec<u8> = [bits % 3, bits / 3][..marks].iter().map(|bit| 0x40 + bit).collect();
                let cover = |rule: u16| u16::from(rule < 5);
                let row = vec![marks as u16, 0, cover(one), one, cover(other), other];
                let text = words(&flat, &plate, &row).expect("a reading");
                assert_eq!(parse::parsed(&whole, text.as_bytes()), Some((plate.clone(), row.clone())));
                assert_eq!(all.insert(text, (plate, row)), None);
            }
        }
    }
    assert_eq!(all.len(), 4 * 4 * 9 + 2 * 4 * 3 + 1);
}

/// What the lister's parser takes for no text of a reading.
#[test]
fn no_texts() {
    let whole = grammar::load(&t_named(["BODY", "", "BODY0"])).expect("a book");
    let parsed = |text: &str| parse::parsed(&whole, text.as_bytes());
    assert_eq!(parsed("BODY(#001(),BODY0(=41))"), Some((b"A".to_vec(), row("1.0 0.1 1.2"))));
    for text in [
        "",
        "BODY",
        "BODY(",
        "BODY()x",
        "BODY())",
        "BODY(#001(),)",
        "BODY(,#001())",
        "BODY(#001()#001())",
        "BODY(=4)",
        "BODY(=4g)",
        "BODY(=4a)",
        "BODY(41)",
        "#000()",
        "#1()",
        "#0001()",
        "#003()",
        "#+01()",
        "BODY    ()",
        "BOD()",
        "body()",
        "=41",
        "()",
    ] {
        assert_eq!(parsed(text), None, "{text}");
    }
}

/// Command 60 has eight operands; its checks are 2, 3, 1 and 17, in this order.
#[test]
fn the_faults_of_60() {
    let start = &[0x10, 0x00][..];
    let rule = &[0x10, 0x00, 0x20, 0x00, 0, 0][..];
    let body = named(b"BODY    ");
    let with = |parts: &[&[u8]]| parts.concat();
    let second = with(&[rule, &body, &[0x20, 0x00, 0, 0]]);
    let mut cases: Vec<(Vec<u8>, u8, usize)> = vec![
        // 3: first, before any rule, or a second name, even cut short
        (vec![0x60], 3, 0),
        (named(b"BODY    "), 3, 0),
        (with(&[start, &[0x60]]), 3, 2),
        (with(&[start, &body]), 3, 2),
        (with(&[start, &named(b"        ")]), 3, 2),
        (with(&[rule, &body, &[0x60]]), 3, 15),
        (with(&[rule, &body, &named(b"OTHER   ")]), 3, 15),
        (with(&[rule, &body, &[0x40, 0x41], &named(b"BODY    ")]), 3, 17),
        (with(&[&second, &named(b"A       "), &[0x60, 0]]), 3, 28),
        // 17: empty, another byte, a blank before a letter or digit, an earlier name
        (with(&[rule, &named(b"        ")]), 17, 6),
        (with(&[rule, &named(b"\0\0\0\0\0\0\0\0")]), 17, 6),
        (with(&[rule, &named(b"BODY\0\0\0\0")]), 17, 6),
        (with(&[rule, &named(b" BODY   ")]), 17, 6),
        (with(&[rule, &named(b"BO DY   ")]), 17, 6),
        (with(&[rule, &named(b"B      Y")]), 17, 6),
        (with(&[rule, &named(b"       0")]), 17, 6),
        (with(&[rule, &named(b"BODy    ")]), 17, 6),
        (with(&[rule, &named(b"BODY   !")]), 17, 6),
        (with(&[&second, &body]), 17, 19),
        (with(&[&second, &[0x40, 0x41], &body]), 17, 21),
        (with(&[&second, &named(b"A       "), &[0x20, 0x00, 0, 0], &body]), 17, 32),
        (with(&[&second, &[0x20, 0x00, 0, 0], &body]), 17, 23),
    ];
    // 1: it ends inside the name, whatever is there of it
    cases.extend((1..9).map(|cut| (with(&[rule, &named(b"    y   ")[..cut]]), 1, 6 + cut)));
    cases.extend((1..9).map(|cut| (with(&[&second, &body[..cut]]), 1, 19 + cut)));
    for (book, number, offset) in cases {
        assert_eq!(fault(&book), (Some((number, offset)), [0; FLAT]), "{book:02X?}");
        assert_eq!((name(&book, 0), name(&book, 1)), (None, None));
    }
}

/// Each byte, as the first and as the last of a name: capitals and digits are accepted, and a blank at the end.
#[test]
fn every_byte_of_a_name() {
    for byte in 0..=255_u8 {
        let letter = byte.is_ascii_uppercase() || byte.is_ascii_digit();
        for (at, accepted) in [(0, letter), (7, letter || byte == b' ')] {
            let mut word = *b"ABCDEFGH";
            word[at] = byte;
            let book = [&[0x10, 0x00, 0x20, 0x00, 0, 0][..], &named(&word), &[0x50]].concat();
            let due = if accepted { None } else { Some((17, 6)) };
            assert_eq!(fault(&book).0, due, "{byte:02X} at {at}");
            let mut flat = loaded(&[0x10, 0x00, 0x20, 0x00, 0, 0, 0x50]);
            flat[record(0) + NAME..record(0) + NAME + NAME_WIDTH].copy_from_slice(&word.map(u16::from));
            let due = if accepted { Answer::Yes } else { Answer::Refused(8) };
            assert_eq!(check(&flat, b"", &[0, 0]), due, "{byte:02X} at {at}, in a row");
            flat[record(0) + NAME + at] = u16::from(byte) + 256;
            assert_eq!(check(&flat, b"", &[0, 0]), Answer::Refused(8));
        }
    }
}

/// A name may come before, between and after the places. It is in the row as eight numbers after the years.
#[test]
fn the_names_of_a_row() {
    for after in 0..=3 {
        let mut draft = Draft::new(0);
        draft.rule(0, &[Sym::T(b'A'), Sym::N(1), Sym::R(b'0', b'9')]);
        draft.rule(1, &[]);
        draft.names.insert(0, (filled("BODY"), after));
        let book = draft.bytes();
        let flat = loaded(&book);
        assert_eq!(flat[record(0)..record(0) + 9], [0, 0, 3, 1, 0x41, 0, 1, 2, 0x3930]);
        assert_eq!(flat[record(0) + NAME..record(1)], [0x42, 0x4F, 0x44, 0x59, 0x20, 0x20, 0x20, 0x20]);
        assert!(flat[record(1) + NAME..].iter().all(|number| *number == 0));
        let at = 7 + [0, 2, 4, 7][after];
        assert_eq!((name(&book, 0), name(&book, 1)), (Some((at, &b"BODY"[..])), None));
        assert_eq!(words(&flat, b"A7", &row("2.0 0.1")).as_deref(), Ok("BODY(=41,#001(),=37)"));
    }
}

/// A row of two used rules with these names.
fn row_named(names: [&[u8; 8]; 3]) -> FlatGrammar {
    let mut flat = loaded(&book(0, &["0: A", "1: 0"]));
    for (rule, name) in names.iter().enumerate() {
        flat[record(rule) + NAME..record(rule) + NAME + NAME_WIDTH].copy_from_slice(&name.map(u16::from));
    }
    flat
}

/// Check 8 refuses what is no name, and equal names, in used rules; eight zeros mean no name. It does not look at unused rules.
#[test]
fn names_in_a_row() {
    const NONE: &[u8; 8] = &[0; 8];
    let bad: [&[u8; 8]; 9] = [
        b"        ",
        b" A      ",
        b"A B     ",
        b"A      B",
        b"a       ",
        b"A\0\0\0\0\0\0\0",
        b"\0A      ",
        b"ABCDEFG\0",
        b"\0\0\0\0\0\0\0A",
    ];
    for name in bad {
        assert_eq!(check(&row_named([name, NONE, NONE]), b"A", &[1, 0]), Answer::Refused(8), "{name:02X?}");
        assert_eq!(check(&row_named([NONE, name, NONE]), b"A", &[1, 0]), Answer::Refused(8), "{name:02X?}");
        assert_eq!(check(&row_named([b"A       ", NONE, name]), b"A", &[1, 0]), Answer::Yes, "{name:02X?}");
    }
    let equal = [b"A       ", b"A       ", NONE];
    assert_eq!(check(&row_named(equal), b"A", &[1, 0]), Answer::Refused(8));
    for names in [
        [NONE, NONE, NONE],
        [b"A       ", NONE, b"A       "],
        [b"A       ", b"AA      ", NONE],
        [b"ABCDEFGH", b"ABCDEFGI", NONE],
        [b"00000000", b"0       ", b"00000000"],
    ] {
        assert_eq!(check(&row_named(names), b"A", &[1, 0]), Answer::Yes, "{names:02X?}");
    }
    // each number is judged by all 16 bits, also in a row without a name
    for at in 0..NAME_WIDTH {
        for number in [256, 0x4100, 65_535] {
            let mut flat = row_named([NONE, NONE, NONE]);
            flat[record(1) + NAME + at] = number;
            assert_eq!(check(&flat, b"A", &[1, 0]), Answer::Refused(8), "{number} at {at}");
        }
    }
    // 128 names, and the last of them twice
    let mut draft = Draft::new(0);
    draft.rules = vec![(0, 0, vec![]); 128];
    draft.names = (0..128).map(|rule| (rule, (filled(&format!("RULE{rule}")), 0))).collect();
    let flat = loaded(&draft.bytes());
    assert_eq!(words(&flat, b"", &[0, 127]).as_deref(), Ok("RULE127()"));
    for (one, other) in [(0, 127), (126, 127), (0, 1), (63, 64)] {
        let mut twice = flat;
        twice.copy_within(record(one) + NAME..record(one) + NAME + NAME_WIDTH, record(other) + NAME);
        assert_eq!(check(&twice, b"", &[0, 0]), Answer::Refused(8), "{one} and {other}");
    }
}

/// The lookup: the part after the 60 of the rule, without the filling. The empty part for a rule without a name, numbers from the
/// count on, and bytes that do not load.
#[test]
fn lookups() {
    // rule 0 has the bytes of its name in a place and in its years too
    let mut draft = Draft::new(0);
    draft.rule(0, &[Sym::T(b'B'), Sym::R(b'B', b'C')]);
    draft.rule(0, &[]);
    draft.rule(0, &[Sym::N(0)]);
    draft.years.insert(0, (0x4242, 0x4243));
    draft.names = [(0, (filled("B"), 2)), (2, (filled("ABCDEFGH"), 1))].into();
    let book = draft.bytes();
    let due = [Some((16, &b"B"[..])), None, Some((35, b"ABCDEFGH")), None];
    assert_eq!([0, 1, 2, 3].map(|rule| name(&book, rule)), due);
    for rule in [4, 127, 128, 255, 256, 258, 65_536, 1 << 32, usize::MAX] {
        assert_eq!(name(&book, rule), None, "{rule}");
    }
    let longer = [&book[..], &[0x50]].concat();
    for end in (0..book.len()).chain([longer.len()]) {
        assert_eq!([0, 1, 2].map(|rule| name(&longer[..end], rule)), [None; 3], "{end}");
    }
    assert_eq!([0, 1].map(|rule| name(&[0x10, 0x00, 0x50], rule)), [None; 2]);
    assert_eq!([0, 1, 2].map(|rule| name(&T, rule)), [None; 3]);
}
