//! The text of a reading: names, numbers and marks, and what is left in chart and buffer.
mod books;

use books::{deep, wide, BLANK_TWINS, MIXED, NAMED, PAIRS, RANGES, T, YEAR};
use filbozseg::*;

/// What the bytes of a buffer and the cells of a chart hold before a call.
const FOUND: u8 = 7;
const CELL: u32 = 7;

/// The texts of all readings of an input.
fn texts(grammar: &Grammar, input: &[u8]) -> Vec<String> {
    grammar.readings(input, YEAR).map(|reading| reading.unwrap().words()).collect()
}

/// The text of a node, by recursion on the tree that the wrapper shows.
fn text_of(node: Node<'_>, input: &[u8]) -> String {
    let rule = node.rule();
    let (mut byte, mut children) = (node.marks().start, node.children());
    let places = rule.places().map(|symbol| match symbol {
        Symbol::Nonterminal(_) => {
            let child = children.next().unwrap();
            byte = child.marks().end;
            text_of(child, input)
        }
        _ => {
            byte += 1;
            format!("={:02X}", input[byte - 1])
        }
    });
    let places = places.collect::<Vec<_>>().join(",");
    format!("{}({places})", rule.name().map_or(format!("#{:03}", rule.number()), |name| name.to_string()))
}

#[test]
fn the_texts_of_book_t() {
    assert_eq!(texts(&load(T).unwrap(), b"A"), ["#000(#001(),#002(=41))", "#000(#002(=41),#001())"]);
    assert_eq!(texts(&load(NAMED).unwrap(), b"A"), ["BODY(#001(),PORT(=41))", "BODY(PORT(=41),#001())"]);
    assert_eq!(texts(&load(NAMED).unwrap(), b"AA"), ["BODY(PORT(=41),PORT(=41))"]);
    assert_eq!(texts(&load(NAMED).unwrap(), b""), ["BODY(#001(),#001())"]);
    assert_eq!(texts(&load(RANGES).unwrap(), b"V09"), ["#001(#002(=56,=30,=39))"]);
    // every mark, through a range of all
    let any = load(b"\x10\x00\x20\x00\x00\x00\x41\x00\xff\x50").unwrap();
    (0..=255).for_each(|mark| assert_eq!(texts(&any, &[mark]), [format!("#000(={mark:02X})")]));
    // rules up to the last number
    let many = [&[0x10, 0][..], &[0x20, 1, 0, 0].repeat(127), &[0x20, 0, 0, 0, 0x50]].concat();
    assert_eq!(texts(&load(&many).unwrap(), b""), ["#127()"]);
}

#[test]
fn each_text_is_that_of_its_tree() {
    let grammars = [T, NAMED, BLANK_TWINS, MIXED, PAIRS, RANGES].map(|book| load(book).unwrap());
    let mut seen = 0;
    for grammar in grammars.iter().chain([&wide(0)]) {
        for input in [&b""[..], b"A", b"AA", b"ACB", b"ABACB", b"AAAAA", b"V12V34"] {
            let readings: Vec<_> = grammar.readings(input, YEAR).map(Result::unwrap).collect();
            let mut texts: Vec<_> = readings.iter().map(Reading::words).collect();
            assert!(readings.iter().zip(&texts).all(|(reading, text)| *text == text_of(reading.root(), input)));
            seen += texts.len();
            texts.sort();
            texts.dedup();
            assert_eq!(texts.len(), readings.len(), "two readings have one text");
        }
    }
    assert!(seen > 30, "{seen}");
}

#[test]
fn a_buffer_is_long_enough_or_left() {
    let (grammar, reading, due) = (load(NAMED).unwrap(), [1, 0, 0, 1, 1, 2], b"BODY(#001(),PORT(=41))");
    let mut filled = vec![CELL; CELLS + 1];
    check(&grammar, b"A", YEAR, &[], &mut filled).unwrap();
    for room in (0..due.len() + 9).chain([TEXT, TEXT + 1]) {
        let (mut buffer, mut chart) = (vec![FOUND; room], vec![CELL; CELLS + 1]);
        let answer = words(&grammar, b"A", YEAR, &reading, &mut chart, &mut buffer).map(|text| text.to_vec());
        assert_eq!(answer, if room < due.len() { Err(Refusal::TextTooLong) } else { Ok(due.to_vec()) }, "{room}");
        let written = answer.map_or(0, |text| text.len());
        assert!(buffer[written..].iter().all(|&byte| byte == FOUND) && chart == filled, "{room}");
    }
}

#[test]
fn the_refusals_come_in_order_and_leave_the_buffer() {
    let (t, good) = (load(T).unwrap(), [1, 0, 0, 1, 1, 2]);
    let mut row = *t.row();
    row[0] = 32;
    let (bad, long) = (Grammar::from_row(&row), [b'A'; 65]);
    let (mut chart, mut buffer) = (vec![CELL; CELLS], vec![FOUND; 3]);
    assert_eq!(words(&bad, &long, YEAR, &[], &mut chart[..9], &mut buffer), Err(Refusal::InvalidGrammar));
    assert_eq!(words(&t, &long, YEAR, &[], &mut chart[..9], &mut buffer), Err(Refusal::InputLength));
    assert_eq!(words(&t, b"A", YEAR, &[], &mut chart[..CELLS - 1], &mut buffer), Err(Refusal::ChartTooShort));
    assert_eq!((&chart, &buffer), (&vec![CELL; CELLS], &vec![FOUND; 3]));
    let mut filled = vec![CELL; CELLS];
    check(&t, b"A", YEAR, &[], &mut filled).unwrap();
    for offered in [&[][..], &good[..5], &[1, 0, 0, 1, 1, 1], &[9; OUTPUT + 2]] {
        chart.fill(CELL);
        let answer = words(&t, b"A", YEAR, offered, &mut chart, &mut buffer);
        assert_eq!(answer, Err(Refusal::NotADerivation), "12 comes before 18");
        assert_eq!((&chart, &buffer), (&filled, &vec![FOUND; 3]));
    }
    chart.fill(CELL);
    assert_eq!(words(&t, b"A", YEAR, &good, &mut chart, &mut buffer), Err(Refusal::TextTooLong));
    assert_eq!((&chart, &buffer), (&filled, &vec![FOUND; 3]));
    // no call on an offered reading needs an output: 11 is never given
    assert_eq!(words(&t, b"A", YEAR, &good, &mut chart, &mut []), Err(Refusal::TextTooLong));
}

/// 512 nodes nested 512 deep, and a bush of 512, on a thread of 256 KiB.
#[test]
fn the_largest_readings_are_written_on_a_small_thread() {
    let (nested, bush) = (deep(), wide(0));
    let readings = [(&nested, &[b'A'; 64][..]), (&bush, b"A")]
        .map(|(grammar, input)| grammar.readings(input, YEAR).next().unwrap().unwrap());
    let texts = std::thread::scope(|scope| {
        let written = || readings.each_ref().map(Reading::words);
        std::thread::Builder::new().stack_size(256 * 1024).spawn_scoped(scope, written).unwrap().join().unwrap()
    });
    // nodes of `#000()`, commas, marks
    let due = [512 * 6 + 15 * 4 + 3 + 64 * 3, 512 * 6 + 64 * 7 + 3];
    assert_eq!(texts.each_ref().map(String::len), due);
    assert!(texts[0].starts_with("#000(#001(#002(") && texts[0].contains("(=41,=41,=41,=41)"));
    assert!(texts[0].ends_with(&")".repeat(512)) && texts[1].starts_with("#000(=41,#001(#002(#003(),#003(),"));
}
