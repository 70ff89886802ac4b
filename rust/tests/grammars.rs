//! The accessors of a grammar agree with its row, whatever the row holds.
mod books;

use books::{deep, MIXED, RANGES, T, YEAR};
use filbozseg::*;

#[test]
fn a_loaded_grammar_says_its_rules() {
    let t = load(T).unwrap();
    assert_eq!((t.start(), t.nullable_depth(), t.rules().len()), (0, 2, 3));
    let rules: Vec<_> =
        t.rules().map(|rule| (rule.number(), rule.left(), rule.length(), rule.places().len())).collect();
    assert_eq!(rules, [(0, 0, 4600, 2), (1, 1, 0, 0), (2, 1, 25, 1)]);
    assert_eq!(t.rule(0).unwrap().places().collect::<Vec<_>>(), [Symbol::Nonterminal(1); 2]);
    assert_eq!((t.rule(2), t.rule(3)), (t.rules().next_back(), None));
    let mixed: Vec<_> = load(MIXED).unwrap().rules().map(|rule| rule.to_string()).collect();
    assert_eq!(mixed, ["0 -> 1 0", "0 -> 1", "1 -> 'A' 2 'B'", "1 -> 2 2", "2 -> -", "2 -> 'C'"]);
    let other = load(b"\x10\x1f\x20\x03\xe7\xff\x40\x00\x40\xff\x40'\x50").unwrap();
    assert_eq!((other.start(), other.nullable_depth(), other.rule(0).unwrap().length()), (31, 0, -25));
    assert_eq!(
        format!("{other:?}"),
        r"Grammar { start: 31, nullable_depth: 0, rules: [3 -> '\x00' '\xff' '\'' (-25)] }"
    );
    assert_eq!(deep().rules().len(), 33);
}

#[test]
fn a_range_says_its_two_ends() {
    let grammar = load(RANGES).unwrap();
    let bore = grammar.rule(2).unwrap();
    let digit = Symbol::Range(b'0', b'9');
    assert_eq!(bore.places().collect::<Vec<_>>(), [Symbol::Terminal(b'V'), digit, digit]);
    assert_eq!(bore.to_string(), "1 -> 'V' '0'..'9' '0'..'9'");
    assert_eq!(grammar.rule(4).unwrap().to_string(), r"2 -> '\x00'..'\xff'");
    assert_eq!(grammar.row()[63..70], [3, 1, 0x56, 2, 0x3930, 2, 0x3930]);
    // a range of one byte is no terminal
    assert_ne!(Symbol::Range(65, 65), Symbol::Terminal(65));
    assert_eq!(
        (Symbol::Range(65, 65).to_string(), Symbol::Range(39, 92).to_string()),
        ("'A'..'A'".into(), r"'\''..'\\'".into())
    );
}

#[test]
fn any_row_is_read_as_the_library_reads_it() {
    let rubbish = Grammar::from_row(&[u16::MAX; ROW]);
    assert_eq!((rubbish.start(), rubbish.nullable_depth(), rubbish.rules().len()), (255, 255, 128));
    for rule in rubbish.rules() {
        assert_eq!((rule.left(), rule.length(), rule.years()), (255, -1, 65_535..=65_535));
        assert_eq!(rule.name().unwrap().as_bytes(), [255; 8]);
        assert_eq!(rule.places().collect::<Vec<_>>(), [Symbol::Nonterminal(255); 8]);
    }
    let mut row = [0; ROW];
    row[..14].copy_from_slice(&[256, 1, 300, 257, 1, 4, 1, 255, 1, 256, 3, 0, 2, 0x3039]);
    let bad = Grammar::from_row(&row);
    assert_eq!((bad.start(), bad.nullable_depth(), bad.rules().len(), bad.rule(0).unwrap().left()), (255, 255, 1, 255));
    let places: Vec<_> = bad.rule(0).unwrap().places().collect();
    let none = Symbol::Nonterminal(255);
    assert_eq!(places, [Symbol::Terminal(255), none, none, Symbol::Range(0x39, 0x30)]);
    let empty = Grammar::from_row(&[0; ROW]);
    assert_eq!((empty.rules().len(), empty.rule(0), empty.readings(b"A", YEAR).next()), (0, None, None));
}
