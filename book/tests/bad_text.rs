//! Each bad text is refused with its line and its reason.

use book::{to_bytes, Fault, Reason};

const LENGTH_DUE: &str = "at the end of the line: `:` and a length in millimetres are due after the places";

/// A start, and a rule with these words in line 2.
fn rule(words: &str) -> String {
    format!("start 0\n{words}\n0 -> - : 0.00\n")
}

/// The text is refused in this line for this reason, which is printed like this.
fn refused(text: &str, line: usize, reason: Reason, printed: &str) {
    let fault = Fault { line, reason };
    assert_eq!(to_bytes(text), Err(fault.clone()), "{text:?}");
    assert_eq!(fault.to_string(), format!("line {line}: {printed}"));
}

/// A reason with its word.
fn with(reason: fn(String) -> Reason, word: &str) -> Reason {
    reason(word.to_string())
}

#[test]
fn without_start() {
    for (text, line) in [("", 1), ("\n", 1), (" # start 0", 1), ("\n\n# start 0\n", 3), ("\n \t\n", 2)] {
        refused(text, line, Reason::NoStart, "there is no `start KIND`");
    }
    for (text, line, word) in [("0 -> - : 0", 1, "0"), ("\n#\nStart 0", 3, "Start"), ("start0", 1, "start0")] {
        let printed = format!("`{word}`: the first statement has to be `start KIND`");
        refused(text, line, with(Reason::StartDue, word), &printed);
    }
}

#[test]
fn a_bad_start() {
    refused("\nstart # 0\nstart 0", 2, Reason::StartWithoutKind, "at the end of the line: a kind is due after `start`");
    refused("start: 0", 1, with(Reason::NotAKind, ":"), "`:`: not a kind: a decimal number from 0 to 31");
    refused("start 0\n\nstart 0", 3, Reason::StartAgain, "a second `start`");
    refused("start 0\n0 -> - : 0\nstart\n", 3, Reason::StartAgain, "a second `start`");
    refused("start 32", 1, with(Reason::KindOver, "32"), "`32`: a kind over 31");
    let printed = "`A`: not a kind: a decimal number from 0 to 31";
    refused("start A", 1, with(Reason::NotAKind, "A"), printed);
    for word in ["'0'", "=00", "-1", "+1", "0x1", "1.0", "->", ":", "\u{664}"] {
        let fault = Fault { line: 1, reason: with(Reason::NotAKind, word) };
        assert_eq!(to_bytes(&format!("start {word}")), Err(fault));
    }
    refused("start 0 1", 1, with(Reason::Further, "1"), "`1`: a word after the end of the statement");
}

#[test]
fn a_bad_left_side() {
    for word in ["32", "256", "288", "99999999999999999999999999", "0032"] {
        let printed = format!("`{word}`: a kind over 31");
        refused(&rule(&format!("{word} -> - : 0")), 2, with(Reason::KindOver, word), &printed);
    }
    for word in ["A", "'A'", "=41", "-1", "->", ":", "\u{feff}0"] {
        let fault = Fault { line: 2, reason: with(Reason::NotAKind, word) };
        assert_eq!(to_bytes(&rule(&format!("{word} 0 : 0"))), Err(fault));
    }
    let printed = "`0\\r\\u{7f}`: not a kind: a decimal number from 0 to 31";
    refused(&rule("0\r\u{7f} -> 0 : 0"), 2, with(Reason::NotAKind, "0\r\u{7f}"), printed);
}

#[test]
fn no_arrow() {
    for words in ["0", "0 # -> 1 : 0"] {
        refused(&rule(words), 2, Reason::ArrowDue(None), "at the end of the line: `->` is due after the left side");
    }
    for (words, word) in [
        ("0 1 1 : 0", "1"),
        ("0 : 0", ":"),
        ("0:0", ":"),
        ("0 = 1 : 0", "="),
        ("0 - > 1 : 0", "-"),
        ("0 --> 1 : 0", "-"),
        ("0 => 1 : 0", "=>"),
        ("0 \u{21d2} 1 : 0", "\u{21d2}"),
    ] {
        let shown = if word == "\u{21d2}" { "\\u{21d2}" } else { word };
        let printed = format!("`{shown}`: `->` is due after the left side");
        refused(&rule(words), 2, Reason::ArrowDue(Some(word.to_string())), &printed);
    }
}

#[test]
fn bad_places() {
    for words in ["0 ->", "0 -> # 1", "0\u{2192}"] {
        let printed = "at the end of the line: places are due after `->`, or `-` for no place";
        refused(&rule(words), 2, Reason::PlacesDue(None), printed);
    }
    for words in ["0 -> : 0", "0->:0"] {
        let printed = "`:`: places are due after `->`, or `-` for no place";
        refused(&rule(words), 2, Reason::PlacesDue(Some(":".to_string())), printed);
    }
    for words in ["0 -> - 1 : 0", "0 -> 1 - : 0", "0 -> - - : 0"] {
        let printed = "`-` says that there is no place, and must be alone";
        refused(&rule(words), 2, Reason::DashWithPlaces, printed);
    }
    for word in ["A", "-1", "1.0", "->", "46.00", "0x41", "1'A'", "x'A'", "\u{e9}", "0..9", "..'9'"] {
        let shown = if word == "\u{e9}" { "\\u{e9}" } else { word };
        let printed =
            format!("`{shown}`: neither a kind (0 to 31) nor a mark ('A', or =41 for any byte) nor a range ('0'..'9')");
        refused(&rule(&format!("0 -> 1 {word} : 0")), 2, with(Reason::NotAPlace, word), &printed);
    }
    refused(&rule("0 -> 1 32 : 0"), 2, with(Reason::KindOver, "32"), "`32`: a kind over 31");
}

#[test]
fn bad_marks() {
    let words = ["'", "''", "''''", "'A", "'AB'", "'A'B", "'A''B'", "'\u{e9}'", "'\t'", "'\u{7f}'", "'# 1", "'  '"];
    let more = ["=", "=4", "=041", "=4G", "=+4", "=\u{e9}", "='A'", "==41", "'\\'x", "'\\n'"];
    for word in words.into_iter().chain(more) {
        // the character after the first quote belongs to the word; a later blank or # ends it
        let due = match word {
            "'" => "' ",
            "'# 1" => "'#",
            "'  '" => "' ",
            _ => word,
        };
        let fault = Fault { line: 2, reason: with(Reason::NotAMark, due) };
        assert_eq!(to_bytes(&rule(&format!("0 -> 1 {word} : 0"))), Err(fault));
    }
    let printed = "`'AB'`: not a mark: one printable ASCII character in quotes, or = and two hexadecimal digits";
    refused(&rule("0 -> 'AB' : 0"), 2, with(Reason::NotAMark, "'AB'"), printed);
    for word in ["'''", "'\\'"] {
        let printed = format!("`{word}`: quote and backslash are the marks =27 and =5C, and cannot be in quotes");
        refused(&rule(&format!("0 -> 1 {word} : 0")), 2, with(Reason::NotInQuotes, word), &printed);
    }
}

#[test]
fn bad_ranges() {
    let words = [
        "'0'..",
        "'0'..9",
        "'0'..='9'",
        "'0'...'9'",
        "'0'..'9",
        "'0'..'9''",
        "'0'..'9'..'9'",
        "=30..=3",
        "=30..=",
        "=3G..=40",
    ];
    let more = ["'0'..\u{e9}", "'0'..'\u{e9}'", "=\u{e9}..'9'", "'0'..''", "'0'..x"];
    for word in words.into_iter().chain(more) {
        let fault = Fault { line: 2, reason: with(Reason::NotARange, word) };
        assert_eq!(to_bytes(&rule(&format!("0 -> 1 {word} : 0"))), Err(fault));
    }
    let printed = "`'0'..`: not a range: a mark, two points and a mark, as in '0'..'9' or =30..=39";
    refused(&rule("0 -> '0'.. '9' : 0"), 2, with(Reason::NotARange, "'0'.."), printed);
    for word in ["'0'.'9'", "'0'-'9'", "''..'9'", "'09'..'9'", "=3..=39", "=030..=39"] {
        let fault = Fault { line: 2, reason: with(Reason::NotAMark, word) };
        assert_eq!(to_bytes(&rule(&format!("0 -> 1 {word} : 0"))), Err(fault));
    }
    for word in ["'9'..'0'", "=39..'0'", "'B'..'A'", "=FF..=00", "=01..=00", "'a'..'Z'"] {
        let printed = format!("`{word}`: a reversed range: its first mark is over its last");
        refused(&rule(&format!("0 -> 1 {word} : 0")), 2, with(Reason::RangeReversed, word), &printed);
    }
    for word in ["'''..'9'", "' '..'''", "'0'..'\\'", "'\\'..'a'"] {
        let printed = format!("`{word}`: quote and backslash are the marks =27 and =5C, and cannot be in quotes");
        refused(&rule(&format!("0 -> 1 {word} : 0")), 2, with(Reason::NotInQuotes, word), &printed);
    }
    // a word is checked before it is found to be one too many
    let ninth = with(Reason::NinthPlace, "'0'..'9'");
    refused(&rule("0 -> 1 1 1 1 1 1 1 1 '0'..'9' : 0"), 2, ninth, "`'0'..'9'`: a ninth place");
    let printed = "`'9'..'0'`: a reversed range: its first mark is over its last";
    refused(&rule("0 -> 1 1 1 1 1 1 1 1 '9'..'0' : 0"), 2, with(Reason::RangeReversed, "'9'..'0'"), printed);
}

#[test]
fn a_ninth_place() {
    for (rest, word) in [("2 : 0", "2"), ("'A' 1 1 :", "'A'"), ("=41", "=41")] {
        let words = format!("0 -> 1 1 1 1 1 1 1 1 {rest}");
        refused(&rule(&words), 2, with(Reason::NinthPlace, word), &format!("`{word}`: a ninth place"));
    }
    // a word is checked before it is found to be one too many
    refused(&rule("0 -> 1 1 1 1 1 1 1 1 32 : 0"), 2, with(Reason::KindOver, "32"), "`32`: a kind over 31");
}

#[test]
fn a_bad_length() {
    for words in ["0 -> 1", "0 -> 1 :", "0 -> - : # 0", "0 -> 1 ':'"] {
        refused(&rule(words), 2, Reason::LengthDue, LENGTH_DUE);
    }
    let words =
        ["46.001", "46.000", "46.", ".5", "-", "+", "--1", "1e2", "46,00", "46mm", "'1'", ":", "1.-5", "1.2.3", "->"];
    for word in words {
        let printed = format!("`{word}`: not a length: millimetres, with at most two decimals");
        refused(&rule(&format!("0 -> - : {word}")), 2, with(Reason::NotALength, word), &printed);
    }
    for word in ["327.68", "-327.69", "328", "655.36", "-1000", "99999999999999999999999999.99", "42949673.21"] {
        let printed = format!("`{word}`: a length out of range: -327.68 to 327.67");
        refused(&rule(&format!("0 -> - : {word}")), 2, with(Reason::LengthOver, word), &printed);
    }
    for (words, word) in [("0 -> 1 : 1 mm", "mm"), ("0 -> 1 : 1 : 2", ":"), ("0 -> - : 1 -", "-")] {
        let printed = format!("`{word}`: a word after the end of the statement");
        refused(&rule(words), 2, with(Reason::Further, word), &printed);
    }
}

#[test]
fn bad_years() {
    for words in ["years", "years 1998", "years # 1998 2007"] {
        let printed = "at the end of the line: a first and a last year are due after `years`";
        refused(&rule(&format!("0 -> - : 1 {words}")), 2, Reason::YearsDue, printed);
    }
    for word in ["x", "-1", "+1", "1998.", "1998-2007", "0x7CE", "'1'", "years", "\u{664}"] {
        let fault = Fault { line: 2, reason: with(Reason::NotAYear, word) };
        assert_eq!(to_bytes(&rule(&format!("0 -> - : 1 years {word} 2007"))), Err(fault.clone()));
        assert_eq!(to_bytes(&rule(&format!("0 -> - : 1 years 1998 {word}"))), Err(fault));
    }
    let printed = "`x`: not a year: a decimal number from 0 to 65535";
    refused(&rule("0 -> - : 1 years x"), 2, with(Reason::NotAYear, "x"), printed);
    for word in ["65536", "067534", "100000", "99999999999999999999999999"] {
        let printed = format!("`{word}`: a year over 65535");
        refused(&rule(&format!("0 -> - : 1 years 0 {word}")), 2, with(Reason::YearOver, word), &printed);
    }
    for (words, shown) in [("2008 2007", "2008 2007"), ("1 0", "1 0"), ("065535 00", "65535 0")] {
        let printed = format!("`{shown}`: reversed years: the first is over the last");
        refused(&rule(&format!("0 -> - : 1 years {words}")), 2, with(Reason::YearsReversed, shown), &printed);
    }
    for (words, word) in [("1 years 1998 2007 years", "years"), ("1 year 1998 2007", "year"), ("1 1998 2007", "1998")] {
        let printed = format!("`{word}`: a word after the end of the statement");
        refused(&rule(&format!("0 -> - : {words}")), 2, with(Reason::Further, word), &printed);
    }
    // a word is checked before it is found to be one too many
    let printed = "`3 2`: reversed years: the first is over the last";
    refused(&rule("0 -> - : 1 years 3 2 1"), 2, with(Reason::YearsReversed, "3 2"), printed);
}

#[test]
fn bad_names() {
    for words in ["name", "years 1998 2007 name", "name # BODY"] {
        let printed = "at the end of the line: a name is due after `name`";
        refused(&rule(&format!("0 -> - : 1 {words}")), 2, Reason::NameDue, printed);
    }
    for word in ["body", "Body", "BODY-1", "NINELETTER", "123456789", "'A'", "=41", "->", ":", "\u{c4}", "A,"] {
        let shown = if word == "\u{c4}" { "\\u{c4}" } else { word };
        let printed = format!("`{shown}`: not a name: one to eight capitals A to Z and digits");
        refused(&rule(&format!("0 -> - : 1 name {word}")), 2, with(Reason::NotAName, word), &printed);
    }
    for words in ["0 -> 1 : 1 name A after", "0 -> 1 : 1 years 0 1 name A after # 1"] {
        let printed = "at the end of the line: a number of places is due after `after`";
        refused(&rule(words), 2, Reason::AfterDue, printed);
    }
    for word in ["3", "9", "-1", "+1", "x", "1.0", "'1'", "99999999999999999999999999", "name"] {
        let printed = format!("`{word}`: not a number of places: a decimal number, not over that of the rule's places");
        refused(&rule(&format!("0 -> 1 1 : 1 name A after {word}")), 2, with(Reason::NotAfter, word), &printed);
    }
    assert!(to_bytes(&rule("0 -> 1 1 : 1 name A after 2")).is_ok());
    for (words, word) in [
        ("1 name A B", "B"),
        ("1 name A name B", "name"),
        ("1 name A years 1998 2007", "years"),
        ("1 name A after 0 0", "0"),
        ("1 Name A", "Name"),
        ("1 A", "A"),
        ("1 years 1998 2007 A", "A"),
    ] {
        let printed = format!("`{word}`: a word after the end of the statement");
        refused(&rule(&format!("0 -> - : {words}")), 2, with(Reason::Further, word), &printed);
    }
    // the name of any earlier rule, not of the last one only; all letters are compared
    let again = "start 0\n0 -> - : 0 name A\n0 -> - : 0 name AB\n0 -> - : 0\n0 -> 1 : 0 name A after 0\n";
    refused(again, 5, with(Reason::NameAgain, "A"), "`A`: the name of an earlier rule");
    // a word is checked before the name is found to be given before
    refused(
        &again.replace("after 0", "x"),
        5,
        with(Reason::Further, "x"),
        "`x`: a word after the end of the statement",
    );
}

#[test]
fn the_129th_rule() {
    let full = format!("start 0\n#\n{}", "0 -> - : 0\n".repeat(128));
    assert_eq!(to_bytes(&full).map(|bytes| bytes.len()), Ok(2 + 4 * 128 + 1));
    let printed = "`07`: the left side of a 129th rule";
    refused(&format!("{full}\n07 -> - : 0\nx"), 132, with(Reason::TooManyRules, "07"), printed);
    // a word is checked before the rule is found to be one too many
    refused(&format!("{full}32 -> - : 0\n"), 131, with(Reason::KindOver, "32"), "`32`: a kind over 31");
    refused(&format!("{full}0 -> -\n"), 131, Reason::LengthDue, LENGTH_DUE);
    // the rule is too many before its name is found to be given before, as in the bytes
    let named = full.replacen(": 0", ": 0 name A", 1);
    let printed = "`0`: the left side of a 129th rule";
    refused(&format!("{named}0 -> - : 0 name A\n"), 131, with(Reason::TooManyRules, "0"), printed);
}

#[test]
fn the_first_fault_counts() {
    let printed = "`x`: neither a kind (0 to 31) nor a mark ('A', or =41 for any byte) nor a range ('0'..'9')";
    refused("start 0\r\n\r\n0 -> x 32 : y\r\nz", 3, with(Reason::NotAPlace, "x"), printed);
    refused("start 32 0\nstart 0", 1, with(Reason::KindOver, "32"), "`32`: a kind over 31");
}
