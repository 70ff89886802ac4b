//! Refusals by number and code, known and unknown, and the largest book.
use filbozseg::{load, Refusal, BOOK};

/// A code from 257 to 511 is a refusal, whether this version knows it or not; no other code is one.
#[test]
fn each_code_of_a_refusal_is_one() {
    for code in (0..2000).chain([u32::MAX]) {
        let refusal = Refusal::of_code(code);
        assert_eq!(refusal.map(Refusal::code), (257..512).contains(&code).then_some(code));
        let known = refusal.is_some_and(|refusal| Refusal::ALL.contains(&refusal));
        assert_eq!(known, (257..=277).contains(&code), "{code}");
        if let Some(refusal) = refusal {
            assert_eq!(u32::from(refusal.number()), code - 256);
            assert_eq!(Refusal::of_number(refusal.number()), known.then_some(refusal));
            assert_eq!(matches!(refusal, Refusal::Unknown { .. }), !known);
            assert!(refusal.to_string().ends_with(&format!(" (refusal {})", code - 256)));
        }
    }
}

/// A book of the most bytes loads; with one more place, rule or byte it does not.
#[test]
fn the_largest_book_loads() {
    let place = b"\x41\x00\xff";
    let rule = |name: usize| {
        let name = format!("\x60{name:08}");
        [&b"\x21\x1f\xff\xff\x00\x00\xff\xff"[..], name.as_bytes(), &place.repeat(8)].concat()
    };
    let book = |rest: &[u8]| {
        let rules: Vec<u8> = (0..128).flat_map(rule).collect();
        [&b"\x10\x1f"[..], &rules, rest].concat()
    };
    let largest = book(b"\x50");
    assert_eq!((largest.len(), load(&largest).unwrap().rules().len()), (BOOK, 128));
    for (rest, due) in [
        (&place[..], Refusal::TooManyPlaces),
        (&rule(128), Refusal::TooManyRules),
        (b"\x6000000128", Refusal::OutOfTurn),
        (b"\x50\x50", Refusal::FurtherByte),
        (b"", Refusal::UnexpectedEnd),
    ] {
        assert_eq!(load(&book(rest)).unwrap_err().refusal, due);
    }
}
