//! Bytes that do not load are refused with the number and the offset of document 01.

#[allow(dead_code)] // not all of it is used here
mod drafts;

use book::{to_bytes, to_text, Refusal};
use drafts::draft;
use outside_tests::books::{book, damage, soup, Rng};
use outside_tests::lister::grammar::load;
use std::collections::BTreeMap;

#[test]
fn each_refusal() {
    let full: Vec<u8> = [&[0x10, 0x00][..], &[0x20, 0x00, 0, 0].repeat(128)].concat();
    let eight = [&[0x10, 0x00, 0x20, 0x00, 0, 0][..], &[0x40, 0x41].repeat(8)].concat();
    let with = |book: &[u8], more: &[u8]| [book, more].concat();
    let cases: Vec<(Vec<u8>, u8, usize)> = vec![
        (vec![], 1, 0),
        (vec![0x10], 1, 1),
        (vec![0x10, 0x00], 1, 2),
        (vec![0x10, 0x00, 0x20, 0xFF, 0], 1, 5),
        (vec![0x00], 2, 0),
        (vec![0x10, 0x00, 0x42], 2, 2),
        (vec![0x50], 3, 0),
        (vec![0x20], 3, 0),
        (vec![0x10, 0x00, 0x10], 3, 2),
        (vec![0x10, 0x00, 0x30], 3, 2),
        (vec![0x10, 0x00, 0x40, 0x41], 3, 2),
        (vec![0x10, 0x20], 4, 0),
        (vec![0x10, 0x00, 0x20, 0x20, 0, 0], 4, 2),
        (vec![0x10, 0x00, 0x20, 0x00, 0, 0, 0x30, 0x20], 4, 6),
        (with(&full, &[0x20, 0x00, 0, 0]), 5, 514),
        (with(&full, &[0x20, 0x20, 0, 0]), 4, 514),
        (with(&full, &[0x20, 0x20, 0]), 1, 517),
        (with(&eight, &[0x40, 0x41]), 6, 22),
        (with(&eight, &[0x30, 0x20]), 4, 22),
        (with(&eight, &[0x40]), 1, 23),
        (vec![0x10, 0x00, 0x41, 0x39, 0x30], 3, 2),
        (with(&eight[..6], &[0x41, 0xFF]), 1, 8),
        (with(&eight[..6], &[0x41, 0x39, 0x30]), 16, 6),
        (with(&eight, &[0x41, 0x39, 0x30]), 16, 22),
        (with(&eight, &[0x41, 0x30, 0x39]), 6, 22),
        (with(&eight, &[0x41, 0x39]), 1, 24),
        (vec![0x21, 0x00, 0, 0, 0, 0, 0, 0], 3, 0),
        (vec![0x10, 0x00, 0x21, 0x20, 0, 0, 1, 0, 0], 1, 9),
        (vec![0x10, 0x00, 0x21, 0x20, 0, 0, 1, 0, 0, 0], 4, 2),
        (vec![0x10, 0x00, 0x21, 0x00, 0, 0, 1, 0, 0, 0], 21, 2),
        (vec![0x10, 0x00, 0x21, 0x00, 0, 0, 0, 1, 255, 0], 21, 2),
        (with(&full, &[0x21, 0x00, 0, 0, 1, 0, 0, 0]), 21, 514),
        (with(&full, &[0x21, 0x00, 0, 0, 1, 0, 1, 0]), 5, 514),
        (vec![0x70], 2, 0),
        (vec![0x10, 0x00, 0x70, 0x00], 2, 2),
        (vec![0x60], 3, 0),
        (vec![0x10, 0x00, 0x60], 3, 2),
        (with(&full[..6], b"\x60BODY    \x60"), 3, 15),
        (with(&full[..6], b"\x60BODY    \x40A\x60OTHER   "), 3, 17),
        (with(&full[..6], b"\x60bod"), 1, 10),
        (with(&full[..6], b"\x60        "), 17, 6),
        (with(&full[..6], b"\x60\0\0\0\0\0\0\0\0"), 17, 6),
        (with(&full[..6], b"\x60BO DY   "), 17, 6),
        (with(&full[..6], b"\x60BODY   \xC3"), 17, 6),
        (with(&full[..6], b"\x60BODY   \x09"), 17, 6),
        (with(&full[..6], b"\x60BODY    \x20\0\0\0\x60A       \x20\0\0\0\x60BODY    "), 17, 32),
        (vec![0x10, 0x00, 0x50, 0x00], 7, 3),
        (vec![0x10, 0x00, 0x50, 0x50, 0x50], 7, 3),
    ];
    for (bytes, number, offset) in cases {
        assert_eq!(to_text(&bytes), Err(Refusal { number, offset }), "{bytes:02X?}");
    }
    assert!(to_text(&with(&full, &[0x50])).is_ok() && to_text(&with(&eight, &[0x50])).is_ok());
}

#[test]
fn refusals_are_printed() {
    let due = [
        "refusal 1 at offset 9: the book ends inside a command, or where one is due",
        "refusal 2 at offset 9: an unknown command",
        "refusal 3 at offset 9: a command out of turn, or a second name of a rule",
        "refusal 4 at offset 9: a kind over 31",
        "refusal 5 at offset 9: the 129th rule",
        "refusal 6 at offset 9: a ninth place",
        "refusal 7 at offset 9: a byte after the end of the book",
        "refusal 16 at offset 9: a reversed range",
        "refusal 17 at offset 9: no name, or that of an earlier rule",
        "refusal 21 at offset 9: reversed years",
    ];
    let printed = (1..=7).chain([16, 17, 21]).map(|number| Refusal { number, offset: 9 }.to_string());
    assert_eq!(printed.collect::<Vec<_>>(), due);
}

/// Damaged books, and random commands, are judged as the lister judges them. Those that load are returned.
#[test]
fn damaged_books_are_judged_as_the_lister_judges_them() {
    let mut came_up: BTreeMap<u8, usize> = BTreeMap::new();
    for seed in 0..20_000 {
        let rng = &mut Rng::new(seed ^ 0xDA_3A6E);
        let mut bytes = match rng.below(4) {
            0 => soup(rng),
            1 => book(seed).bytes,
            _ => draft(rng).bytes(),
        };
        match rng.below(3) {
            0 => damage(rng, &mut bytes),
            1 => {
                bytes.truncate(rng.below(bytes.len() + 1));
                let some = [0x10, 0x20, 0x21, 0x30, 0x40, 0x41, 0x50, 0x60, 0x1F, 0x20, 0xFF];
                bytes.extend((0..rng.below(4)).map(|_| rng.pick(&some)));
            }
            _ => {
                let places = [&[0x40, 0x41, 0x50][..], &[0x30, 0, 0x50], &[0x41, 0, 1, 0x50], &[0x41, 1, 0, 0x50]];
                let rules = [
                    &[0x20, 0, 0, 0, 0x50][..],
                    &[0x21, 0, 0, 0, 1, 0, 0, 0, 0x50],
                    &[0x21, 0, 0, 0, 1, 0, 1, 0, 0x50],
                ];
                let more = if rng.one_in(3) { rng.pick(&rules) } else { rng.pick(&places) };
                bytes.truncate(bytes.len().saturating_sub(1)); // before its end
                for _ in 0..rng.within(1, 9) {
                    bytes.extend(&more[..more.len() - 1]);
                }
                bytes.push(0x50);
            }
        }
        match (to_text(&bytes), load(&bytes)) {
            (Ok(text), Ok(_)) => {
                *came_up.entry(0).or_default() += 1;
                assert_eq!(to_bytes(&text), Ok(bytes));
            }
            (Err(Refusal { number, offset }), Err(due)) => {
                *came_up.entry(number).or_default() += 1;
                assert_eq!((number, offset), due, "{bytes:02X?}");
            }
            (got, due) => panic!("{bytes:02X?}: {got:?}, due {due:?}"),
        }
    }
    let due = [0, 1, 2, 3, 4, 5, 6, 7, 16, 17, 21];
    assert!(
        came_up.keys().eq(&due) && came_up.values().all(|times| *times > 50),
        "loaded (0), or refused: {came_up:?}"
    );
}
