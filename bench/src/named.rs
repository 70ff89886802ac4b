//! What names cost: check 8 with and without them, the text of a reading, and the lookup of a name.

use crate::books;
use crate::calls::{chart, Flat, Plain, Proved, Reader};
use crate::plain::Refusal;
use crate::timing::{difference, pair, shown};
use crate::{heading, line, loaded, sink};
use filbozseg::TEXT;
use std::hint::black_box;

/// A call that is refused 9: it reads the flat row and does check 8, and no more.
fn refused<R: Reader>(flat: &Flat, sheet: &mut [u32]) {
    sink(R::check(black_box(flat), &[65; 65], &[], sheet));
}

/// How much longer check 8 takes for 128 named rules than for the same rules without names, and for these than for a
/// book without rules.
fn check_eight() {
    heading(
        "CHECK 8 of 128 rules of 8 ranges",
        &["A call refused 9: it reads the flat row, checks it, and does no more."],
    );
    let book = books::full_of_ranges();
    let rows = [loaded(&[0x10, 0, 0x50]), loaded(&book), loaded(&books::named(&book))];
    let (mut x, mut y) = (chart(), chart());
    for (name, row) in ["no rules", "128 rules without names", "128 rules with names"].iter().zip(&rows) {
        assert_eq!(Proved::check(row, &[65; 65], &[], &mut x), Refusal::InputLength.code());
        assert_eq!(Plain::check(row, &[65; 65], &[], &mut y), Refusal::InputLength.code());
        line(name, pair(|| refused::<Proved>(row, &mut x), || refused::<Plain>(row, &mut y)));
    }
    let a = difference(|| refused::<Proved>(&rows[2], &mut x), || refused::<Proved>(&rows[1], &mut y), 3001);
    let b = difference(|| refused::<Plain>(&rows[2], &mut x), || refused::<Plain>(&rows[1], &mut y), 3001);
    let said = |(d, error): (f64, f64)| format!("{} ± {}", shown(d), shown(error));
    println!("    names aside: proved {}; plain {}", said(a), said(b));
}

/// Both sides write the same text into the same buffers, or refuse alike: short, exact, longer.
fn words_both(flat: &Flat, input: &[u8], offered: &[u16]) -> Vec<u8> {
    let write = |room: usize| {
        let (mut x, mut y, mut m, mut n) = (chart(), chart(), 9, 9);
        let (mut a, mut b) = (vec![7; room], vec![7; room]);
        let code = Proved::words(flat, input, offered, &mut x, &mut a, &mut m);
        assert_eq!(code, Plain::words(flat, input, offered, &mut y, &mut b, &mut n));
        assert!(x == y && a == b && m == n && (code == 1 || m == 9), "the texts differ");
        (code, a, m)
    };
    let (code, mut text, bytes) = write(TEXT);
    assert_eq!(code, 1);
    assert_eq!((write(bytes).0, write(bytes - 1).0, write(0).0), (1, 256 + 18, 256 + 18));
    text.truncate(bytes);
    text
}

fn words() {
    heading(
        "WORDS of a reading of 512 parts",
        &["One call on both sides: it fills the chart and checks the reading as length does, and then writes the text."],
    );
    for (name, (book, input, reading)) in
        [("nested 512 deep", books::deepest()), ("bush of empty parts", books::bush())]
    {
        for (names, book) in [("without names", book.clone()), ("with names", books::named(&book))] {
            let flat = loaded(&book);
            let text = words_both(&flat, &input, &reading);
            let (mut x, mut y, mut s, mut t) = (chart(), chart(), [0; TEXT], [0; TEXT]);
            let (mut m, mut n) = (0, 0);
            line(
                &format!("{name}, {names}, {} bytes", text.len()),
                pair(
                    || sink(Proved::words(black_box(&flat), &input, &reading, &mut x, &mut s, &mut m)),
                    || sink(Plain::words(black_box(&flat), &input, &reading, &mut y, &mut t, &mut n)),
                ),
            );
        }
        let flat = loaded(&book);
        let (mut x, mut y, mut s, mut t) = (chart(), chart(), 0, 0);
        line(
            "  length of the same",
            pair(
                || sink(Proved::length(black_box(&flat), &input, &reading, &mut x, &mut s)),
                || sink(Plain::length(black_box(&flat), &input, &reading, &mut y, &mut t)),
            ),
        );
    }
}

fn lookups() {
    heading(
        "NAME of a rule in the bytes of a book",
        &["On both sides the call reads the whole book, as loading does."],
    );
    let book = books::named(&books::full_of_ranges());
    for (case, book, rule) in [
        ("rule 0 of 128", &book[..], 0),
        ("rule 127 of 128", &book[..], 127),
        ("rule 128 of 128: none", &book[..], 128),
        ("a book that does not load: none", &book[..book.len() - 1], 0),
    ] {
        let (mut a, mut b) = ((9, 9), (9, 9));
        let code = Proved::name(book, rule, &mut a.0, &mut a.1);
        assert_eq!(code, Plain::name(book, rule, &mut b.0, &mut b.1));
        assert!(a == b && (code == 1 || a == (9, 9)), "the names differ");
        line(
            case,
            pair(
                || sink(Proved::name(black_box(book), rule, &mut a.0, &mut a.1)),
                || sink(Plain::name(black_box(book), rule, &mut b.0, &mut b.1)),
            ),
        );
    }
}

pub fn names() {
    check_eight();
    words();
    lookups();
}
