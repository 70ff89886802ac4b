//! Both sides check all 16 bits of each number, and leave the same in what is lent.

use super::{chart, hand, Plain, Proved, Reader, Refusal, CHART, FLAT};
use crate::books::{chain, named, random_full, random_full_of_ranges};
use crate::random::Random;

/// Opens with a row in which one number is changed: both sides give this answer and leave the same hand and chart.
fn opened(row: &[u16; FLAT], at: usize, number: u16) -> u32 {
    let mut row = *row;
    row[at] = number;
    let (mut h, mut k, mut x, mut y) = (hand(), hand(), chart(), chart());
    let code = Proved::open(&row, &mut h, &mut x);
    assert_eq!(code, Plain::open(&row, &mut k, &mut y), "{number} at {at}");
    assert!(h == k && h == [0; 74] && x == y, "{number} at {at}");
    code
}

#[test]
fn both_sides_judge_the_numbers_of_a_row_whole() {
    // 0 -> 1 1, 1 -> nothing, 1 -> A
    let book = b"\x10\x00\x20\x00\xf8\x11\x30\x01\x30\x01\x20\x01\x00\x00\x20\x01\x19\x00\x40A\x50";
    let (mut row, mut offset) = ([9; FLAT], 9);
    assert_eq!((Proved::load(book, &mut row, &mut offset), offset), (1, 9));
    for at in [0, 1, 3, 5, 7, 24, 31, 61, 64] {
        for number in [256, 257, 256 + 31, 0xff00, u16::MAX] {
            assert_eq!(opened(&row, at, number), Refusal::InvalidGrammar.code(), "{number} at {at}");
        }
    }
    // with tag 2 the value 65 is a reversed range
    let more =
        [(0, 32), (1, 129), (3, 32), (5, 9), (7, 32), (64, 2), (64, 3), (64, 255), (65, 256 + 65), (65, u16::MAX)];
    assert!(more.iter().all(|&(at, number)| opened(&row, at, number) == Refusal::InvalidGrammar.code()));
    row[64] = 2;
    for (value, code) in [(0x4141, 1), (0xff00, 1), (0xffff, 1), (0, 1), (0x4041, 264), (1, 264), (0xfeff, 264)] {
        assert_eq!(opened(&row, 65, value), code, "{value:04x}");
    }
    row[64] = 1;
    // the years of the first rule: the last is 65,535
    assert!([0, 1, u16::MAX].iter().all(|&first| opened(&row, 22, first) == if first == 0 { 1 } else { 0 }));
    row[22] = 1;
    assert_eq!((opened(&row, 23, 0), opened(&row, 23, 1)), (Refusal::InvalidGrammar.code(), 0));
    row[22] = 0;
    // the depth, a length, the numbers of an unused place and of an unused rule
    assert!([2, 4, 10, 11, 90, 91, 92, 93, 94, 111, 118].iter().all(|&at| opened(&row, at, u16::MAX) == 1));
}

#[test]
fn both_sides_judge_a_hand_whole_and_leave_a_refused_one() {
    let (mut row, mut offset) = ([9; FLAT], 9);
    assert_eq!(Proved::load(b"\x10\x00\x50", &mut row, &mut offset), 1);
    let of = |count: u16, at: usize, number: u16| {
        let mut hand = [7; 74];
        hand[66..].fill(0);
        (hand[64], hand[at]) = (count, number);
        hand
    };
    let cases = [
        (of(65, 0, 7), Refusal::InvalidRecognizer.code()),
        (of(256 + 3, 0, 7), Refusal::InvalidRecognizer.code()),
        (of(3, 2, 256), Refusal::InvalidRecognizer.code()),
        (of(64, 63, u16::MAX), Refusal::InvalidRecognizer.code()),
        (of(3, 66, 5), Refusal::InvalidRecognizer.code()),
        (of(3, 73, 256), Refusal::InvalidRecognizer.code()),
        (of(64, 70, 66), Refusal::InvalidRecognizer.code()),
        (of(64, 70, u16::MAX), Refusal::InvalidRecognizer.code()),
        (of(64, 0, 7), Refusal::RecognizerFull.code()),
        (of(64, 73, 65), Refusal::RecognizerFull.code()),
        (of(3, 3, u16::MAX), 0),
        (of(3, 66, 4), 0),
    ];
    for (found, code) in cases {
        let (mut h, mut k, mut x, mut y) = (found, found, chart(), chart());
        assert_eq!(Proved::take(&row, &mut h, 65, &mut x), code, "{found:?}");
        assert_eq!(Plain::take(&row, &mut k, 65, &mut y), code, "{found:?}");
        assert!(h == k && x == y && (code == 0) == (h != found), "{found:?}");
        for name in [0, 4, 7, 8, usize::MAX] {
            let (mut h, mut k, mut x, mut y) = (found, found, chart(), chart());
            assert_eq!(Proved::return_to(&row, &mut h, name, &mut x), Plain::return_to(&row, &mut k, name, &mut y));
            assert!(h == k && x == y, "{found:?}, return to {name}");
            assert_eq!(Proved::set_point(&row, &mut h, name, &x), Plain::set_point(&row, &mut k, name, &y));
            assert!(h == k, "{found:?}, set {name}");
        }
    }
}

#[test]
fn both_sides_go_back_to_the_same_points() {
    let (mut random, mut seen) = (Random::new(15), [[0; 2]; 3]); // take, set and return, each let through or refused
    for number in 0..8 {
        let (book, input) = random_book(&mut random, number);
        let (mut row, mut offset) = ([9; FLAT], 9);
        assert_eq!(Proved::load(&book, &mut row, &mut offset), 1);
        let (mut h, mut k, mut x, mut y) = (hand(), hand(), chart(), chart());
        assert_eq!(Proved::open(&row, &mut h, &mut x), Plain::open(&row, &mut k, &mut y));
        for _ in 0..200 {
            let (which, name) = ([0, 0, 0, 0, 0, 0, 1, 2][random.below(8)], random.below(9));
            let (a, b) = match which {
                0 => {
                    let byte = input[usize::from(h[64]) % 64];
                    (Proved::take(&row, &mut h, byte, &mut x), Plain::take(&row, &mut k, byte, &mut y))
                }
                1 => (Proved::set_point(&row, &mut h, name, &x), Plain::set_point(&row, &mut k, name, &y)),
                _ => (Proved::return_to(&row, &mut h, name, &mut x), Plain::return_to(&row, &mut k, name, &mut y)),
            };
            assert_eq!(a, b);
            assert!(h == k && x == y);
            seen[which][usize::from(a > 255)] += 1;
        }
    }
    assert!(seen.iter().flatten().all(|&times| times > 30), "{seen:?}");
}

#[test]
fn both_sides_learn_the_same_rules() {
    let (mut random, mut seen) = (Random::new(16), [0; 23]); // by the number of the refusal; no, and then yes, at the end
    let seals = named(b"\x10\x00\x20\x00\x64\x00\x40A\x20\x00\xc8\x00\x40B\x50");
    let small = b"\x10\x00\x20\x00\x00\x00\x30\x00\x30\x00\x20\x00\x00\x00\x40A\x50";
    let none = b"\x10\x00\x50";
    let full = [&[0x10, 0][..], &[0x20, 0, 1, 0].repeat(128), &[0x50]].concat();
    let rule = b"\x21\x00\x64\x00\x00\x00\x07\x00\x40A\x60LEARNT  \x30\x00\x41AB\x40B\x40B\x40B\x40B\x40B";
    for book in [&seals[..], small, none, &full] {
        let (mut row, mut offset) = ([9; FLAT], 9);
        assert_eq!(Proved::load(book, &mut row, &mut offset), 1);
        row[2] = 0xbeef;
        (row[3..].iter_mut().skip(128 * 29 - 29)).for_each(|number| *number += u16::from(book != full) * 0xbeef);
        let mut compared = |bytes: &[u8]| {
            let count = random.below(5);
            let mut found = [65; 74];
            (found[64], found[65]) = (count as u16, 0);
            found[66..].fill(count as u16 + 1);
            found[66] = if random.below(9) == 0 { 66 } else { 0 };
            let (mut h, mut k, mut x, mut y) = (found, found, chart(), chart());
            let cells = if random.below(9) == 0 { CHART - 1 } else { CHART };
            let (mut f, mut g, mut at, mut to) = (row, row, 99, 99);
            f[0] += if random.below(9) == 0 { 32 } else { 0 };
            g[0] = f[0];
            let before = f;
            let code = Proved::learn(&mut f, &mut h, bytes, &mut x[..cells], &mut at);
            assert_eq!((code, at), (Plain::learn(&mut g, &mut k, bytes, &mut y[..cells], &mut to), to), "{bytes:02x?}");
            assert!(f == g && h == k && x == y, "{bytes:02x?}");
            assert_eq!(code > 255, f == before, "{bytes:02x?}");
            assert!(code < 256 || (h == found && x == chart()), "{bytes:02x?}");
            assert_eq!(code < 256, at == 99, "{bytes:02x?}");
            seen[if code > 255 { code as usize - 256 } else { 22 * code as usize }] += 1;
        };
        for _ in 0..8 {
            (0..=rule.len()).for_each(|cut| compared(&rule[..cut]));
            compared(&[&rule[..], b"\x40B"].concat());
            compared(&[&rule[..], b"\x60OTHER   "].concat());
            compared(&[&rule[..8], &seals[seals.len() - 12..seals.len() - 3]].concat());
        }
        for at in 0..rule.len() {
            for byte in [0, b' ', b'A', b'R', 0x10, 0x20, 0x21, 0x30, 0x40, 0x41, 0x50, 0x60, 0xff] {
                compared(&[&rule[..at], &[byte], &rule[at + 1..]].concat());
                compared(&[&rule[..at], &[byte], &rule[at..]].concat());
            }
        }
    }
    let never = [7, 9, 11, 12, 13, 15, 18, 19];
    assert!((0..23).all(|number| (seen[number] > 5) != never.contains(&number)), "{seen:?}");
}

/// A random book of full size, every second time with ranges.
fn random_book(random: &mut Random, number: usize) -> (Vec<u8>, Vec<u8>) {
    match number % 2 {
        0 => random_full(random),
        _ => random_full_of_ranges(random),
    }
}

/// The input, its front of 5 bytes, of one and of none, and 65 bytes, which are refused; each with the length of an
/// output, of which one is too short.
fn lengths(input: &[u8]) -> [(&[u8], usize); 5] {
    [(input, 1024), (&input[..5], 1030), (&input[..1], 1023), (&[], 1024), (&[65; 65], 1024)]
}

#[test]
fn both_sides_load_the_same_row() {
    let (mut random, mut depths) = (Random::new(13), [0; 33]);
    let mut compared = |book: &[u8]| {
        let (mut row, mut other, mut at, mut to) = ([9; FLAT], [8; FLAT], 9, 9);
        let code = Proved::load(book, &mut row, &mut at);
        assert_eq!((code, at), (Plain::load(book, &mut other, &mut to), to), "{book:02x?}");
        assert!(row == other, "{book:02x?}");
        depths[usize::from(row[2])] += usize::from(code == 1);
    };
    for number in 0..200 {
        let (book, _) = random_book(&mut random, number);
        compared(&book);
        compared(&book[..random.below(book.len())]);
    }
    compared(&chain(&[&[]]));
    // named rules: cut at each byte, and with one byte changed
    let seals = named(b"\x10\x00\x20\x00\x64\x00\x40A\x20\x00\xc8\x00\x40B\x50");
    (0..=seals.len()).for_each(|cut| compared(&seals[..cut]));
    for at in 0..seals.len() {
        for byte in [0, b' ', b'0', b'A', b'R', b'a', 0x50, 0x60, 0xff] {
            compared(&[&seals[..at], &[byte], &seals[at + 1..]].concat());
        }
    }
    // rules with their years: cut at each byte, reversed, and as the 129th
    let seal = b"\x10\x00\x21\x00\x64\x00\xce\x07\xd7\x07\x40A\x21\x00\xc8\x00\xd8\x07\xff\xff\x40A\x50";
    (0..=seal.len()).for_each(|cut| compared(&seal[..cut]));
    let full = [&[0x10, 0][..], &[0x20, 0, 1, 0].repeat(128)].concat();
    for front in [&seal[..2], &full] {
        for rule in [[0x21, 0, 1, 0, 7, 0, 7, 0], [0x21, 0, 1, 0, 0, 1, 255, 0], [0x21, 32, 1, 0, 1, 0, 0, 0]] {
            compared(&[front, &rule, &[0x50]].concat());
        }
    }
    assert!(depths[0] > 10 && depths[1] > 40 && depths[2] > 40 && depths[3] > 10 && depths[32] == 1, "{depths:?}");
}

#[test]
fn both_sides_hand_out_the_same_first_reading() {
    let mut random = Random::new(11);
    let (mut seen, mut empty) = ([0; 3], [0; 3]);
    for number in 0..24 {
        let (book, input) = random_book(&mut random, number);
        let (mut row, mut offset) = ([9; FLAT], 9);
        assert_eq!(Proved::load(&book, &mut row, &mut offset), 1);
        for (input, numbers) in lengths(&input) {
            let (mut x, mut y, mut m, mut n) = (chart(), chart(), 9, 9);
            let (mut a, mut b) = (vec![7u16; numbers], vec![7u16; numbers]);
            let code = Proved::first(&row, input, &mut x, &mut a, &mut m);
            assert_eq!(code, Plain::first(&row, input, &mut y, &mut b, &mut n));
            assert!(
                x == y && a == b && m == n && a[if code == 1 { 2 * m } else { 0 }..].iter().all(|&number| number == 7)
            );
            assert!(code == 1 || m == 9);
            seen[code.min(2) as usize] += 1;
            empty[code.min(2) as usize] += usize::from(input.is_empty());
        }
    }
    assert!(seen[0] > 5 && seen[1] > 5 && seen[2] >= 48, "{seen:?}");
    assert!(empty[0] > 5 && empty[1] > 1, "{empty:?}");
}

#[test]
fn both_sides_hand_out_the_same_next_reading_and_count_alike() {
    let mut random = Random::new(12);
    let mut seen = [0; 6];
    for number in 0..16 {
        let (book, input) = random_book(&mut random, number);
        let (mut row, mut offset) = ([9; FLAT], 9);
        assert_eq!(Proved::load(&book, &mut row, &mut offset), 1);
        for (input, numbers) in lengths(&input) {
            let (mut offered, mut m) = (vec![7; 1024], 9);
            Proved::first(&row, input, &mut chart(), &mut offered, &mut m);
            for _ in 0..4 {
                offered.truncate(2 * m);
                let (mut a, mut b) = (vec![7u16; numbers], vec![7u16; numbers]);
                let (mut x, mut y, mut n) = (chart(), chart(), 9);
                m = 9;
                let code = Proved::next(&row, input, &offered, &mut x, &mut a, &mut m);
                assert_eq!(code, Plain::next(&row, input, &offered, &mut y, &mut b, &mut n));
                assert!(x == y && a == b && m == n && (code == 1 || m == 9 && a == vec![7; numbers]));
                seen[code.min(2) as usize] += 1;
                if code != 1 {
                    break;
                }
                assert!(a[2 * m..].iter().all(|&number| number == 7));
                offered = a;
            }
            if input.len() == 64 {
                continue; // counting takes long here
            }
            let (mut x, mut y, mut m, mut n) = (chart(), chart(), 9, 9);
            let code = Proved::count(&row, input, &mut x, &mut m);
            assert_eq!(code, Plain::count(&row, input, &mut y, &mut n));
            assert!(x == y && m == n && (code == 1 || m == 9));
            seen[3 + (code.min(3) - 1) as usize] += 1;
        }
    }
    assert!(seen[1] > 20 && seen[2] >= 32 && seen[3] > 10 && seen[5] >= 16, "{seen:?}");
}

/// A row whose first rule has this name, and its third another one.
fn row_with(name: &[u8; 8], other: &[u8; 8]) -> [u16; FLAT] {
    let (mut row, mut offset) = ([9; FLAT], 9);
    let book = b"\x10\x00\x20\x00\xf8\x11\x30\x01\x30\x01\x20\x01\x00\x00\x20\x01\x19\x00\x40A\x50";
    assert_eq!(Proved::load(book, &mut row, &mut offset), 1);
    row[24..32].copy_from_slice(&name.map(u16::from));
    row[82..90].copy_from_slice(&other.map(u16::from));
    row
}

#[test]
fn both_sides_judge_the_names_of_a_row() {
    let good = b"SEAL    ";
    let faulty =
        [b"        ", b"SEAL\0\0\0\0", b"\0SEAL   ", b" SEAL   ", b"SE AL   ", b"SEAL   1", b"seal    ", b"SEAL/:@["];
    for (row, due) in [(row_with(good, &[0; 8]), 1), (row_with(good, b"SEALS   "), 1), (row_with(good, good), 264)]
        .into_iter()
        .chain(faulty.iter().flat_map(|bad| [(row_with(bad, good), 264), (row_with(good, bad), 264)]))
    {
        assert_eq!(opened(&row, 2, 0), due, "{:?} {:?}", &row[24..32], &row[82..90]);
        // names of unused rules may be anything
        assert_eq!(opened(&row, 1, 0), 0);
        if row[24..32] == good.map(u16::from) {
            assert_eq!(opened(&row, 1, 2), 1);
        }
    }
}

#[test]
fn both_sides_write_the_same_text_and_find_the_same_names() {
    let mut random = Random::new(14);
    let (mut seen, mut found) = ([0; 3], [0; 2]);
    for number in 0..16 {
        let (book, input) = random_book(&mut random, number);
        let book = if number % 4 < 2 { named(&book) } else { book };
        let (mut row, mut offset) = ([9; FLAT], 9);
        assert_eq!(Proved::load(&book, &mut row, &mut offset), 1);
        for (input, _) in lengths(&input) {
            let (mut offered, mut m) = (vec![7; 1024], 9);
            Proved::first(&row, input, &mut chart(), &mut offered, &mut m);
            offered.truncate(2 * m);
            for room in [5888, 100, 0] {
                let (mut x, mut y, mut m, mut n) = (chart(), chart(), 9, 9);
                let (mut a, mut b) = (vec![7u8; room], vec![7u8; room]);
                let code = Proved::words(&row, input, &offered, &mut x, &mut a, &mut m);
                assert_eq!(code, Plain::words(&row, input, &offered, &mut y, &mut b, &mut n));
                assert!(x == y && a == b && m == n && a[if code == 1 { m } else { 0 }..].iter().all(|&byte| byte == 7));
                seen[if code == 1 { 0 } else { 1 + usize::from(code == Refusal::TextTooLong.code()) }] += 1;
            }
        }
        for rule in [0, 1, 64, 127, 128, usize::MAX] {
            for book in [&book[..], &book[..random.below(book.len())]] {
                let (mut a, mut b) = ((9, 9), (9, 9));
                let code = Proved::name(book, rule, &mut a.0, &mut a.1);
                assert_eq!(code, Plain::name(book, rule, &mut b.0, &mut b.1));
                assert!(a == b && (code == 1 || a == (9, 9)));
                found[code as usize] += 1;
            }
        }
    }
    assert!(seen[0] > 5 && seen[1] > 20 && seen[2] > 5, "{seen:?}");
    assert!(found[0] > 50 && found[1] > 20, "{found:?}");
}
