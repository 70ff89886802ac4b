//! Compares the proved library with the same algorithms in plain Rust, on the same inputs, in one run. Every case is
//! first run on both sides, and the results must be equal (codes, flat rows, offsets, hands, all words of the chart).
//! Only then is it timed.

mod calls;
mod firsts;
mod learns;
mod named;
mod nexts;
mod points;
mod program;
mod spans;
mod timing;

use bench::{books, plain, random};
use books::{A, P};
use calls::{chart, hand, Flat, Hand, Plain, Proved, Reader};
use plain::flat::FLAT;
use plain::Refusal;
use random::Random;
use std::hint::black_box;
use std::time::Instant;
use timing::{difference, pair, shown, Time};

/// Keeps a result from being optimised away.
fn sink(code: impl Sized) {
    black_box(code);
}

fn heading(title: &str, notes: &[&str]) {
    println!("\n{title}");
    for note in notes {
        println!("  {note}");
    }
    println!(
        "  {:50} {:>10} {:>10} {:>6}   {:>10} {:>10} {:>6}",
        "case", "proved", "plain", "ratio", "least", "least", "ratio"
    );
}

fn line(case: &str, (proved, plain): (Time, Time)) {
    println!(
        "  {case:50} {:>10} {:>10} {:>6.2}   {:>10} {:>10} {:>6.2}",
        shown(proved.median),
        shown(plain.median),
        proved.median / plain.median,
        shown(proved.least),
        shown(plain.least),
        proved.least / plain.least
    );
}

fn load_average() -> String {
    let text = std::fs::read_to_string("/proc/loadavg").unwrap_or_default();
    text.split(' ').take(3).collect::<Vec<_>>().join(" ")
}

/// The flat row of a book that loads, equal on both sides.
fn loaded(book: &[u8]) -> Flat {
    let (code, row, _) = load_both(book);
    assert_eq!(code, 1);
    row
}

fn load_both(book: &[u8]) -> (u32, Flat, usize) {
    let (mut a, mut b) = ([1u16; FLAT], [2u16; FLAT]);
    let (mut at, mut to) = (usize::MAX, usize::MAX); // left so where the book is loaded
    let code = Proved::load(book, &mut a, &mut at);
    assert_eq!(code, Plain::load(book, &mut b, &mut to));
    assert_eq!(at, to);
    assert!(a == b, "the grammars differ");
    (code, a, at)
}

/// Both sides say the same of an offered row and leave the same chart.
fn check_both(flat: &Flat, input: &[u8], offered: &[u16]) -> u32 {
    let (mut c, mut d) = (chart(), chart());
    let code = Proved::check(flat, input, offered, &mut c);
    assert_eq!(code, Plain::check(flat, input, offered, &mut d));
    assert!(c == d, "the charts differ");
    code
}

/// Both sides answer the same after each mark and leave the same hand and the same chart as a check does.
fn feed_both(flat: &Flat, input: &[u8]) -> (Hand, Vec<u32>) {
    let (mut c, mut d, mut e) = (chart(), chart(), chart());
    let (mut h, mut k) = (hand(), hand());
    let answers = Proved::feed(flat, input, &mut h, &mut c);
    assert_eq!(answers, Plain::feed(flat, input, &mut k, &mut d));
    assert!(answers.iter().all(|&code| code < 2) && h == k && c == d, "the charts differ");
    assert_eq!(check_both(flat, input, &[]), 0);
    Proved::check(flat, input, &[], &mut e);
    assert!(c == e, "the charts of taking and checking differ");
    (h, c)
}

fn time_load(case: &str, book: &[u8]) {
    load_both(book);
    let (mut a, mut b) = ([0u16; FLAT], [0u16; FLAT]);
    let (mut at, mut to) = (0, 0);
    line(
        case,
        pair(
            || sink(Proved::load(black_box(book), &mut a, &mut at)),
            || sink(Plain::load(black_box(book), &mut b, &mut to)),
        ),
    );
}

fn loads() {
    heading(
        "LOAD",
        &["From the bytes to the flat row, on both sides; a refused book writes the row of the grammar without rules."],
    );
    let full = books::full();
    assert_eq!(full.len(), 2563);
    time_load("full valid book, 2,563 bytes", &full);
    let mut faulty = full.clone();
    faulty[2562] = 0x70;
    let (code, _, at) = load_both(&faulty);
    assert_eq!((code, at), (Refusal::UnknownCommand.code(), 2562));
    time_load("the same, unknown byte at 2,562", &faulty);
    let ranges = books::full_of_ranges();
    assert_eq!((ranges.len(), loaded(&ranges)[1]), (3587, 128));
    time_load("full valid book of ranges, 3,587 bytes", &ranges);
    let named = books::named(&ranges);
    assert_eq!((named.len(), loaded(&named)[1]), (4739, 128));
    time_load("the same with 128 names, 4,739 bytes", &named);
    time_load("empty chain of 32 kinds, one found in each pass", &books::chain(&[&[]]));
    time_load("10 00 50", &[0x10, 0, 0x50]);
}

struct Case {
    name: &'static str,
    flat: Flat,
    input: Vec<u8>,
}

fn cases() -> Vec<Case> {
    let a = vec![b'A'; 64];
    let case = |name, book: Vec<u8>, input: &[u8]| Case { name, flat: loaded(&book), input: input.to_vec() };
    let list = vec![
        case("0 -> 0 0 | A", books::pairs(), &a),
        case("expressions, 40 rules", books::expressions(), &books::expression()),
        case("dense full book, 128 rules", books::dense(), &a),
        case("unit cycles, 127 over 32 kinds, 0 -> A", books::unit_cycles(&[]), &a),
        case("unit cycles, 126, 0 -> 0 0, 0 -> A", books::unit_cycles(&[&[P::N(0), P::N(0)]]), &a),
        case("complete unit graph of 11 kinds, 111 rules", books::unit_graph(), &a),
        case("hidden left recursion, nullable kinds", books::hidden(), &a),
        case("chain k -> k+1, 31 -> A | nothing", books::chain(&[&[A], &[]]), &a),
        case("the same on every span, 31 -> A 31 | nothing", books::chain(&[&[A, P::N(31)], &[]]), &a),
        case("worst by hand: most work, 128 rules", books::worst(), &a),
        case("worst by hand: mixed places, 128 rules", books::worst_mixed(), &a),
        case("0 -> 0 0 | 00..FF", books::pairs_of_any(), &a),
    ];
    for c in &list {
        assert_eq!(c.input.len(), 64);
        let (_, chart) = feed_both(&c.flat, &c.input);
        let bits: u32 = chart.iter().map(|word| word.count_ones()).sum();
        let said = if chart[64] & 1 == 1 { "complete" } else { "not complete" };
        println!("  {:50} {:3} rules, {bits:5} bits in the chart, {said}", c.name, c.flat[1]);
    }
    list
}

/// The slowest fill of the proved library, by the least of its runs, and its case.
fn fills(list: &[Case]) -> (f64, String) {
    let mut worst = (0.0, String::new());
    heading(
        "FILL at 64 marks, mode A: open, then take 64 times",
        &["On both sides each of the 65 calls reads the flat row, does check 8 and packs the grammar."],
    );
    for c in list {
        let (mut h, mut k) = (hand(), hand());
        let (mut x, mut y) = (chart(), chart());
        let times = pair(
            || sink(Proved::feed(black_box(&c.flat), &c.input, &mut h, &mut x)),
            || sink(Plain::feed(black_box(&c.flat), &c.input, &mut k, &mut y)),
        );
        line(c.name, times);
        if times.0.least > worst.0 {
            worst = (times.0.least, format!("mode A, {}", c.name));
        }
    }
    heading(
        "FILL at 64 marks, mode B: check of an offered row of no numbers",
        &["On both sides one call: it reads the flat row, does checks 8 to 10, packs once, fills, and says no at once."],
    );
    for c in list {
        let (mut x, mut y) = (chart(), chart());
        let times = pair(
            || sink(Proved::check(black_box(&c.flat), &c.input, &[], &mut x)),
            || sink(Plain::check(black_box(&c.flat), &c.input, &[], &mut y)),
        );
        line(c.name, times);
        if times.0.least > worst.0 {
            worst = (times.0.least, format!("mode B, {}", c.name));
        }
    }
    worst
}

fn takes(list: &[&Case]) {
    heading("TAKE of the 64th mark", &["One call on both sides: flat row, check 8, pack, column 64."]);
    for c in list {
        let (full, sheet) = feed_both(&c.flat, &c.input);
        let mut before = full;
        (before[63], before[64]) = (0, 63);
        let (mut x, mut y) = (sheet.clone(), sheet.clone());
        let (mut h, mut k) = (before, before);
        line(
            c.name,
            pair(
                || {
                    h[64] = 63;
                    black_box(Proved::take(black_box(&c.flat), &mut h, c.input[63], &mut x));
                },
                || {
                    k[64] = 63;
                    black_box(Plain::take(black_box(&c.flat), &mut k, c.input[63], &mut y));
                },
            ),
        );
        assert!(h == full && k == full && x == sheet && y == sheet);
    }
}

fn overheads(list: &[Case]) {
    heading(
        "WHAT A CALL COSTS BESIDE ITS COLUMN",
        &[
            "A call refused after check 8 only reads the flat row, hands the grammar on (by value, in the proved code), checks it.",
            "Opening a book adds the packing, 4,225 words of zeros and column 0.",
        ],
    );
    let empty = Case { name: "10 00 50", flat: loaded(&[0x10, 0, 0x50]), input: vec![] };
    for c in [&empty, &list[0], &list[2]] {
        let mut h: Hand = [65; 74]; // each point is at the count
        h[64] = 64;
        let mut k = h;
        let (mut x, mut y) = (chart(), chart());
        assert_eq!(Proved::take(&c.flat, &mut h, 65, &mut x), Refusal::RecognizerFull.code());
        assert_eq!(Plain::take(&c.flat, &mut k, 65, &mut y), Refusal::RecognizerFull.code());
        line(
            &format!("take refused 15: {}", c.name),
            pair(
                || sink(Proved::take(black_box(&c.flat), &mut h, 65, &mut x)),
                || sink(Plain::take(black_box(&c.flat), &mut k, 65, &mut y)),
            ),
        );
        let long = [65; 65];
        assert_eq!(Proved::check(&c.flat, &long, &[], &mut x), Refusal::InputLength.code());
        assert_eq!(Plain::check(&c.flat, &long, &[], &mut y), Refusal::InputLength.code());
        line(
            &format!("check refused 9: {}", c.name),
            pair(
                || sink(Proved::check(black_box(&c.flat), &long, &[], &mut x)),
                || sink(Plain::check(black_box(&c.flat), &long, &[], &mut y)),
            ),
        );
        assert_eq!(Proved::open(&c.flat, &mut h, &mut x), Plain::open(&c.flat, &mut k, &mut y));
        assert!(h == k && x == y);
        line(
            &format!("open: {}", c.name),
            pair(
                || sink(Proved::open(black_box(&c.flat), &mut h, &mut x)),
                || sink(Plain::open(black_box(&c.flat), &mut k, &mut y)),
            ),
        );
    }
}

fn checks() {
    heading(
        "CHECK of a reading of 512 parts",
        &["\"Filling aside\" is the call with the reading less the call with a row of no numbers: median of 3,001 pairs."],
    );
    let mut random = Random::new(0xc);
    for (name, (book, input, reading)) in
        [("deepest: A x 16, nested 512 deep", books::deepest()), ("bush of empty parts: A", books::bush())]
    {
        let flat = loaded(&book);
        assert_eq!(reading.len(), 1024);
        assert_eq!(check_both(&flat, &input, &reading), 1);
        let mut yes = 0;
        for _ in 0..3000 {
            let mut row = reading.clone();
            match random.below(4) {
                0 => row.truncate(random.below(1024)),
                1 => row.extend([0, random.below(4) as u16]),
                2 => {
                    let (a, b) = (random.below(1024), random.below(1024));
                    row.swap(a, b);
                }
                _ => row[random.below(1024)] = [random.below(40), random.below(65536)][random.below(2)] as u16,
            }
            let code = check_both(&flat, &input, &row);
            assert!(code == 0 || row == reading);
            yes += code;
        }
        println!("  (3,000 damaged rows answered alike, {yes} of them the reading itself)");
        let (mut x, mut y) = (chart(), chart());
        let (mut s, mut t) = (i32::MIN, i32::MAX);
        assert_eq!(Proved::length(&flat, &input, &reading, &mut x, &mut s), 1);
        assert_eq!(Plain::length(&flat, &input, &reading, &mut y, &mut t), 1);
        assert_eq!(s, t);
        assert_eq!(Proved::same_build(&flat, &input, &reading, &reading, &mut x), 1);
        assert_eq!(Plain::same_build(&flat, &input, &reading, &reading, &mut y), 1);
        line(
            &format!("check, {name}"),
            pair(
                || sink(Proved::check(black_box(&flat), &input, &reading, &mut x)),
                || sink(Plain::check(black_box(&flat), &input, &reading, &mut y)),
            ),
        );
        line(
            "  its filling (row of no numbers)",
            pair(
                || sink(Proved::check(black_box(&flat), &input, &[], &mut x)),
                || sink(Plain::check(black_box(&flat), &input, &[], &mut y)),
            ),
        );
        line(
            "  length",
            pair(
                || sink(Proved::length(black_box(&flat), &input, &reading, &mut x, &mut s)),
                || sink(Plain::length(black_box(&flat), &input, &reading, &mut y, &mut t)),
            ),
        );
        line(
            "  same build, with itself",
            pair(
                || sink(Proved::same_build(black_box(&flat), &input, &reading, &reading, &mut x)),
                || sink(Plain::same_build(black_box(&flat), &input, &reading, &reading, &mut y)),
            ),
        );
        let a = difference(
            || sink(Proved::check(black_box(&flat), &input, &reading, &mut x)),
            || sink(Proved::check(black_box(&flat), &input, &[], &mut y)),
            3001,
        );
        let b = difference(
            || sink(Plain::check(black_box(&flat), &input, &reading, &mut x)),
            || sink(Plain::check(black_box(&flat), &input, &[], &mut y)),
            3001,
        );
        let said = |(d, error): (f64, f64)| format!("{} ± {}", shown(d), shown(error));
        let known = a.0 > 4.0 * a.1 && b.0 > 4.0 * b.1;
        let ratio = if known { format!("{:.2}", a.0 / b.0) } else { "unknown, the noise is too large".to_string() };
        println!("    filling aside: proved {}; plain {}; ratio {ratio}", said(a), said(b));
    }
}

fn sweep(count: usize) {
    println!("\nSWEEP: {count} random books of 128 rules, most of 8 places, seed 7, 64 marks; mode B, the lesser of two runs");
    let mut random = Random::new(7);
    let (mut proved, mut plain, mut complete) = (Vec::new(), Vec::new(), 0);
    for _ in 0..count {
        let (book, input) = books::random_full(&mut random);
        let flat = loaded(&book);
        let (mut x, mut y) = (chart(), chart());
        let (mut a, mut b) = (f64::MAX, f64::MAX);
        for _ in 0..2 {
            let t = Instant::now();
            assert_eq!(Proved::check(black_box(&flat), &input, &[], &mut x), 0);
            a = a.min(t.elapsed().as_secs_f64());
            let t = Instant::now();
            assert_eq!(Plain::check(black_box(&flat), &input, &[], &mut y), 0);
            b = b.min(t.elapsed().as_secs_f64());
        }
        assert!(x == y, "the charts differ");
        complete += x[64] & 1;
        proved.push(a);
        plain.push(b);
    }
    let ratios: Vec<f64> = proved.iter().zip(&plain).map(|(a, b)| a / b).collect();
    let slowest = (0..count).max_by(|&i, &j| proved[i].total_cmp(&proved[j])).unwrap();
    let spread = |v: &[f64]| {
        let mut v = v.to_vec();
        v.sort_by(f64::total_cmp);
        (v[0], v[v.len() / 2], v[v.len() - 1])
    };
    let show = |(a, b, c): (f64, f64, f64)| format!("least {}, median {}, most {}", shown(a), shown(b), shown(c));
    println!("  proved: {}", show(spread(&proved)));
    println!("  plain:  {}", show(spread(&plain)));
    let (low, mid, high) = spread(&ratios);
    let total = proved.iter().sum::<f64>() / plain.iter().sum::<f64>();
    println!("  ratio:  least {low:.2}, median {mid:.2}, most {high:.2}; of the sums {total:.2}");
    println!(
        "  slowest fill seen in the sweep: {} (book {slowest}); {complete} of {count} inputs complete",
        shown(proved[slowest])
    );
}

fn main() {
    let count = std::env::args().nth(1).map_or(200, |n| {
        n.parse().expect("usage: bench [BOOKS IN THE SWEEP [first|next|names|points|learn|program|spans]]")
    });
    println!(
        "The proved library (C functions of libfilbozseg.a) compared with the same algorithms in plain Rust. Load average {}.",
        load_average()
    );
    println!("Times are wall clock, a call: the median over batches run in turn, then the least batch; ratio = proved / plain.");
    println!("On a machine that does other work too, go by the least.");
    let only = std::env::args().nth(2);
    if only.as_deref() == Some("first") {
        return firsts::firsts(count / 10);
    }
    if only.as_deref() == Some("next") {
        return nexts::nexts(count);
    }
    if only.as_deref() == Some("names") {
        return named::names();
    }
    if only.as_deref() == Some("points") {
        return points::points();
    }
    if only.as_deref() == Some("learn") {
        return learns::learns();
    }
    if only.as_deref() == Some("program") {
        return program::program();
    }
    if only.as_deref() == Some("spans") {
        return spans::spans(&cases());
    }
    loads();
    println!("\nBOOKS of the fill, 64 marks each; results are equal on both sides");
    let list = cases();
    let worst = fills(&list);
    takes(&[&list[0], &list[1], &list[list.len() - 1]]);
    spans::spans(&list);
    overheads(&list);
    checks();
    named::names();
    points::points();
    learns::learns();
    firsts::firsts(count / 10);
    nexts::nexts(count);
    program::program();
    if count > 0 {
        sweep(count);
    }
    println!("\nSlowest fill of the cases, by the least of its runs: {} ({}).", shown(worst.0), worst.1);
    println!("Load average {}.", load_average());
}
