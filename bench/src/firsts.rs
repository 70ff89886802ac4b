//! First: the time of the call minus that of its filling, on both sides.

use crate::books;
use crate::calls::{chart, Flat, Plain, Proved, Reader, YEAR};
use crate::plain::enumerator::OUTPUT;
use crate::plain::packed::Packed;
use crate::plain::tables::{fit_table, Given, Tables, NONE, SIDE, TABLES};
use crate::plain::{flat, recognizer, PLACES, RULES};
use crate::random::Random;
use crate::timing::{differences, pair, processor_time, shown};
use crate::{check_both, heading, line, loaded, sink};
use std::hint::black_box;

/// An output to write to. What it holds is no reading.
pub fn output() -> Vec<u16> {
    vec![0xbeef; OUTPUT]
}

/// Both sides answer the same and leave the same output, number of nodes and chart. What is handed out is a reading.
pub fn first_both(flat: &Flat, input: &[u8]) -> (u32, usize) {
    let (mut c, mut d, mut x, mut y) = (chart(), chart(), output(), output());
    let (mut m, mut n) = (usize::MAX, usize::MAX); // stays so if none is handed out
    let code = Proved::first(flat, input, &mut c, &mut x, &mut m);
    assert_eq!(code, Plain::first(flat, input, &mut d, &mut y, &mut n));
    assert!(c == d && x == y && m == n, "the charts, outputs or nodes differ");
    if code == 1 {
        assert!(x[2 * m..].iter().all(|&number| number == 0xbeef), "the output is written after the reading");
        assert_eq!(check_both(flat, input, &x[..2 * m]), 1);
    }
    (code, m)
}

fn time_first(name: &str, book: &[u8], input: &[u8]) {
    let flat = loaded(book);
    let said = match first_both(&flat, input) {
        (1, nodes) => format!("{nodes} nodes"),
        (code, _) => format!("code {code}"),
    };
    let (mut c, mut d, mut x, mut y) = (chart(), chart(), output(), output());
    let (mut e, mut f, mut m, mut n) = (chart(), chart(), 0, 0);
    let times = differences(
        || sink(Proved::first(black_box(&flat), input, &mut c, &mut x, &mut m)),
        || sink(Proved::check(black_box(&flat), input, &[], &mut e)),
        || sink(Plain::first(black_box(&flat), input, &mut d, &mut y, &mut n)),
        || sink(Plain::check(black_box(&flat), input, &[], &mut f)),
    );
    line(&format!("{name}, {} marks: {said}", input.len()), times);
}

pub fn firsts(sweep: usize) {
    heading(
        "FIRST: tables and first together",
        &[
            "The call less its filling, on both sides, in processor time: the median of the difference between the call and a",
            "check of a row of no numbers, then the difference of the least of each. Clearing the tables is part of it.",
        ],
    );
    let a = [b'A'; 64];
    time_first("0 -> 0 0 | A", &books::pairs(), &a);
    time_first("expressions, 40 rules", &books::expressions(), &books::expression());
    time_first("dense full book", &books::dense(), &a);
    time_first("unit cycles, 0 -> 0 0", &books::unit_cycles(&[&[books::P::N(0), books::P::N(0)]]), &a);
    time_first("hidden left recursion", &books::hidden(), &a);
    time_first("complete unit graph", &books::unit_graph(), &a[..1]);
    time_first("complete unit graph, pairs", &books::unit_graph_of_pairs(), &a[..32]);
    time_first("a wide rule for each kind", &books::wide(true), &a);
    time_first("the same, only larger trees", &books::wide(false), &a);
    time_first("forbidden ancestor", &books::forbidden(), &a[..8]);
    time_first("deepest", &books::deepest().0, &a[..16]);
    time_first("deepest, four marks a turn", &books::deepest_of_64(), &a);
    time_first("bush of empty parts", &books::bush().0, &a[..1]);
    let (cleared, _) = pair(clear, || ());
    println!("  clearing the tables and the suffixes, in plain Rust: {}", shown(cleared.least));
    tables();
    if sweep > 0 {
        sweep_first(sweep);
    }
}

/// The tables alone, in plain Rust: with every rule tried from every start up to every end ("before"), and with rules
/// and ends skipped.
fn tables() {
    println!("\nTABLES alone, in plain Rust; wall clock, the least");
    println!("  {:50} {:>10} {:>10} {:>6}", "case", "before", "now", "times");
    let a = [b'A'; 64];
    time_tables("0 -> 0 0 | A", &books::pairs(), &a);
    time_tables("expressions, 40 rules", &books::expressions(), &books::expression());
    time_tables("dense full book", &books::dense(), &a);
    time_tables("unit cycles, 0 -> 0 0", &books::unit_cycles(&[&[books::P::N(0), books::P::N(0)]]), &a);
    time_tables("hidden left recursion", &books::hidden(), &a);
    time_tables("a wide rule for each kind", &books::wide(true), &a);
    time_tables("the same, only larger trees", &books::wide(false), &a);
    time_tables("deepest, four marks a turn", &books::deepest_of_64(), &a);
}

fn time_tables(name: &str, book: &[u8], input: &[u8]) {
    let p = Packed::new(&flat::read(&loaded(book)), YEAR);
    let (mut sheet, fit) = (chart(), fit_table(&p, input));
    recognizer::fill(&p, input, &mut sheet);
    let given = Given { rules: p.used(), fit: &fit, chart: &sheet };
    let (mut x, mut y) = (blank(), blank());
    let (before, now) =
        pair(|| black_box(given).make_before(input.len(), &mut x), || black_box(given).make(input.len(), &mut y));
    assert!(x == y, "the tables differ");
    let times = before.least / now.least;
    println!("  {name:50} {:>10} {:>10} {times:>6.2}", shown(before.least), shown(now.least));
}

fn blank() -> Box<Tables> {
    vec![NONE; TABLES].into_boxed_slice().try_into().unwrap()
}

/// What a call clears.
fn clear() {
    black_box(&mut [NONE; TABLES]);
    black_box(&mut [[[NONE; SIDE]; PLACES + 1]; RULES]);
}

/// Random full books whose inputs have trees: one call of each, the shorter of two runs.
fn sweep_first(count: usize) {
    let mut random = Random::new(7);
    let (mut proved, mut plain, mut most, mut seen) = (0.0, 0.0, 0.0f64, 0);
    while seen < count {
        let (book, input) = books::random_full(&mut random);
        let flat = loaded(&book);
        if first_both(&flat, &input).0 == 0 {
            continue;
        }
        seen += 1;
        let (mut c, mut x, mut n) = (chart(), output(), 0);
        let mut best = [f64::MAX; 4];
        for _ in 0..2 {
            let mut timed = |which: usize, call: &mut dyn FnMut()| {
                let began = processor_time();
                call();
                best[which] = best[which].min(processor_time() - began);
            };
            timed(0, &mut || sink(Proved::first(black_box(&flat), &input, &mut c, &mut x, &mut n)));
            timed(1, &mut || sink(Proved::check(black_box(&flat), &input, &[], &mut c)));
            timed(2, &mut || sink(Plain::first(black_box(&flat), &input, &mut c, &mut x, &mut n)));
            timed(3, &mut || sink(Plain::check(black_box(&flat), &input, &[], &mut c)));
        }
        proved += best[0] - best[1];
        plain += best[2] - best[3];
        most = most.max(best[0]);
    }
    println!(
        "  {count} random full books with trees: proved {}, plain {} a book, ratio of the sums {:.2}; the longest call {}",
        shown(proved / count as f64),
        shown(plain / count as f64),
        proved / plain,
        shown(most)
    );
}
