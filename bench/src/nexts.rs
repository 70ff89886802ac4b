//! Next and count, on both sides: one advance, whole counts, the worst advance, random full books.

use crate::books;
use crate::calls::{chart, Flat, Plain, Proved, Reader};
use crate::firsts::{first_both, output};
use crate::plain::enumerator::COUNTED;
use crate::random::Random;
use crate::timing::{differences, processor_time, shown, Time};
use crate::{check_both, heading, line, loaded, sink};
use std::hint::black_box;

/// Both sides answer the same and leave the same output, number of nodes and chart. What is handed out is a reading.
fn next_both(flat: &Flat, input: &[u8], offered: &[u16]) -> (u32, Vec<u16>) {
    let (mut c, mut d, mut x, mut y) = (chart(), chart(), output(), output());
    let (mut m, mut n) = (usize::MAX, usize::MAX); // stays so if none is handed out
    let code = Proved::next(flat, input, offered, &mut c, &mut x, &mut m);
    assert_eq!(code, Plain::next(flat, input, offered, &mut d, &mut y, &mut n));
    assert!(c == d && x == y && m == n, "the charts, outputs or nodes differ");
    if code != 1 {
        assert!(x == output() && m == usize::MAX, "the output is written without a reading");
        return (code, vec![]);
    }
    assert!(x[2 * m..].iter().all(|&number| number == 0xbeef), "the output is written after the reading");
    x.truncate(2 * m);
    assert_eq!(check_both(flat, input, &x), 1);
    (code, x)
}

/// Both sides count the same and leave the same chart. Returns None for more.
fn count_both(flat: &Flat, input: &[u8]) -> Option<usize> {
    let (mut c, mut d, mut m, mut n) = (chart(), chart(), usize::MAX, usize::MAX);
    let code = Proved::count(flat, input, &mut c, &mut m);
    assert_eq!(code, Plain::count(flat, input, &mut d, &mut n));
    assert!(c == d && m == n && (code == 1 && m <= COUNTED || code == 2 && m == usize::MAX));
    (code == 1).then_some(m)
}

fn said(count: Option<usize>) -> String {
    count.map_or("more".to_string(), |n| format!("{n} readings"))
}

fn of(time: Time, calls: usize) -> Time {
    Time { median: time.median / calls as f64, least: time.least / calls as f64 }
}

/// One advance: the time of count minus that of first, divided by the number of advances.
fn time_advance(name: &str, book: &[u8], input: &[u8]) {
    let flat = loaded(book);
    first_both(&flat, input);
    let count = count_both(&flat, input);
    let (mut c, mut x, mut n) = (chart(), output(), 0);
    let (mut d, mut y, mut m) = (chart(), output(), 0);
    let (mut e, mut f) = (chart(), chart());
    let times = differences(
        || sink(Proved::count(black_box(&flat), input, &mut c, &mut n)),
        || sink(Proved::first(black_box(&flat), input, &mut e, &mut x, &mut 0)),
        || sink(Plain::count(black_box(&flat), input, &mut d, &mut m)),
        || sink(Plain::first(black_box(&flat), input, &mut f, &mut y, &mut 0)),
    );
    let advances = count.unwrap_or(COUNTED);
    line(&format!("{name}, {} marks: {}", input.len(), said(count)), (of(times.0, advances), of(times.1, advances)));
}

/// A whole count.
fn time_count(name: &str, book: &[u8], input: &[u8]) {
    let flat = loaded(book);
    let count = count_both(&flat, input);
    let (mut c, mut d, mut m, mut n) = (chart(), chart(), 0, 0);
    let times = differences(
        || sink(Proved::count(black_box(&flat), input, &mut c, &mut m)),
        || (),
        || sink(Plain::count(black_box(&flat), input, &mut d, &mut n)),
        || (),
    );
    line(&format!("{name}, {} marks: {}", input.len(), said(count)), times);
}

/// One call of next minus one of first: the check of the offered reading and its advance, minus the way to the first.
fn time_next(name: &str, book: &[u8], input: &[u8], offered: &[u16]) {
    let flat = loaded(book);
    let (code, _) = next_both(&flat, input, offered);
    let (mut c, mut x, mut n) = (chart(), output(), 0);
    let (mut d, mut y, mut m) = (chart(), output(), 0);
    let (mut e, mut f, mut u, mut v) = (chart(), chart(), output(), output());
    let times = differences(
        || sink(Proved::next(black_box(&flat), input, offered, &mut c, &mut x, &mut n)),
        || sink(Proved::first(black_box(&flat), input, &mut e, &mut u, &mut 0)),
        || sink(Plain::next(black_box(&flat), input, offered, &mut d, &mut y, &mut m)),
        || sink(Plain::first(black_box(&flat), input, &mut f, &mut v, &mut 0)),
    );
    let next = if code == 1 { "one more" } else { "none" };
    line(&format!("{name}, {} marks: {next}", input.len()), times);
}

/// A whole call of next that is offered the first reading.
fn time_whole_next(name: &str, book: &[u8], input: &[u8]) {
    let flat = loaded(book);
    let (mut c, mut x, mut n) = (chart(), output(), 0);
    assert_eq!(Proved::first(&flat, input, &mut c, &mut x, &mut n), 1);
    let offered = x[..2 * n].to_vec();
    let (code, _) = next_both(&flat, input, &offered);
    let (mut d, mut y, mut m) = (chart(), output(), 0);
    let times = differences(
        || sink(Proved::next(black_box(&flat), input, &offered, &mut c, &mut x, &mut n)),
        || (),
        || sink(Plain::next(black_box(&flat), input, &offered, &mut d, &mut y, &mut m)),
        || (),
    );
    let next = if code == 1 { "one more" } else { "none" };
    line(&format!("{name}, {} marks: {next}", input.len()), times);
}

pub fn nexts(sweep: usize) {
    let a = [b'A'; 64];
    heading(
        "NEXT: one advance",
        &["Count less first, by the number of advances (4,096 where there are more readings), in processor time."],
    );
    time_advance("0 -> 0 0 | A", &books::pairs(), &a);
    time_advance("dense full book", &books::dense(), &a);
    time_advance("expressions, 40 rules", &books::expressions(), &books::expression());
    time_advance("hidden left recursion", &books::hidden(), &a);
    time_advance("complete unit graph, pairs", &books::unit_graph_of_pairs(), &a[..32]);
    time_advance("a wide rule for each kind", &books::wide(true), &a);
    heading(
        "NEXT: the worst advance provoked",
        &["Count less first where there is one reading, in processor time: each of its nodes is looked at in vain."],
    );
    time_advance("another rule in vain, 30 kinds", &books::later_in_vain(29, false), &a[..17]);
    time_advance("another rule in vain, 8 kinds", &books::later_in_vain(7, false), &a);
    time_advance("a wider node in vain, 30 kinds", &books::later_in_vain(29, true), &a[..8]);
    time_advance("a wider node in vain, 4 kinds", &books::later_in_vain(3, true), &a);
    time_advance("deepest", &books::deepest().0, &a[..16]);
    time_advance("bush of empty parts", &books::bush().0, &a[..1]);
    heading(
        "NEXT: of the last reading",
        &["Next less first, in processor time: less than nothing where the way to the first reading is longer."],
    );
    let (book, reading) = books::last_of_many();
    time_next("deepest after 95 wide rules", &book, &a, &reading);
    let (book, input, reading) = books::deepest();
    time_next("deepest", &book, &input, &reading);
    let (book, input, reading) = books::bush();
    time_next("bush of empty parts", &book, &input, &reading);
    heading(
        "NEXT: the whole call",
        &["Offered the first reading, in processor time: filling, check, tables and one advance."],
    );
    time_whole_next("0 -> 0 0 | A", &books::pairs(), &a);
    time_whole_next("expressions, 40 rules", &books::expressions(), &books::expression());
    time_whole_next("dense full book", &books::dense(), &a);
    heading("COUNT", &["The whole call, in processor time."]);
    time_count("0 -> 0 0 | A", &books::pairs(), &a[..9]);
    time_count("0 -> 0 0 | A", &books::pairs(), &a);
    time_count("twins", &books::boundary(false), &a[..12]);
    time_count("twins and one more", &books::boundary(true), &a[..12]);
    time_count("complete unit graph", &books::unit_graph(), &a[..1]);
    if sweep > 0 {
        sweep_next(sweep);
    }
}

/// Random full books whose inputs have readings: first, next of the first reading, and for each tenth book the count.
fn sweep_next(count: usize) {
    let mut random = Random::new(7);
    let (mut sums, mut most, mut seen) = ([0.0; 6], [0.0f64; 3], 0);
    while seen < count {
        let (book, input) = books::random_full(&mut random);
        let flat = loaded(&book);
        let (code, nodes) = first_both(&flat, &input);
        if code != 1 {
            continue;
        }
        let (mut c, mut x, mut n) = (chart(), output(), 0);
        Proved::first(&flat, &input, &mut c, &mut x, &mut n);
        let reading = x[..2 * nodes].to_vec();
        next_both(&flat, &input, &reading);
        let mut times = [0.0; 6];
        let mut timed = |which: usize, call: &mut dyn FnMut()| {
            let began = processor_time();
            call();
            times[which] = processor_time() - began;
        };
        timed(0, &mut || sink(Proved::first(black_box(&flat), &input, &mut c, &mut x, &mut n)));
        timed(1, &mut || sink(Plain::first(black_box(&flat), &input, &mut c, &mut x, &mut n)));
        timed(2, &mut || sink(Proved::next(black_box(&flat), &input, &reading, &mut c, &mut x, &mut n)));
        timed(3, &mut || sink(Plain::next(black_box(&flat), &input, &reading, &mut c, &mut x, &mut n)));
        if seen % 10 == 0 {
            timed(4, &mut || sink(Proved::count(black_box(&flat), &input, &mut c, &mut n)));
            timed(5, &mut || sink(Plain::count(black_box(&flat), &input, &mut c, &mut n)));
        }
        for (sum, time) in sums.iter_mut().zip(times) {
            *sum += time;
        }
        for (most, time) in most.iter_mut().zip(times.chunks(2)) {
            *most = most.max(time[0]);
        }
        seen += 1;
    }
    for (which, name) in ["first", "next of the first", "count (each tenth)"].iter().enumerate() {
        let (proved, plain) = (sums[2 * which], sums[2 * which + 1]);
        println!(
            "  {count} random full books with readings, {name}: proved {}, plain {} in all, ratio {:.2}; the longest call {}",
            shown(proved),
            shown(plain),
            proved / plain,
            shown(most[which])
        );
    }
}
