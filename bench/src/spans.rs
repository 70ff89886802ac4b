//! The fill from end to end ("before") and the fill by spans as bits ("plain"), both in plain Rust with the packed
//! grammar given, compared with the proved fill: `check` of an empty row, and `take` of the 64th mark. In processor
//! time, in turn, the minimum over the rounds: that is the most reliable figure on a machine that does other work
//! too.

use crate::calls::{hand, Plain, Proved, Reader, YEAR};
use crate::plain::packed::Packed;
use crate::plain::{flat, recognizer, spans};
use crate::timing::{processor_time, shown};
use crate::{chart, Case};
use std::hint::black_box;

pub fn spans(list: &[Case]) {
    println!("\nSPANS AS BITS: processor time, the least of the rounds; proved / plain, and how often it is in the fill before");
    heading("filling 64 marks");
    for c in list {
        let p = Packed::new(&flat::read(&c.flat), YEAR);
        let (mut x, mut y, mut z) = (chart(), chart(), chart());
        let times = least([
            &mut || recognizer::fill(black_box(&p), &c.input, &mut x),
            &mut || spans::fill(black_box(&p), &c.input, &mut y),
            &mut || {
                black_box(Proved::check(black_box(&c.flat), &c.input, &[], &mut z));
            },
        ]);
        assert!(x == y && x == z, "the charts differ");
        line(c.name, times);
    }
    heading("writing column 64");
    for c in list {
        let p = Packed::new(&flat::read(&c.flat), YEAR);
        let (mut x, mut full) = (chart(), hand());
        Plain::feed(&c.flat, &c.input, &mut full, &mut x);
        let (mut y, mut z) = (x.clone(), x.clone());
        let mut h = full;
        let times = least([
            &mut || recognizer::write_column(black_box(&p), &c.input, 64, &mut x),
            &mut || spans::write_column(black_box(&p), &c.input, 64, &mut y),
            &mut || {
                h[64] = 63;
                black_box(Proved::take(black_box(&c.flat), &mut h, c.input[63], &mut z));
            },
        ]);
        assert!(x == y && x == z, "the charts differ");
        line(c.name, times);
    }
}

/// The seconds per call of each: the minimum over the rounds of a batch of about half a millisecond, or of one call.
/// The rounds of the first side take about a second, and so do those of the other two in turn, at least nine each.
fn least(mut sides: [&mut dyn FnMut(); 3]) -> [f64; 3] {
    let once = sides.each_mut().map(|f| batch(*f, 1).min(batch(*f, 1)));
    let calls = once.map(|t| ((0.0005 / t.max(1e-9)) as usize).clamp(1, 1_000_000));
    let rounds = |t: &[f64]| (1.0 / t.iter().map(|t| t.max(0.0005)).sum::<f64>()).max(9.0) as usize;
    let mut least = [f64::MAX; 3];
    for (from, to) in [(0, 1), (1, 3)] {
        for _ in 0..rounds(&once[from..to]) {
            for i in from..to {
                least[i] = least[i].min(batch(&mut *sides[i], calls[i]));
            }
        }
    }
    least
}

fn batch(f: &mut dyn FnMut(), calls: usize) -> f64 {
    let began = processor_time();
    for _ in 0..calls {
        f();
    }
    (processor_time() - began) / calls as f64
}

fn heading(what: &str) {
    println!("  {what:50} {:>10} {:>10} {:>10} {:>6} {:>6}", "before", "plain", "proved", "ratio", "times");
}

fn line(case: &str, [before, plain, proved]: [f64; 3]) {
    let (ratio, times) = (proved / plain, before / proved);
    println!("  {case:50} {:>10} {:>10} {:>10} {ratio:>6.2} {times:>6.2}", shown(before), shown(plain), shown(proved));
}
