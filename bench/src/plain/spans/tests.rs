//! Spans as bits, with sets of rules and without, against the fill that goes from end to end: the same charts, on random
//! grammars of all sizes, on the books of the benchmark, and over charts spoilt in every way.

use super::super::packed::Packed;
use super::super::{loader, recognizer, Grammar, Rule, Symbol, CHART};
use super::{fill, rules, write_column};
use crate::books;
use crate::random::Random;

/// A number below one of three bounds.
fn some(random: &mut Random, bounds: [usize; 3]) -> usize {
    let bound = bounds[random.below(3)];
    random.below(bound)
}

/// A, B or C, or once in three times a range that begins or ends with it.
fn terminal(random: &mut Random) -> Symbol {
    let mark = b'A' + random.below(3) as u8;
    match random.below(6) {
        0 => Symbol::Range(b'A', mark),
        1 => Symbol::Range(mark, 255),
        _ => Symbol::Terminal(mark),
    }
}

fn grammar(random: &mut Random) -> Grammar {
    let kinds = 1 + some(random, [3, 8, 32]);
    let cap = 1 + random.below(8);
    let rare = 2 + random.below(5);
    let mut g = Grammar::ZERO;
    g.count = 1 + some(random, [6, 20, 128]);
    for rule in &mut g.rules[..g.count] {
        *rule = Rule { left: random.below(kinds) as u8, count: random.below(cap + 1), ..Rule::ZERO };
        for place in &mut rule.places[..rule.count] {
            *place =
                if random.below(rare) == 0 { terminal(random) } else { Symbol::Nonterminal(random.below(kinds) as u8) };
        }
    }
    g
}

fn input(random: &mut Random, n: usize) -> Vec<u8> {
    let marks = 1 + random.below(3);
    (0..n).map(|_| b'A' + random.below(marks) as u8).collect()
}

/// Words with few or with many bits, or with none at all.
fn spoilt(random: &mut Random) -> Vec<u32> {
    let thin = random.below(5);
    (0..CHART).map(|_| (0..thin).fold(random.draw(), |word, _| word & random.draw()) as u32).collect()
}

fn fills_alike(p: &Packed, w: &[u8]) -> u32 {
    let (mut a, mut b, mut c) = ([7u32; CHART + 3], [9u32; CHART + 3], [8u32; CHART + 3]);
    recognizer::fill(p, w, &mut a);
    fill(p, w, &mut b);
    rules::fill(p, w, &mut c);
    assert!(a[..CHART] == b[..CHART] && b[CHART..] == [9; 3], "{w:?}");
    assert!(c[..CHART] == b[..CHART], "{w:?}");
    a[..CHART].iter().map(|word| word.count_ones()).sum()
}

#[test]
fn charts_are_filled_alike() {
    let mut random = Random::new(21);
    let mut bits = 0;
    for _ in 0..3000 {
        let p = Packed::new(&grammar(&mut random), 0);
        let n = some(&mut random, [9, 30, 65]);
        bits += fills_alike(&p, &input(&mut random, n));
    }
    assert!(bits > 1_000_000, "{bits}");
}

#[test]
fn the_books_of_the_benchmark_are_filled_alike() {
    let mut random = Random::new(22);
    let a = vec![b'A'; 64];
    for (book, input) in [
        (books::pairs(), a.clone()),
        (books::expressions(), books::expression()),
        (books::dense(), a.clone()),
        (books::hidden(), a.clone()),
        (books::worst(), a.clone()),
        (books::worst_mixed(), a.clone()),
        (books::unit_graph(), a.clone()),
        (books::unit_cycles(&[]), a.clone()),
        (books::unit_cycles(&[&[books::P::N(0), books::P::N(0)]]), a.clone()),
        (books::chain(&[&[books::A], &[]]), a.clone()),
        (books::chain(&[&[books::A, books::P::N(31)], &[]]), a.clone()),
        books::random_full(&mut random),
        books::random_full_of_ranges(&mut random),
    ] {
        fills_alike(&Packed::new(&loader::load(&book).unwrap(), 0), &input);
    }
}

#[test]
fn a_column_over_a_spoilt_chart_is_written_alike() {
    let mut random = Random::new(23);
    let mut bits = 0u32;
    for _ in 0..6000 {
        let p = Packed::new(&grammar(&mut random), 0);
        let n = some(&mut random, [5, 20, 65]);
        let w = input(&mut random, n);
        let mut a = spoilt(&mut random);
        let (mut b, mut c) = (a.clone(), a.clone());
        recognizer::write_column(&p, &w, n, &mut a);
        write_column(&p, &w, n, &mut b);
        rules::write_column(&p, &w, n, &mut c);
        assert!(a == b && b == c, "{w:?}");
        bits += (0..=n).map(|i| a[65 * i + n].count_ones()).sum::<u32>();
    }
    assert!(bits > 100_000, "{bits}");
}
