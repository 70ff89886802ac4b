//! The tables with rules and ends skipped against those without skipping: the same numbers, on random grammars and on
//! the books of the benchmark.

use super::super::{loader, packed::Packed, recognizer, Grammar, Rule, Symbol, CHART};
use super::{fit_table, Given, Tables, NONE, TABLES};
use crate::books;
use crate::random::Random;

fn blank() -> Box<Tables> {
    vec![NONE; TABLES].into_boxed_slice().try_into().unwrap()
}

/// How many numbers below 513 both have.
fn alike(g: &Grammar, w: &[u8]) -> usize {
    let p = Packed::new(g, 0);
    let mut chart = [0; CHART];
    recognizer::fill(&p, w, &mut chart);
    let given = Given { rules: p.used(), fit: &fit_table(&p, w), chart: &chart };
    let (mut a, mut b) = (blank(), blank());
    given.make_before(w.len(), &mut a);
    given.make(w.len(), &mut b);
    assert!(a == b, "{g:?} {w:?}");
    a.iter().filter(|&&number| number < NONE).count()
}

/// A, B or C, or once in three times a range that begins or ends with it.
fn terminal(random: &mut Random) -> Symbol {
    let mark = b'A' + random.below(3) as u8;
    match random.below(6) {
        0 => Symbol::Range(b'A', mark),
        1 => Symbol::Range(mark, 255),
        _ => Symbol::Terminal(mark),
    }
}

fn grammar(random: &mut Random) -> Grammar {
    let kinds = 1 + random.below(8);
    let cap = 1 + random.below(8);
    let rare = 2 + random.below(4);
    let mut g = Grammar::ZERO;
    g.count = 1 + random.below(40);
    for rule in &mut g.rules[..g.count] {
        *rule = Rule { left: random.below(kinds) as u8, count: random.below(cap + 1), ..Rule::ZERO };
        for place in &mut rule.places[..rule.count] {
            *place =
                if random.below(rare) == 0 { terminal(random) } else { Symbol::Nonterminal(random.below(kinds) as u8) };
        }
    }
    g
}

#[test]
fn what_is_passed_over_changes_no_number() {
    let mut random = Random::new(11);
    let mut numbers = 0;
    for round in 0..600 {
        let g = grammar(&mut random);
        let n = random.below(if round % 20 == 0 { 65 } else { 12 });
        let w: Vec<u8> = (0..n).map(|_| b'A' + random.below(3) as u8).collect();
        numbers += alike(&g, &w);
    }
    assert!(numbers > 100_000, "{numbers}");
    for book in [books::pairs(), books::expressions(), books::hidden(), books::wide(true), books::deepest_of_64()] {
        let g = loader::load(&book).ok().unwrap();
        alike(&g, &[b'A'; 64]);
        alike(&g, &books::expression());
    }
}
