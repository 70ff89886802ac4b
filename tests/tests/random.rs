//! Random books from fixed seeds: compares the reader under test with the lister. The outcomes are printed, and each
//! must come up often enough. FILBOZSEG_SEED=N runs other books, with the seeds from N on. A difference is printed
//! with its book and the book's seed.

use outside_tests::books::{book, first_seed, SEED};
use outside_tests::compare::{compare_book, compare_boundary, Counts};
use outside_tests::reader::Reader;
use outside_tests::reader_under_test;
use std::time::Instant;

/// Books compared in a run.
const BOOKS: u64 = 1300;

/// How often each outcome must come up at least.
const DUE: &[(&str, u64)] = &[
    ("book", 1000),
    // Loading: the books themselves, and each of them damaged in thirty ways.
    ("load: refused 1", 15),
    ("load: refused 2", 30),
    ("load: refused 3", 20),
    ("load: refused 4", 12),
    ("load: refused 5", 10),
    ("load: refused 6", 15),
    ("load: refused 7", 14),
    ("load: refused 16", 8),
    ("load: refused 17", 30),
    ("load: refused 21", 6),
    ("load: depth 0", 100),
    ("load: depth 1", 250),
    ("load: depth 2", 80),
    ("load: depth 3", 25),
    ("load: depth 4 or more", 200),
    ("load: depth below the number of nullable kinds", 350),
    ("other load: refused 1", 5000),
    ("other load: refused 2", 4000),
    ("other load: refused 3", 2000),
    ("other load: refused 4", 3000),
    ("other load: refused 5", 100),
    ("other load: refused 6", 150),
    ("other load: refused 7", 2000),
    ("other load: refused 16", 800),
    ("other load: refused 17", 4000),
    ("other load: refused 21", 1200),
    // The search for the nullable nonterminals, in loaded books.
    ("search: 1 pass", 120),
    ("search: 2 passes", 350),
    ("search: 3 passes", 80),
    ("search: 4 or more passes", 120),
    ("search: two or more finds, one in each pass", 15),
    // Ranges: places of loaded books, and the marks that derivations read through them.
    ("load: a place for one byte", 1000),
    ("load: a place for several bytes", 2000),
    ("a reading through a range", 20_000),
    ("a reading through a range: of one byte", 4000),
    ("a reading through a range: at its low end", 8000),
    ("a reading through a range: at its high end", 6000),
    ("a reading through a range: between its ends", 8000),
    ("refused 8: a reversed range, by one", 200),
    ("refused 8: a reversed range, by more", 200),
    ("passed 8: a reversed range in an unused place", 2500),
    // Years: rules of loaded books, the year of each input, and what the input has in other years of its book.
    ("load: a rule of all years", 10_000),
    ("load: a rule of some years", 2500),
    ("load: a rule of one year", 700),
    ("refused 8: reversed years, by one", 180),
    ("refused 8: reversed years, by more", 180),
    ("passed 8: reversed years in an unused rule", 2500),
    ("year: all rules in force", 2500),
    ("year: some rules in force", 1500),
    ("year: no rule in force", 1),
    ("other year: none", 3000),
    ("other year: none of the book's readings", 1200),
    ("other year: some of the book's readings", 350),
    ("other year: all readings of the book", 2000),
    ("check in another year: yes", 3000),
    ("check in another year: no reading of the book", 3000),
    ("check in another year: a rule out of force", 2500),
    ("hands of two years: both answer alike", 3500),
    ("hands of two years: only one is complete", 500),
    // Names: where they are in loaded books, why one is refused, and the lookup.
    ("load: a name of a rule without places", 1500),
    ("load: a name before the places", 2500),
    ("load: a name between places", 500),
    ("load: a name after the places", 2500),
    ("load: a name of 1", 800),
    ("load: a name of 2", 1500),
    ("load: a name of 7", 900),
    ("load: a name of 8", 3000),
    ("refused 1: inside a name", 2500),
    ("refused 3: a name first", 300),
    ("refused 3: a name first, cut short", 100),
    ("refused 3: a name before any rule", 600),
    ("refused 3: a name before any rule, cut short", 200),
    ("refused 3: a name again", 700),
    ("refused 3: a name again, cut short", 120),
    ("refused 17: an empty name", 140),
    ("refused 17: zeros", 130),
    ("refused 17: another byte", 2500),
    ("refused 17: a blank before a letter", 600),
    ("refused 17: the previous name", 150),
    ("refused 17: an earlier name", 200),
    ("refused 8: a name, empty", 70),
    ("refused 8: a name, another byte", 150),
    ("refused 8: a name, a blank before a letter", 70),
    ("refused 8: a name, filled with zeros", 30),
    ("refused 8: a name, a zero first", 30),
    ("refused 8: a name, a number over 255, its low byte in range", 200),
    ("refused 8: a name, that of a neighbour", 50),
    ("refused 8: a name, that of another rule", 150),
    ("passed 8: a bad name in an unused rule", 3000),
    ("passed 8: an equal name in an unused rule", 2000),
    ("name: found", 3000),
    ("name: found, without filling", 1000),
    ("name: the same bytes before it", 600),
    ("name: a rule without one", 4000),
    ("name: no such rule", 10_000),
    ("name: the book does not load", 80_000),
    // Inputs and what they have.
    ("input: empty", 800),
    ("input: 1 to 8 terminals", 3000),
    ("input: 9 to 63 terminals", 150),
    ("input: 64 terminals", 15),
    ("no tree", 1000),
    ("only trees over the limit", 50),
    ("one derivation", 1000),
    ("two or more", 1000),
    ("the limit cuts some", 60),
    ("the forbidden ancestor", 800),
    // The empty input: what it has, and what each call answers.
    ("empty input, no tree", 400),
    ("empty input, only trees over the limit", 12),
    ("empty input, one derivation", 120),
    ("empty input, two or more", 100),
    ("empty input, the limit cuts some", 5),
    ("empty input, check: Yes", 4000),
    ("empty input, check: No", 5000),
    ("empty input, offered: a tree over the limit", 150),
    ("empty input, offered: superfluous recursion", 300),
    ("empty input, length: Yes", 4000),
    ("empty input, length: refused 12", 2000),
    ("empty input, words: written", 4000),
    ("empty input, words: refused 12", 2000),
    ("empty input, words: refused 18", 1200),
    ("empty input, same build: two derivations, yes, other empty nodes", 500),
    ("empty input, same build: a derivation and itself", 1000),
    ("empty input, same build: refused 12", 4000),
    ("empty input, first: handed out", 200),
    ("empty input, first: no reading", 400),
    ("empty input, first: refused 13", 12),
    ("empty input, next: handed out", 120),
    ("empty input, next: none", 200),
    ("empty input, next: refused 12", 1500),
    ("empty input, count: counted", 200),
    ("empty input, count: 0", 400),
    ("empty input, count: refused 13", 10),
    ("empty input, walk: First", 800),
    ("empty input, walk: NextWithCopy", 1500),
    ("empty input, walk: NextWithNoDerivation", 200),
    ("empty input, walk: Count", 200),
    // Opening and taking.
    ("complete: yes", 5000),
    ("complete: no", 5000),
    ("take over a spoilt chart", 10_000),
    ("take over a spoilt chart: an empty piece as found decides", 1500),
    ("open: refused 8", 3000),
    ("open: refused 10", 1500),
    ("take: refused 8", 3000),
    ("take: refused 10", 1000),
    ("take: refused 14", 1000),
    ("take: refused 15", 500),
    ("take: an unused mark over 255", 5000),
    ("refused 14: a count over 64", 400),
    ("refused 14: a count over 64, its low byte in range", 500),
    ("refused 14: a used mark of 256", 150),
    ("refused 14: a used mark of 65,535", 150),
    ("refused 14: a used mark over 255, the last", 250),
    ("refused 14: a used mark over 255, not the last", 250),
    // Points: lists of operations (tests/points.rs has more of them), spoilt charts with dirty hands, and refusals.
    ("list: over 100 operations", 120),
    ("list, take: refused 15", 1000),
    ("list, set: refused 19", 600),
    ("list, return: Yes", 600),
    ("list, return: No", 2500),
    ("list, return: refused 19", 1200),
    ("list: a return from 64 marks", 80),
    ("list: a return drops a point", 900),
    ("list: a return keeps another point at its count", 2000),
    ("spoilt chart, take: Yes", 150),
    ("spoilt chart, take: No", 1000),
    ("spoilt chart, set: Yes", 900),
    ("spoilt chart, set: No", 1400),
    ("spoilt chart, return: Yes", 700),
    ("spoilt chart, return: No", 700),
    ("set: refused 8", 5000),
    ("set: refused 10", 1000),
    ("set: refused 14", 3000),
    ("set: refused 19", 500),
    ("set, refused 14: a count over 64", 400),
    ("set, refused 14: a used mark of 256", 200),
    ("set, refused 14: a point one past the count", 300),
    ("set, refused 14: a point past the count", 300),
    ("set, refused 14: a point over 255, its low byte in range", 300),
    ("set, refused 14: a point of 65,535", 140),
    ("return: refused 8", 5000),
    ("return: refused 10", 1000),
    ("return: refused 14", 3000),
    ("return: refused 19", 700),
    ("return, refused 14: a count over 64", 400),
    ("return, refused 14: a used mark of 256", 200),
    ("return, refused 14: a point one past the count", 300),
    ("return, refused 14: a point past the count", 300),
    ("return, refused 14: a point over 255, its low byte in range", 300),
    ("return, refused 14: a point of 65,535", 140),
    ("take, refused 14: a point one past the count", 300),
    ("take, refused 14: a point past the count", 300),
    ("take, refused 14: a point over 255, its low byte in range", 300),
    ("take, refused 14: a point of 65,535", 140),
    // Learning: any bytes with a book, the refusals before them, what is learnt, and lists (tests/learn.rs has more of them).
    ("learn: Yes", 950),
    ("learn: No", 2000),
    ("learn: refused 1", 450),
    ("learn: refused 2", 300),
    ("learn: refused 3", 150),
    ("learn: refused 4", 450),
    ("learn: refused 5", 350),
    ("learn: refused 6", 150),
    ("learn: refused 8", 5500),
    ("learn: refused 10", 650),
    ("learn: refused 14", 4000),
    ("learn: refused 16", 150),
    ("learn: refused 17", 950),
    ("learn: refused 20", 1500),
    ("learn: refused 21", 250),
    ("learn: no bytes", 300),
    ("learn: a name first", 300),
    ("learn: a name first, cut short", 4),
    ("learn: a start first", 95),
    ("learn: an end first", 95),
    ("learn: a place first", 200),
    ("learn: another rule", 200),
    ("learn: another rule, cut short", 20),
    ("learn: a later start", 200),
    ("learn: an end at the end", 150),
    ("learn: an end before the end", 65),
    ("learn: an unknown byte first", 95),
    ("learn: an unknown byte later", 200),
    ("learn: a second name", 100),
    ("learn: a second name, cut short", 30),
    ("learn: no name", 450),
    ("learn: a name of the book", 500),
    ("learn, 0 rules: Yes", 7),
    ("learn, 0 rules: No", 100),
    ("learn, 0 rules: refused 1", 13),
    ("learn, 0 rules: refused 2", 12),
    ("learn, 0 rules: refused 3", 7),
    ("learn, 0 rules: refused 4", 14),
    ("learn, 0 rules: refused 6", 8),
    ("learn, 0 rules: refused 16", 2),
    ("learn, 0 rules: refused 17", 20),
    ("learn, 0 rules: refused 20", 65),
    ("learn, 0 rules: refused 21", 3),
    ("learn, 1 rules: Yes", 19),
    ("learn, 1 rules: No", 70),
    ("learn, 1 rules: refused 1", 14),
    ("learn, 1 rules: refused 2", 5),
    ("learn, 1 rules: refused 3", 1),
    ("learn, 1 rules: refused 4", 14),
    ("learn, 1 rules: refused 6", 2),
    ("learn, 1 rules: refused 16", 3),
    ("learn, 1 rules: refused 17", 40),
    ("learn, 1 rules: refused 20", 35),
    ("learn, 1 rules: refused 21", 3),
    ("learn, 127 rules: Yes", 40),
    ("learn, 127 rules: No", 100),
    ("learn, 127 rules: refused 1", 25),
    ("learn, 127 rules: refused 2", 15),
    ("learn, 127 rules: refused 3", 8),
    ("learn, 127 rules: refused 4", 25),
    ("learn, 127 rules: refused 6", 5),
    ("learn, 127 rules: refused 16", 5),
    ("learn, 127 rules: refused 17", 75),
    ("learn, 127 rules: refused 20", 100),
    ("learn, 127 rules: refused 21", 15),
    ("learn, 128 rules: refused 1", 15),
    ("learn, 128 rules: refused 2", 4),
    ("learn, 128 rules: refused 4", 20),
    ("learn, 128 rules: refused 5", 350),
    ("learn, 128 rules: refused 20", 55),
    ("learn, 128 rules: refused 21", 20),
    ("learn, no bytes: refused 8", 150),
    ("learn, no bytes: refused 14", 150),
    ("learn, no bytes: refused 10", 25),
    ("learn, refused 14: a count over 64", 550),
    ("learn, refused 14: a count over 64, its low byte in range", 800),
    ("learn, refused 14: a point of 65,535", 150),
    ("learn, refused 14: a point one past the count", 400),
    ("learn, refused 14: a point over 255, its low byte in range", 400),
    ("learn, refused 14: a point past the count", 350),
    ("learn, refused 14: a used mark of 256", 250),
    ("learn, refused 14: a used mark of 65,535", 250),
    ("learn, refused 14: a used mark over 255, not the last", 400),
    ("learn, refused 14: a used mark over 255, the last", 400),
    ("learnt: a rule in force", 2500),
    ("learnt: a rule out of force", 450),
    ("learnt: a rule with a name", 1000),
    ("learnt: a rule without places", 750),
    ("learnt: complete by the rule", 150),
    ("learnt: no marks", 1000),
    ("learnt: 64 marks", 200),
    ("learnt: points set", 3000),
    ("learnt: over rubbish", 1500),
    ("learnt: the depth is another", 400),
    ("learnt: the depth found was another", 1500),
    ("learnt: the 128th rule", 150),
    ("learnt: no readings", 950),
    ("learnt: only old readings", 450),
    ("learnt: only new readings", 45),
    ("learnt: old and new readings", 65),
    ("learning list, learn: Yes", 200),
    ("learning list, learn: No", 700),
    ("learning list, learn: refused 1", 100),
    ("learning list, learn: refused 2", 90),
    ("learning list, learn: refused 3", 50),
    ("learning list, learn: refused 4", 100),
    ("learning list, learn: refused 5", 17),
    ("learning list, learn: refused 6", 45),
    ("learning list, learn: refused 16", 50),
    ("learning list, learn: refused 17", 300),
    ("learning list, learn: refused 20", 550),
    ("learning list, learn: refused 21", 80),
    ("learning list: with a rule learnt", 400),
    ("learning list: another rule learnt", 550),
    ("learning list: a rule learnt with points set", 700),
    ("learning list: a return after a rule learnt", 700),
    // Rows offered.
    ("check: Yes", 20_000),
    ("check: No", 20_000),
    ("offered: a tree over the limit", 800),
    ("offered: superfluous recursion", 4000),
    ("check: refused 8", 3000),
    ("check: refused 9", 2000),
    ("check: refused 10", 500),
    ("length: Yes", 20_000),
    ("a half above zero, rounded down", 1000),
    ("a half above zero, rounded up", 1000),
    ("a half below zero, rounded down", 1000),
    ("a half below zero, rounded up", 1000),
    ("a half of 5", 60),
    ("a half of -5", 30),
    ("length: refused 8", 3000),
    ("length: refused 9", 2000),
    ("length: refused 10", 500),
    ("length: refused 12", 5000),
    ("same build: two derivations, yes, other empty nodes", 1000),
    ("same build: two derivations, yes, other covers", 30),
    ("same build: two derivations, no, the same bag", 120),
    ("same build: two derivations, no, another bag", 3000),
    ("same build: a derivation and itself", 3000),
    ("same build: refused 8", 3000),
    ("same build: refused 9", 2000),
    ("same build: refused 10", 500),
    ("same build: refused 12", 5000),
    // Words: how the rules of a text are called, and the length of the buffer.
    ("words: written", 40_000),
    ("words: only names", 15_000),
    ("words: only numbers", 10_000),
    ("words: names and numbers", 14_000),
    ("words: a rule without places", 20_000),
    ("words: the buffer just fits", 16_000),
    ("words: the buffer is one longer", 8000),
    ("words: the buffer is longer", 16_000),
    ("refused 18: one short", 4000),
    ("refused 18: shorter", 1800),
    ("refused 18: no buffer", 2000),
    ("words: refused 8", 3000),
    ("words: refused 9", 2000),
    ("words: refused 10", 500),
    ("words: refused 12", 5000),
    ("words: refused 12, no buffer", 3500),
    ("words: refused 18", 8000),
    ("words in another year: written", 1500),
    ("words in another year: a rule out of force", 1200),
    // First.
    ("first: handed out", 2000),
    ("first: no reading", 1000),
    ("first: refused 8", 3000),
    ("first: refused 9", 2000),
    ("first: refused 10", 500),
    ("first: refused 11", 300),
    ("first: refused 13", 50),
    // Next, count and walks.
    ("walk: First", 3000),
    ("walk: NextWithCopy", 5000),
    ("walk: NextWithNoDerivation", 800),
    ("walk: Count", 1000),
    ("next: handed out", 1800),
    ("next: none", 1000),
    ("next: refused 8", 3000),
    ("next: refused 9", 2000),
    ("next: refused 10", 500),
    ("next: refused 11", 300),
    ("next: refused 12", 3000),
    ("count: counted", 1500),
    ("count: 0", 1000),
    ("count: refused 8", 3000),
    ("count: refused 9", 2000),
    ("count: refused 10", 500),
    ("count: refused 13", 50),
    // Styles.
    ("style: plain", 40),
    ("style: nullable", 40),
    ("style: unit cycles", 40),
    ("style: left recursion", 40),
    ("style: twin rules", 40),
    ("style: kinds without rules", 40),
    ("style: forbidden ancestor", 40),
    ("style: beside a bush", 80),
    ("style: forbidden ancestor beside a bush", 40),
    ("style: near the limits", 40),
    ("style: dense", 40),
    ("style: expressions", 40),
    ("style: blank options", 40),
    ("style: soup", 30),
    ("style: damaged", 100),
];

/// The numbers that check 8 checks, and the ways to be out of range. Each number comes up in each way, at least this often.
const JUDGED: &[&str] =
    &["a start", "a number of rules", "a left side", "a number of places", "a tag", "a kind", "a mark"];
const OUT_OF_RANGE: &[(&str, u64)] = &[
    ("one over", 80),
    ("up to 255", 80),
    ("256", 30),
    ("257", 12),
    ("low byte in range", 90),
    ("low byte out of range", 45),
    ("65,535", 14),
];
/// Impossible: a mark up to 255 is in range, and so is any low byte; one over the largest mark is 256.
const NO_SUCH: &[&str] = &["a mark, up to 255", "a mark, 256", "a mark, low byte out of range"];

/// The same for a reader that does not make the whole list for first, next and count.
const DUE_UNLISTED: &[(&str, u64)] = &[
    ("first, too many to list: handed out", 5),
    ("next, too many to list", 5),
    ("more than 4,096", 60),
    ("count: more", 60),
    ("next: every derivation offered", 3000),
    ("next: some offered", 80),
];

/// The calls on an input, and how often each is refused with 8 to 11 at the bounds of an input's length; 0 means never.
const ON_AN_INPUT: &[&str] = &["check", "length", "same build", "words", "first", "next", "count"];
const AT_THE_BOUNDS: &[(&str, u8, u64)] = &[
    ("empty input", 8, 1200),
    ("empty input", 9, 0),
    ("empty input", 10, 600),
    ("empty input", 11, 350),
    ("64 bytes", 8, 700),
    ("64 bytes", 9, 0),
    ("64 bytes", 10, 600),
    ("64 bytes", 11, 60),
    ("65 bytes", 8, 500),
    ("65 bytes", 9, 600),
    ("65 bytes", 10, 0),
    ("65 bytes", 11, 0),
];

/// The empty input came up with each loaded book. At the bounds, each call was refused as due; 11 is of first and next.
fn due_at_the_bounds(counts: &Counts, usual: impl Fn(u64) -> u64) {
    let depths = ["0", "1", "2", "3", "4 or more"];
    let loaded: u64 = depths.iter().map(|depth| counts.get(&format!("load: depth {depth}"))).sum();
    assert_eq!(counts.get("input: empty"), loaded);
    for (call, (input, refusal, due)) in
        ON_AN_INPUT.iter().flat_map(|call| AT_THE_BOUNDS.iter().map(move |at| (call, at)))
    {
        let name = format!("{input}, {call}: refused {refusal}");
        let due = if *refusal < 11 || matches!(*call, "first" | "next") { usual(*due) } else { 0 };
        let count = counts.get(&name);
        assert!(count >= due && (count == 0 || due > 0), "{name}: came up {count} times, due {due}");
    }
    // No node covers anything, so all derivations of the empty input are the same build.
    assert_eq!(counts.get("empty input, same build: No"), 0);
}

#[test]
fn random_books() {
    let (began, from) = (Instant::now(), first_seed(0));
    let half = |parity: u64| {
        let reader = reader_under_test();
        let mut counts = Counts::default();
        for seed in (from..from + BOOKS).filter(|seed| seed % 2 == parity) {
            if let Err(difference) = compare_book(&reader, &book(seed), seed, &mut counts) {
                panic!("{difference}\n{SEED}={seed} begins with this book");
            }
        }
        counts
    };
    let mut counts = Counts::default();
    std::thread::scope(|scope| {
        let other = scope.spawn(|| half(1));
        counts.merge(&half(0));
        counts.merge(&other.join().expect("no difference in the other half"));
    });
    compare_boundary(&reader_under_test()).expect("no difference at the boundary of count");
    println!("{BOOKS} books from seed {from} on in {:.1} s", began.elapsed().as_secs_f32());
    for (name, count) in &counts.0 {
        println!("{count:8}  {name}");
    }
    let unlisted = if reader_under_test().by_listing() { &[] } else { DUE_UNLISTED };
    // With other books, half as often is enough.
    let usual = |due: u64| if from == 0 { due } else { due / 2 };
    for (name, due) in DUE.iter().chain(unlisted) {
        assert!(counts.get(name) >= usual(*due), "{name}: came up {} times, due {due}", counts.get(name));
    }
    for (number, (how, due)) in JUDGED.iter().flat_map(|number| OUT_OF_RANGE.iter().map(move |how| (number, how))) {
        let name = format!("{number}, {how}");
        let (count, possible) = (counts.get(&format!("refused 8: {name}")), !NO_SUCH.contains(&name.as_str()));
        assert!(count >= usual(*due) || !possible, "{name}: came up {count} times, due {due}");
    }
    due_at_the_bounds(&counts, usual);
    let skipped = counts.get("skipped: too large to list");
    assert!(skipped * 10 < counts.get("one derivation") + counts.get("two or more"), "{skipped} inputs skipped");
}
