//! Books with ranges, compared with the books in which each rule with ranges is copied for every byte of them: the reader
//! under test answers complete and count alike.

use outside_tests::compare::{compare_copies, Counts};
use outside_tests::reader_under_test;

/// Books compared in a run.
const BOOKS: u64 = 1000;

/// How often each outcome must come up at least.
const DUE: &[(&str, u64)] = &[
    ("book", 600),
    ("a rule copied", 500),
    ("complete", 1000),
    ("not complete", 1000),
    ("count: 0", 500),
    ("count: 1", 500),
    ("count: two or more", 500),
];

#[test]
fn a_range_is_as_good_as_a_rule_for_each_of_its_bytes() {
    let mut counts = Counts::default();
    for seed in 0..BOOKS {
        if let Err(difference) = compare_copies(&reader_under_test(), seed, &mut counts) {
            panic!("{difference}");
        }
    }
    for (name, count) in &counts.0 {
        println!("{count:8}  {name}");
    }
    for (name, due) in DUE {
        assert!(counts.get(name) >= *due, "{name}: came up {} times, due {due}", counts.get(name));
    }
}
