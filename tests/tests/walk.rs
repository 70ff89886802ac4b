//! Demand 3: compares random lists of the four calls on the reader under test, including refused ones, with the
//! machine of document 01, which is given only which call comes. Charts and outputs hold rubbish and have different
//! lengths. FILBOZSEG_SEED=N runs other books.

use outside_tests::books::{book, first_seed, SEED};
use outside_tests::compare::{play_book, Counts};
use outside_tests::reader_under_test;

/// How often each outcome must come up at least.
const DUE: &[(&str, u64)] = &[
    ("walk, First: handed out", 1000),
    ("walk, First: NoDerivation", 500),
    ("walk, First: Refused(13)", 50),
    ("walk, NextWithCopy: handed out", 1500),
    ("walk, NextWithCopy: NoneLeft", 1000),
    ("walk, NextWithCopy: Refused(12)", 500),
    ("walk, NextWithNoDerivation: Refused(12)", 1000),
    ("walk, Count: counted", 500),
    ("walk, Count: Refused(13)", 50),
    ("walk: too short", 1000),
    ("empty input, walk, First: handed out", 200),
    ("empty input, walk, First: NoDerivation", 400),
    ("empty input, walk, First: Refused(13)", 4),
    ("empty input, walk, NextWithCopy: handed out", 200),
    ("empty input, walk, NextWithCopy: NoneLeft", 600),
    ("empty input, walk, NextWithCopy: Refused(12)", 2000),
    ("empty input, walk, NextWithNoDerivation: Refused(12)", 400),
    ("empty input, walk, Count: counted", 400),
    ("empty input, walk, Count: Refused(13)", 4),
    ("empty input, walk: too short", 500),
];

#[test]
fn random_lists_of_calls() {
    let from = first_seed(5000);
    let half = |parity: u64| {
        let mut counts = Counts::default();
        for seed in (from..from + 400).filter(|seed| seed % 2 == parity) {
            let calls = [12, 24, 48][seed as usize / 2 % 3];
            if let Err(difference) = play_book(&reader_under_test(), &book(seed), seed, calls, &mut counts) {
                panic!("{difference}\n{SEED}={seed} begins with this book");
            }
        }
        counts
    };
    let mut counts = Counts::default();
    std::thread::scope(|scope| {
        let other = scope.spawn(|| half(1));
        counts.merge(&half(0));
        counts.merge(&other.join().expect("no difference in the other half"));
    });
    for (name, count) in &counts.0 {
        println!("{count:8}  {name}");
    }
    for (name, due) in DUE {
        let due = if from == 5000 { *due } else { *due / 2 }; // with other books, half as often is enough
        assert!(counts.get(name) >= due, "{name}: came up {} times, due {due}", counts.get(name));
    }
}
