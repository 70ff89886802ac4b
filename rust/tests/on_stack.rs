//! Readings on a thread with little stack, which is told.
mod books;

use books::{deep, wide, PAIRS, T, YEAR};
use filbozseg::*;
use std::thread;

/// Lists on a thread of 256 KiB, of which this much is said to be left.
fn on_a_small_thread(grammar: &Grammar, input: &[u8], left: usize) -> Vec<Result<Reading, Refusal>> {
    let listed = || grammar.readings(input, YEAR).on_stack(left).collect();
    thread::scope(|scope| {
        thread::Builder::new().stack_size(256 * 1024).spawn_scoped(scope, listed).unwrap().join().unwrap()
    })
}

/// The deepest plates need 1.8 MB, so on the small thread itself they would end the process.
#[test]
fn a_small_thread_lists_all_readings() {
    let (t, pairs) = (load(T).unwrap(), load(PAIRS).unwrap());
    for (grammar, input) in [(&deep(), &[b'A'; 64][..]), (&wide(0), b"A"), (&t, b"A"), (&t, b"B"), (&pairs, b"AAAAAA")]
    {
        let due: Vec<_> = grammar.readings(input, YEAR).collect();
        for left in [0, 200 * 1024, STACK - 1] {
            assert_eq!(on_a_small_thread(grammar, input, left), due);
        }
    }
}

#[test]
fn a_small_thread_gets_refusals() {
    assert_eq!(on_a_small_thread(&load(T).unwrap(), &[b'A'; 65], 0), [Err(Refusal::InputLength)]);
    assert_eq!(on_a_small_thread(&wide(4), b"A", 0), [Err(Refusal::OnlyLargerTrees)]);
}

/// With enough stack it makes no difference what is told.
#[test]
fn a_large_thread_lists_the_same() {
    let pairs = load(PAIRS).unwrap();
    let due: Vec<_> = pairs.readings(&[b'A'; 7], YEAR).collect();
    assert_eq!(due.len(), 132);
    for left in [0, STACK - 1, STACK, usize::MAX] {
        assert_eq!(pairs.readings(&[b'A'; 7], YEAR).on_stack(left).collect::<Vec<_>>(), due);
    }
}
