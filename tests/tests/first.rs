//! First of the proved library on books that are hard for a search, on full books, and at its deepest. Each call runs
//! on a thread of 2 MiB, Rust's default, and within 10 s.
#![cfg(feature = "library")]

#[allow(dead_code)] // not all of it is called from here
mod calls;

use calls::{book, check, complete, deepest, deepest_row, first, loaded, row, YEAR};
use outside_tests::books::{full_book, Rng};
use outside_tests::compare::{rubbish, Lent};
use outside_tests::lister::walk::Given;
use outside_tests::lister::{grammar, has_tree, trees};
use outside_tests::reader::{Answer, FlatGrammar, Reader, CELLS, OUTPUT};
use outside_tests::reader_under_test;
use std::sync::mpsc::channel;
use std::time::{Duration, Instant};

/// The longest time that a call may take: a search that takes forever fails instead of hanging.
const CAP: Duration = Duration::from_secs(10);

/// Calls first on a thread of its own; also returns how long it took.
fn timed(flat: &FlatGrammar, input: &[u8]) -> (Given, Duration) {
    let (flat, input, (send, receive)) = (*flat, input.to_vec(), channel());
    let call = move || {
        let began = Instant::now();
        let given = first(&flat, &input);
        send.send((given, began.elapsed())).expect("it is waited for");
    };
    std::thread::Builder::new().stack_size(2 * 1024 * 1024).spawn(call).expect("a thread");
    receive.recv_timeout(CAP).expect("an answer within 10 s")
}

/// First of a book: the reader's own check and the lister's accept what is handed out.
fn handed(book: &[u8], input: &[u8]) -> Given {
    let flat = loaded(book);
    let (given, _) = timed(&flat, input);
    judged(&flat, input, &given);
    given
}

fn judged(flat: &FlatGrammar, input: &[u8], given: &Given) {
    let grammar = grammar::from_flat(flat).expect("loaded");
    match given {
        Given::Row(row) => {
            assert!(trees::is_derivation(&grammar, input, row), "{row:?}");
            assert_eq!(check(flat, input, row), Answer::Yes, "{row:?}");
        }
        given => assert_eq!(complete(flat, input), *given == Given::Refused(13)),
    }
}

fn texts(rules: &[String]) -> Vec<&str> {
    rules.iter().map(String::as_str).collect()
}

#[test]
fn complete_unit_graphs() {
    for kinds in [11, 5] {
        let mut rules: Vec<String> = Vec::new();
        for i in 0..kinds {
            rules.extend((0..kinds).filter(|j| *j != i).map(|j| format!("{i}: {j}")));
        }
        rules.push("0: A".to_string());
        let graph = book(0, &texts(&rules));
        assert_eq!(handed(&graph, b"A"), Given::Row(vec![1, rules.len() as u16 - 1]));
        assert_eq!(handed(&graph, b"B"), Given::NoDerivation);
        // With the way out at the last kind: as many unit steps as there are kinds, and the smallest rules.
        *rules.last_mut().expect("a rule") = format!("{}: A", kinds - 1);
        let chain: Vec<u16> = (0..kinds).flat_map(|k| [1, k * kinds]).collect();
        assert_eq!(handed(&book(0, &texts(&rules)), b"A"), Given::Row(chain));
        // And with pairs: a graph at each of 127 spans.
        rules.push("0: 0 0".to_string());
        let Given::Row(long) = handed(&book(0, &texts(&rules)), &[b'A'; 32]) else { panic!("no reading") };
        assert!(long.len() <= 1024);
    }
}

/// k -> eight of k + 1 for each k below 31, 31 -> nothing, 31 -> A; then k -> A for each k, if asked for. Every kind
/// is nullable, but its least empty tree contains 8 trees of the next kind.
fn wide(marks: bool) -> Vec<u8> {
    let mut rules: Vec<String> = (0..31).map(|k| format!("{k}:{}", format!(" {}", k + 1).repeat(8))).collect();
    rules.extend(["31:".to_string(), "31: A".to_string()]);
    if marks {
        rules.extend((0..32).map(|k| format!("{k}: A")));
    }
    book(0, &texts(&rules))
}

#[test]
fn a_wide_rule_for_each_kind() {
    for n in [0, 1, 2, 8, 64] {
        assert_eq!(handed(&wide(false), &vec![b'A'; n]), Given::Refused(13));
    }
    assert_eq!(handed(&wide(true), b"A"), Given::Row(row("1.33")));
    assert_eq!(handed(&wide(true), b"AA"), Given::Refused(13));
    let eight = [&[8, 0][..], &[1, 34].repeat(8)].concat();
    assert_eq!(handed(&wide(true), &[b'A'; 8]), Given::Row(eight));
    // Seven children cover one mark each, and the last covers the rest: nine levels.
    let mut chain: Vec<u16> = (0..9).flat_map(|k| [&[64 - 7 * k, k][..], &[1, 34 + k].repeat(7)].concat()).collect();
    chain.extend([1, 42]);
    assert_eq!(handed(&wide(true), &[b'A'; 64]), Given::Row(chain));
}

#[test]
fn a_forbidden_ancestor() {
    // The least tree of 2 is 2 -> 1 -> A, which may not occur below 1; the other way costs 66 nodes with 1. Seven of
    // eight fit into 512 nodes together with a last one of 1 node.
    let rules =
        ["0: 1 1 1 1 1 1 1 1", "1: 2", "2: 1", "2: 3", "1: A", "3: A 4 4 4 4 4 4 4", "4: 5 5 5 5 5 5 5 5", "5:"];
    let expensive = [&[1, 1, 1, 3, 1, 5][..], &[&[0, 6][..], &[0, 7].repeat(8)].concat().repeat(7)].concat();
    let due = [&[8, 0][..], &expensive.repeat(7), &[1, 4]].concat();
    assert_eq!(handed(&book(0, &rules), &[b'A'; 8]), Given::Row(due));
    // Over no mark: 1 -> 2 -> 1 is superfluous, 1 -> 2 -> 3 -> four of 4 is not.
    let rules = ["0: A 1", "1: 2", "2: 1", "2: 3", "1:", "3: 4 4 4 4", "4:"];
    assert_eq!(handed(&book(0, &rules), b"A"), Given::Row(row("1.0 0.1 0.3 0.5 0.6 0.6 0.6 0.6")));
    // An ancestor of the same kind that covers more marks does not forbid.
    assert_eq!(handed(&book(0, &["0: 0 A", "0: A"]), b"AAA"), Given::Row(row("3.0 2.0 1.1")));
}

/// The list of a full book is too large. What is handed out is checked; for any other answer the lister is trusted.
#[test]
fn full_books() {
    let half = |parity: u64| {
        let (mut seen, mut slowest) = ([0; 3], Duration::ZERO);
        for seed in (0..200).filter(|seed| seed % 2 == parity) {
            let full = full_book(seed);
            let (flat, input) = (loaded(&full.bytes), &full.inputs[0]);
            assert_eq!((flat[1], input.len()), (128, 64));
            let (given, took) = timed(&flat, input);
            judged(&flat, input, &given);
            seen[match given {
                Given::Row(_) => 0,
                Given::NoDerivation => 1,
                _ => 2,
            }] += 1;
            if given == Given::NoDerivation {
                assert!(!has_tree(&grammar::from_flat(&flat).expect("loaded"), input));
            }
            judged(&flat, b"", &timed(&flat, b"").0);
            slowest = slowest.max(took);
        }
        (seen, slowest)
    };
    let (one, other) = std::thread::scope(|scope| {
        let other = scope.spawn(|| half(1));
        (half(0), other.join().expect("the other half"))
    });
    let seen: Vec<usize> = one.0.iter().zip(other.0).map(|(a, b)| a + b).collect();
    println!("{seen:?} handed out, without a tree, refused 13; the slowest call {:?}", one.1.max(other.1));
    assert!(seen[0] >= 100 && seen[1] >= 20, "{seen:?}");
}

#[test]
fn the_deepest_reading_is_handed_out() {
    let deep = deepest();
    assert_eq!(handed(&deep, &[b'A'; 16]), Given::Row(deepest_row(16)));
    assert_eq!(handed(&deep, &[b'A'; 17]), Given::Refused(13));
    // The same with four marks per turn: 64 marks.
    let mut rules: Vec<String> = (0..31).map(|k| format!("{k}: {}", k + 1)).collect();
    rules.extend(["31: A A A A 0".to_string(), "31: A A A A".to_string()]);
    let due = deepest_row(16).chunks(2).flat_map(|node| [4 * node[0], node[1]]).collect();
    assert_eq!(handed(&book(0, &texts(&rules)), &[b'A'; 64]), Given::Row(due));
}

#[test]
fn refusals_in_their_order() {
    let (good, mut bad) = (loaded(&book(0, &["0:", "0: A"])), loaded(&book(0, &["0:", "0: A"])));
    bad[0] = 32;
    let long = [b'A'; 65];
    let cases: [(&FlatGrammar, &[u8], usize, usize, Answer); 11] = [
        (&bad, &[], CELLS - 1, OUTPUT - 1, Answer::Refused(8)),
        (&bad, &long, CELLS - 1, OUTPUT - 1, Answer::Refused(8)),
        (&good, &long, CELLS - 1, OUTPUT - 1, Answer::Refused(9)),
        (&good, &long, CELLS, OUTPUT, Answer::Refused(9)),
        (&good, &[], CELLS - 1, OUTPUT - 1, Answer::Refused(10)),
        (&good, &[], CELLS, OUTPUT - 1, Answer::Refused(11)),
        (&good, &[], CELLS, OUTPUT, Answer::Nodes(1)),
        (&good, b"A", CELLS - 1, OUTPUT - 1, Answer::Refused(10)),
        (&good, b"A", CELLS, OUTPUT - 1, Answer::Refused(11)),
        (&good, b"A", CELLS, 0, Answer::Refused(11)),
        (&good, b"A", CELLS, OUTPUT, Answer::Nodes(1)),
    ];
    for (flat, input, cells, numbers, due) in cases {
        let mut rng = Rng::new(8);
        let (mut chart, mut out) = (rubbish(&mut rng, cells), Lent::filled(numbers, || rng.draw() as u16));
        let (found, found_out, mut nodes) = (chart.clone(), out.clone(), 77);
        let answer = reader_under_test().first(flat, input, YEAR, chart.part_mut(), out.part_mut(), &mut nodes);
        assert_eq!(answer, due);
        assert!(due == Answer::Nodes(1) || (chart == found && out == found_out && nodes == 77), "{due:?}");
    }
}
