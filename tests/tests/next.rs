//! Next and count of the proved library on the named cases, on books that are hard for a search, on full books, and
//! at their deepest. Each call runs on a thread of 2 MiB, Rust's default, and within 10 s.
#![cfg(feature = "library")]

#[allow(dead_code)] // not all of it is called from here
mod calls;

use calls::{blank_boundary, book, check, count, deepest, deepest_row, first, loaded, next, row, YEAR};
use outside_tests::books::{boundary, full_book, Rng};
use outside_tests::compare::{rubbish, Lent};
use outside_tests::lister::walk::{self, Given};
use outside_tests::lister::{self, grammar, trees};
use outside_tests::reader::{Answer, FlatGrammar, Reader, CELLS, OUTPUT};
use outside_tests::reader_under_test;
use std::sync::mpsc::channel;
use std::time::{Duration, Instant};

/// The longest time that a call may take: a search that takes forever fails instead of hanging.
const CAP: Duration = Duration::from_secs(10);

/// Makes a call on a thread of its own; also returns how long it took.
fn timed(call: impl FnOnce() -> Given + Send + 'static) -> (Given, Duration) {
    let (send, receive) = channel();
    let call = move || {
        let began = Instant::now();
        let given = call();
        send.send((given, began.elapsed())).expect("it is waited for");
    };
    std::thread::Builder::new().stack_size(2 * 1024 * 1024).spawn(call).expect("a thread");
    receive.recv_timeout(CAP).expect("an answer within 10 s")
}

fn firsted(flat: &FlatGrammar, input: &[u8]) -> Given {
    let (flat, input) = (*flat, input.to_vec());
    timed(move || first(&flat, &input)).0
}

fn nexted(flat: &FlatGrammar, input: &[u8], offered: &[u16]) -> Given {
    let (flat, input, offered) = (*flat, input.to_vec(), offered.to_vec());
    timed(move || next(&flat, &input, &offered)).0
}

fn counted(flat: &FlatGrammar, input: &[u8]) -> Given {
    let (flat, input) = (*flat, input.to_vec());
    timed(move || count(&flat, &input)).0
}

/// The readings from the first on, at most this many, and whether the last of them is the last of all.
fn walked(flat: &FlatGrammar, input: &[u8], most: usize) -> (Vec<Vec<u16>>, bool) {
    let (mut all, mut given) = (Vec::new(), firsted(flat, input));
    while let Given::Row(row) = given {
        assert!(all.last().is_none_or(|last| *last < row), "{row:?} does not follow");
        given = nexted(flat, input, &row);
        all.push(row);
        if all.len() == most {
            break;
        }
    }
    (all, given == Given::NoneLeft)
}

/// All readings, by first and next, are those of the lister, and so is the count.
fn all_of(book: &[u8], input: &[u8]) -> usize {
    let flat = loaded(book);
    let (list, tree) = lister::listed(&grammar::from_flat(&flat).expect("loaded"), input);
    let (all, ended) = walked(&flat, input, usize::MAX);
    assert!(ended || list.is_empty());
    assert!(all == list, "the readings differ");
    assert_eq!(counted(&flat, input), walk::count(&list, tree));
    list.len()
}

#[test]
fn pairs_of_nine_marks_and_ten() {
    let pairs = book(0, &["0: 0 0", "0: A"]);
    assert_eq!(all_of(&pairs, &[b'A'; 9]), 1430);
    let flat = loaded(&pairs);
    assert_eq!(counted(&flat, &[b'A'; 9]), Given::Count(1430));
    for n in [10, 11, 32, 64] {
        assert_eq!(counted(&flat, &vec![b'A'; n]), Given::More);
    }
    let (some, ended) = walked(&flat, &[b'A'; 64], 60);
    assert!(!ended && some.iter().all(|row| row.len() == 2 * 127 && check(&flat, &[b'A'; 64], row) == Answer::Yes));
    assert_eq!(counted(&flat, b"AB"), Given::Count(0));
}

#[test]
fn exactly_4096_and_one_more() {
    assert_eq!(all_of(&boundary(false).bytes, &[b'A'; 12]), 4096);
    let (flat, input) = (loaded(&boundary(true).bytes), [b'A'; 12]);
    assert_eq!(counted(&loaded(&boundary(false).bytes), &input), Given::Count(4096));
    assert_eq!(counted(&flat, &input), Given::More);
    // The last but one of 4,097, and the last.
    let last = row("12.4 6.5 6.5");
    let before = [&[12, 0][..], &[&[6, 1][..], &[1, 3].repeat(6)].concat().repeat(2)].concat();
    assert_eq!(nexted(&flat, &input, &before), Given::Row(last.clone()));
    assert_eq!(nexted(&flat, &input, &last), Given::NoneLeft);
}

#[test]
fn nodes_up_to_512() {
    let rules = ["0: A 1 1 1 1 1 1 1", "1: 2 2 2 2 2 2 2 2", "2: 3 3 3 3 3 3 3 3", "3:"];
    assert_eq!(all_of(&book(0, &rules), b"A"), 1);
    let over = loaded(&book(4, &[&rules[..], &["4: 0"]].concat()));
    let Given::Row(most) = firsted(&loaded(&book(0, &rules)), b"A") else { panic!("no reading") };
    assert_eq!(most.len(), 1024);
    assert_eq!(counted(&over, b"A"), Given::Refused(13));
    assert_eq!(nexted(&over, b"A", &[&[1, 4], &most[..]].concat()), Given::Refused(12));
    assert_eq!(nexted(&over, b"A", &most), Given::Refused(12));
    // A bush that leaves 30 nodes for pairs: with 1 to 11 marks all readings fit, with 16 none does.
    let bushy = |n: usize| {
        let core = ["0: 1 4", "1: 1 1", "1: A", "1: 5", "5: 6", "6: A", "4: 2 2 2 2 2 2", "2: 3 3 3 3 3 3 3 3"];
        let rules = [&core[..], &["3: 7 7 7 7 7 7 7 7", "7:"]].concat();
        all_of(&book(0, &rules), &vec![b'A'; n])
    };
    let readings = [1, 2, 3, 4, 5].map(bushy);
    assert!(readings.windows(2).all(|two| two[0] < two[1]), "{readings:?}");
}

#[test]
fn the_deepest_reading_is_the_last() {
    let deep = loaded(&deepest());
    assert_eq!(counted(&deep, &[b'A'; 16]), Given::Count(1));
    assert_eq!(nexted(&deep, &[b'A'; 16], &deepest_row(16)), Given::NoneLeft);
    assert_eq!(counted(&deep, &[b'A'; 17]), Given::Refused(13));
    assert_eq!(nexted(&deep, &[b'A'; 17], &deepest_row(17)), Given::Refused(12));
    // With a twin of 0 -> 1, rule 33: 2 to the 16 readings. Each 0, from the root on, has one or the other.
    let mut rules: Vec<String> = (0..31).map(|k| format!("{k}: {}", k + 1)).collect();
    rules.extend(["31: A 0".to_string(), "31: A".to_string(), "0: 1".to_string()]);
    let twin = loaded(&book(0, &texts(&rules)));
    let with = |bits: u16| {
        let mut row = deepest_row(16);
        (0..16).filter(|at| bits >> (15 - at) & 1 == 1).for_each(|at| row[64 * at + 1] = 33);
        row
    };
    for bits in [0, 1, 0x7FFE, 0x7FFF, 0x8000, 0xFFFE] {
        assert_eq!(nexted(&twin, &[b'A'; 16], &with(bits)), Given::Row(with(bits + 1)));
    }
    assert_eq!(nexted(&twin, &[b'A'; 16], &with(0xFFFF)), Given::NoneLeft);
    assert_eq!(counted(&twin, &[b'A'; 4]), Given::Count(16));
}

fn texts(rules: &[String]) -> Vec<&str> {
    rules.iter().map(String::as_str).collect()
}

#[test]
fn complete_unit_graphs() {
    for kinds in [11, 5] {
        let mut rules: Vec<String> = Vec::new();
        for i in 0..kinds {
            rules.extend((0..kinds).filter(|j| *j != i).map(|j| format!("{i}: {j}")));
        }
        rules.push("0: A".to_string());
        assert_eq!(all_of(&book(0, &texts(&rules)), b"A"), 1);
        // With the way out at the last kind: every path from 0 that meets no kind twice.
        *rules.last_mut().expect("a rule") = format!("{}: A", kinds - 1);
        let graph = book(0, &texts(&rules));
        if kinds == 5 {
            assert_eq!(all_of(&graph, b"A"), 1 + 3 + 3 * 2 + 3 * 2);
            continue;
        }
        let flat = loaded(&graph);
        assert_eq!(counted(&flat, b"A"), Given::More);
        let (some, ended) = walked(&flat, b"A", 300);
        assert!(!ended && some.iter().all(|row| check(&flat, b"A", row) == Answer::Yes));
        // The direct way is the last of all.
        assert_eq!(nexted(&flat, b"A", &row("1.9 1.110")), Given::NoneLeft);
        // And with pairs: a graph at each of 127 spans.
        rules.push("0: 0 0".to_string());
        let flat = loaded(&book(0, &texts(&rules)));
        let (some, ended) = walked(&flat, &[b'A'; 32], 12);
        assert!(!ended && some.iter().all(|row| check(&flat, &[b'A'; 32], row) == Answer::Yes));
    }
}

#[test]
fn small_books_to_their_end() {
    assert_eq!(all_of(&book(0, &["0: 0 A", "0: A"]), b"AAA"), 1);
    assert_eq!(all_of(&book(0, &["0: 1 1", "1:", "1: A"]), b"A"), 2);
    assert_eq!(all_of(&book(0, &["0: 1 1 1", "1:", "1: A 1", "1: A"]), b"AAAA"), 3 * 8 + 3 * 3 * 4 + 3 * 2);
    assert_eq!(all_of(&[0x10, 0, 0x50], b"A"), 0);
    // An ancestor forbids, and the limit of 512 nodes cuts.
    let rules =
        ["0: 1 1 1 1 1 1 1 1", "1: 2", "2: 1", "2: 3", "1: A", "3: A 4 4 4 4 4 4 4", "4: 5 5 5 5 5 5 5 5", "5:"];
    assert_eq!(all_of(&book(0, &rules), &[b'A'; 8]), 255);
    let rules = ["0: A 1", "1: 2", "2: 1", "2: 3", "1:", "3: 4 4 4 4", "4:", "4: 1", "2:"];
    all_of(&book(0, &rules), b"A");
    // Hidden left recursion and unit cycles.
    all_of(&book(0, &["0: 1 0 A", "0: A", "0: 2", "2: 0", "1:", "1: A"]), &[b'A'; 6]);
}

#[test]
fn books_over_nothing_to_their_end() {
    assert_eq!(all_of(&book(0, &["0: 1 1 1", "1:", "1: 2", "2:", "2: 3", "3:"]), b""), 3 * 3 * 3);
    // Every path from 0 to 4 that meets no kind twice.
    let steps = (0..5).flat_map(|i| (0..5).filter(move |j| *j != i).map(move |j| format!("{i}: {j}")));
    let rules: Vec<String> = steps.chain(["4:".to_string()]).collect();
    assert_eq!(all_of(&book(0, &texts(&rules)), b""), 1 + 3 + 3 * 2 + 3 * 2);
    // Exactly 4,096, and one more.
    assert_eq!(all_of(&blank_boundary(false), b""), 4096);
    assert_eq!(counted(&loaded(&blank_boundary(true)), b""), Given::More);
}

/// The list of a full book is too large: the lister checks what is handed out.
#[test]
fn full_books() {
    let half = |parity: u64| {
        let (mut handed, mut slowest) = (0, Duration::ZERO);
        for seed in (0..80).filter(|seed| seed % 2 == parity) {
            let full = full_book(seed);
            let (flat, input) = (loaded(&full.bytes), full.inputs[0].clone());
            let grammar = grammar::from_flat(&flat).expect("loaded");
            let Given::Row(mut row) = firsted(&flat, &input) else { continue };
            for _ in 0..2 {
                let (input_, offered) = (input.clone(), row.clone());
                let (given, took) = timed(move || next(&flat, &input_, &offered));
                slowest = slowest.max(took);
                let Given::Row(next) = given else { break };
                assert!(next > row && trees::is_derivation(&grammar, &input, &next), "{next:?} after {row:?}");
                row = next;
                handed += 1;
            }
        }
        (handed, slowest)
    };
    let (one, other) = std::thread::scope(|scope| {
        let other = scope.spawn(|| half(1));
        (half(0), other.join().expect("the other half"))
    });
    println!("{} handed out; the slowest call {:?}", one.0 + other.0, one.1.max(other.1));
    assert!(one.0 + other.0 >= 60, "{} {}", one.0, other.0);
}

/// A grammar, an input, an offered row, the lengths of chart and output, and the expected answer.
type Case<'a> = (&'a FlatGrammar, &'a [u8], &'a [u16], usize, usize, Answer);

#[test]
fn refusals_in_their_order() {
    let rules = ["0: 1 1", "1:", "1: A"];
    let (good, mut bad) = (loaded(&book(0, &rules)), loaded(&book(0, &rules)));
    bad[0] = 32;
    let (long, reading, other) = ([b'A'; 65], row("1.0 0.1 1.2"), row("1.0 0.1 0.1"));
    let cases: [Case<'_>; 12] = [
        (&bad, &[], &other, CELLS - 1, OUTPUT - 1, Answer::Refused(8)),
        (&bad, b"A", &reading, CELLS, OUTPUT, Answer::Refused(8)),
        (&good, &long, &other, CELLS - 1, OUTPUT - 1, Answer::Refused(9)),
        (&good, &long, &other, CELLS, OUTPUT, Answer::Refused(9)),
        (&good, &[], &other, CELLS - 1, OUTPUT - 1, Answer::Refused(10)),
        (&good, b"A", &other, CELLS - 1, OUTPUT - 1, Answer::Refused(10)),
        (&good, b"A", &reading, CELLS - 1, OUTPUT, Answer::Refused(10)),
        (&good, b"A", &other, CELLS, OUTPUT - 1, Answer::Refused(11)),
        (&good, b"A", &reading, CELLS, 0, Answer::Refused(11)),
        (&good, b"A", &other, CELLS, OUTPUT, Answer::Refused(12)),
        (&good, b"A", &[], CELLS, OUTPUT, Answer::Refused(12)),
        (&good, b"A", &reading, CELLS, OUTPUT, Answer::Nodes(3)),
    ];
    for (flat, input, offered, cells, numbers, due) in cases {
        let mut rng = Rng::new(8);
        let (mut chart, mut out) = (rubbish(&mut rng, cells), Lent::filled(numbers, || rng.draw() as u16));
        let (found, found_out, mut nodes) = (chart.clone(), out.clone(), 77);
        let answer = reader_under_test().next(flat, input, YEAR, offered, chart.part_mut(), out.part_mut(), &mut nodes);
        assert_eq!(answer, due);
        let refused = matches!(due, Answer::Refused(_));
        assert!(!refused || (out == found_out && nodes == 77), "{due:?}");
        assert_eq!(chart == found, refused && due != Answer::Refused(12), "{due:?}");
        if numbers == OUTPUT {
            let (mut chart, mut number) = (found.clone(), 77);
            let answer = reader_under_test().count(flat, input, YEAR, chart.part_mut(), &mut number);
            let due = if due == Answer::Refused(12) || !refused { Answer::Count(2) } else { due };
            assert_eq!((answer, number), (due, if due == Answer::Count(2) { 2 } else { 77 }));
            assert_eq!(chart == found, due != Answer::Count(2), "{due:?}");
        }
    }
}
