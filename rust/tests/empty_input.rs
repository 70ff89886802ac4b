//! An input of no bytes is read like any other: by the iterator, by each call, and as a tree.
mod books;

use books::{BLANK_TWINS, PAIRS, T, YEAR};
use filbozseg::*;

/// The numbers of the readings of the twins, in order.
const FOUR: [[u16; 6]; 4] = [[0, 0, 0, 1, 0, 1], [0, 0, 0, 1, 0, 2], [0, 0, 0, 2, 0, 1], [0, 0, 0, 2, 0, 2]];

/// 0 -> seven of 1, 1 -> eight of 2, 2 -> eight of 3, 3 -> nothing, 4 -> 0: 512 nodes from 0 and 513 from 4.
fn bush(start: u8) -> Grammar {
    let rule = |left: u8, child: u8, places: usize| [vec![0x20, left, 0, 0], [0x30, child].repeat(places)].concat();
    let rules = [rule(0, 1, 7), rule(1, 2, 8), rule(2, 3, 8), rule(3, 0, 0), rule(4, 0, 1)].concat();
    load(&[&[0x10, start], &rules[..], &[0x50]].concat()).unwrap()
}

#[test]
fn the_iterator_finds_its_readings_and_ends() {
    let (t, twins, pairs) = (load(T).unwrap(), load(BLANK_TWINS).unwrap(), load(PAIRS).unwrap());
    let written =
        |grammar: &Grammar| grammar.readings(b"", YEAR).map(|reading| reading.unwrap().to_string()).collect::<Vec<_>>();
    assert_eq!(written(&t), ["0.0 0.1 0.1"]);
    assert_eq!(written(&twins), ["0.0 0.1 0.1", "0.0 0.1 0.2", "0.0 0.2 0.1", "0.0 0.2 0.2"]);
    assert_eq!(written(&bush(0))[0].split(' ').count(), 512);
    for (grammar, items) in [(&t, 1), (&twins, 4), (&pairs, 0)] {
        let mut readings = grammar.readings(b"", YEAR);
        assert_eq!(readings.by_ref().filter(Result::is_ok).count(), items);
        assert!((0..3).all(|_| readings.next().is_none()));
    }
    assert_eq!(bush(4).readings(b"", YEAR).collect::<Vec<_>>(), [Err(Refusal::OnlyLargerTrees)]);
}

#[test]
fn each_call_reads_it() {
    let (twins, mut chart, mut output) = (load(BLANK_TWINS).unwrap(), vec![7; CELLS + 3], [9; OUTPUT]);
    for (reading, tenths) in FOUR.iter().zip([5, 2, 2, -2]) {
        assert_eq!(check(&twins, b"", YEAR, reading, &mut chart), Ok(true));
        assert_eq!(length(&twins, b"", YEAR, reading, &mut chart), Ok(tenths));
        assert!(FOUR.iter().all(|other| same_build(&twins, b"", YEAR, reading, other, &mut chart) == Ok(true)));
    }
    assert_eq!(first(&twins, b"", YEAR, &mut chart, &mut output), Ok(Some(&FOUR[0][..])));
    for two in FOUR.windows(2) {
        assert_eq!(next(&twins, b"", YEAR, &two[0], &mut chart, &mut output), Ok(Some(&two[1][..])));
    }
    assert_eq!((&output[..6], &output[6..]), (&FOUR[3][..], &[9; OUTPUT - 6][..]));
    assert_eq!(next(&twins, b"", YEAR, &FOUR[3], &mut chart, &mut output), Ok(None));
    assert_eq!(count(&twins, b"", YEAR, &mut chart), Ok(Count::Exactly(4)));
    // the chart is that of opening: the nullable nonterminals 0 and 1 in its first cell, and zeros
    assert_eq!((chart[0], &chart[CELLS..]), (3, &[7; 3][..]));
    assert!(chart[1..CELLS].iter().all(|&cell| cell == 0));
}

#[test]
fn without_a_derivation_it_is_answered_like_any_other() {
    let (pairs, larger, mut chart, mut output) = (load(PAIRS).unwrap(), bush(4), vec![7; CELLS], [9; OUTPUT]);
    assert_eq!(first(&pairs, b"", YEAR, &mut chart, &mut output), Ok(None));
    assert_eq!(count(&pairs, b"", YEAR, &mut chart), Ok(Count::Exactly(0)));
    assert_eq!((open(&pairs, YEAR, &mut chart).1, open(&larger, YEAR, &mut chart).1), (Ok(false), Ok(true)));
    assert_eq!(first(&larger, b"", YEAR, &mut chart, &mut output), Err(Refusal::OnlyLargerTrees));
    assert_eq!(count(&larger, b"", YEAR, &mut chart), Err(Refusal::OnlyLargerTrees));
    for (grammar, stranger) in [(&pairs, &[][..]), (&pairs, &[0, 0]), (&larger, &[0, 4]), (&larger, &[])] {
        assert_eq!(check(grammar, b"", YEAR, stranger, &mut chart), Ok(false));
        assert_eq!(length(grammar, b"", YEAR, stranger, &mut chart), Err(Refusal::NotADerivation));
        assert_eq!(next(grammar, b"", YEAR, stranger, &mut chart, &mut output), Err(Refusal::NotADerivation));
        assert_eq!(grammar.reading(b"", YEAR, stranger), Err(Refusal::NotADerivation));
    }
    assert_eq!(output, [9; OUTPUT]);
}

#[test]
fn its_reading_is_a_tree_of_nodes_that_cover_nothing() {
    let t = load(T).unwrap();
    let reading = t.reading(b"", YEAR, &[0, 0, 0, 1, 0, 1]).unwrap();
    assert_eq!(reading, t.readings(b"", YEAR).next().unwrap().unwrap());
    assert!(reading.nodes().all(|node| node.cover() == 0 && node.marks() == (0..0)));
    assert_eq!(reading.root().children().map(|child| child.rule().number()).collect::<Vec<_>>(), [1, 1]);
    assert_eq!(reading.nodes().map(Node::depth).collect::<Vec<_>>(), [0, 1, 1]);
}
