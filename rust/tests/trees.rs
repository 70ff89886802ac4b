//! The nodes of a reading form its tree, and a deep tree needs no deep stack.
mod books;
#[path = "../examples/tree.rs"]
mod tree;

use books::{deep, wide, MIXED, PAIRS, RANGES, T, YEAR};
use filbozseg::*;

/// The rule and the marks of a node.
fn rule_and_marks(node: Node<'_>) -> (usize, std::ops::Range<usize>) {
    (node.rule().number(), node.marks())
}

#[test]
fn a_node_has_its_rule_its_marks_and_its_children() {
    let t = load(T).unwrap();
    let [one, other] =
        <[Reading; 2]>::try_from(t.readings(b"A", YEAR).map(Result::unwrap).collect::<Vec<_>>()).unwrap();
    assert_eq!(one.root().children().map(rule_and_marks).collect::<Vec<_>>(), [(1, 0..0), (2, 0..1)]);
    assert_eq!(other.root().children().map(rule_and_marks).collect::<Vec<_>>(), [(2, 0..1), (1, 1..1)]);
    assert_eq!(one.parts().collect::<Vec<_>>(), [(1, 0), (0, 1), (1, 2)]);
    let pairs = load(PAIRS).unwrap();
    let reading = pairs.reading(b"AAAA", YEAR, &[4, 0, 2, 0, 1, 1, 1, 1, 2, 0, 1, 1, 1, 1]).unwrap();
    let children: Vec<_> = reading.root().children().collect();
    assert_eq!(children.iter().map(|child| child.number()).collect::<Vec<_>>(), [1, 4]);
    assert_eq!(children[0].nodes().map(Node::number).collect::<Vec<_>>(), [1, 2, 3]);
    assert_eq!(children[1].nodes().rev().map(Node::number).collect::<Vec<_>>(), [6, 5, 4]);
    assert_eq!(children[1].children().map(rule_and_marks).collect::<Vec<_>>(), [(1, 2..3), (1, 3..4)]);
    assert_eq!(reading.nodes().map(Node::depth).collect::<Vec<_>>(), [0, 1, 2, 2, 1, 2, 2]);
    assert_eq!((reading.nodes().len(), children[0].nodes().len(), children[0].cover()), (7, 3, 2));
    assert_eq!(format!("{:?}", children[1]), "Node { number: 4, rule: 0, marks: 2..4 }");
}

/// Reads the places of each node's rule from the left: the children and the bytes between them must agree with the places.
fn read_through(grammar: &Grammar, input: &[u8], reading: &Reading) {
    assert_eq!((reading.root().number(), reading.root().marks()), (0, 0..input.len()));
    for node in reading.nodes() {
        let rule = node.rule();
        assert_eq!(grammar.rule(rule.number()), Some(rule));
        let (mut at, mut children) = (node.marks().start, node.children());
        for symbol in rule.places() {
            at = match symbol {
                Symbol::Nonterminal(left) => {
                    let child = children.next().unwrap();
                    assert_eq!((child.rule().left(), child.marks().start), (left, at));
                    assert_eq!(child.depth(), node.depth() + 1);
                    child.marks().end
                }
                Symbol::Terminal(byte) => {
                    assert_eq!(input[at], byte);
                    at + 1
                }
                Symbol::Range(low, high) => {
                    assert!((low..=high).contains(&input[at]));
                    at + 1
                }
                _ => unreachable!("a place holds a nonterminal, a terminal or a range"),
            };
        }
        assert_eq!((at, children.next().is_none(), children.next().is_none()), (node.marks().end, true, true));
    }
}

#[test]
fn the_children_and_bytes_of_a_node_are_the_places_of_its_rule() {
    let cases = [
        (load(T).unwrap(), &b"A"[..], 2),
        (load(PAIRS).unwrap(), b"AAAAAAA", 132),
        (load(MIXED).unwrap(), b"ACBABC", 2_000),
        (load(RANGES).unwrap(), b"V06V16V1Z", 2),
        (wide(0), b"A", 1),
        (deep(), &[b'A'; 64], 1),
    ];
    for (grammar, input, at_most) in cases {
        let readings: Vec<_> = grammar.readings(input, YEAR).take(at_most).map(Result::unwrap).collect();
        assert!(!readings.is_empty());
        readings.iter().for_each(|reading| read_through(&grammar, input, reading));
    }
}

/// The stack of a thread that looks at a reading: 1/32 of what a Rust thread has by default.
const SMALL: usize = 64 * 1024;

#[test]
fn the_deepest_reading_needs_no_deep_stack() {
    let grammar = deep();
    let reading = grammar.readings(&[b'A'; 64], YEAR).next().unwrap().unwrap();
    let look = move || {
        assert_eq!(reading.nodes().map(Node::depth).max(), Some(511));
        let (mut node, mut steps) = (reading.root(), 0);
        while let Some(child) = node.children().next() {
            (node, steps) = (child, steps + 1);
        }
        assert_eq!((steps, rule_and_marks(node)), (511, (32, 60..64)));
        assert_eq!(reading.to_string().split(' ').count(), 512);
        assert_eq!((format!("{reading:?}").len(), reading.clone() == reading), (reading.to_string().len() + 9, true));
        drop(reading);
    };
    std::thread::Builder::new().stack_size(SMALL).spawn(look).unwrap().join().unwrap();
}

#[test]
fn the_picture_is_as_its_file_says() {
    assert_eq!(tree::pictures().unwrap(), include_str!("../examples/tree.stdout"));
}
