//! Request U6 of document 02, points to come back to: cases written out by hand, every count as a target, hands over their
//! limits, and random lists of operations, run on the reader under test. FILBOZSEG_SEED=N runs other lists.

#[allow(dead_code)] // not all of it is called from here
mod calls;

use calls::{book, loaded, T, YEAR};
use outside_tests::books::{self, first_seed, Rng, SEED};
use outside_tests::compare::{rubbish, run_list, Counts, Lent};
use outside_tests::reader::{self, Answer, FlatGrammar, Hand, Reader, CELLS, FIRST_POINT, HAND, INPUT, POINTS};
use outside_tests::reader_under_test;

/// A plate in hand with its sheet, on the reader under test.
struct Plate {
    flat: FlatGrammar,
    hand: Hand,
    chart: Lent<u32>,
}

impl Plate {
    fn open(flat: FlatGrammar) -> Plate {
        let (mut hand, mut chart) = ([9; HAND], rubbish(&mut Rng::new(61), CELLS + 3));
        let answer = reader_under_test().open(&flat, YEAR, &mut hand, chart.part_mut());
        assert!(matches!(answer, Answer::Yes | Answer::No));
        Plate { flat, hand, chart }
    }
    fn take(&mut self, mark: u8) -> Answer {
        reader_under_test().take(&self.flat, &mut self.hand, mark, self.chart.part_mut())
    }
    fn set(&mut self, name: usize) -> Answer {
        reader_under_test().set_point(&self.flat, &mut self.hand, name, self.chart.part_mut())
    }
    fn back(&mut self, name: usize) -> Answer {
        reader_under_test().return_to(&self.flat, &mut self.hand, name, self.chart.part_mut())
    }
    /// The used marks, and the points as their numbers.
    fn held(&self) -> (Vec<u8>, [u16; POINTS]) {
        let used = usize::from(self.hand[INPUT]);
        assert!(self.hand[used..INPUT].iter().all(|mark| *mark == 0) && self.hand[reader::YEAR] == YEAR);
        let points = self.hand[FIRST_POINT..].try_into().expect("eight points");
        (self.hand[..used].iter().map(|mark| *mark as u8).collect(), points)
    }
}

/// A doubtful mark: a point before it, two attempts, and back each time. 0 -> A 0, 0 -> A.
#[test]
fn a_doubtful_mark() {
    let mut plate = Plate::open(loaded(&book(0, &["0: A 0", "0: A"])));
    assert_eq!((plate.take(b'A'), plate.take(b'A'), plate.set(3)), (Answer::Yes, Answer::Yes, Answer::Yes));
    let before = plate.chart.clone();
    assert_eq!(plate.held(), (b"AA".to_vec(), [0, 0, 0, 3, 0, 0, 0, 0]));
    assert_eq!((plate.take(b'B'), plate.set(0)), (Answer::No, Answer::No));
    assert_eq!(plate.held(), (b"AAB".to_vec(), [4, 0, 0, 3, 0, 0, 0, 0]));
    assert_eq!(plate.back(3), Answer::Yes);
    assert_eq!(plate.held(), (b"AA".to_vec(), [0, 0, 0, 3, 0, 0, 0, 0]));
    assert!(plate.chart == before);
    assert_eq!((plate.back(0), plate.take(b'A'), plate.back(3)), (Answer::Refused(19), Answer::Yes, Answer::Yes));
    assert!(plate.chart == before);
    // set again, it moves
    assert_eq!((plate.take(b'A'), plate.set(3), plate.take(b'C')), (Answer::Yes, Answer::Yes, Answer::No));
    assert_eq!((plate.back(3), plate.held().0.len()), (Answer::Yes, 3));
}

/// Points beyond a return are gone; the target, others at its count and those before remain.
#[test]
fn which_points_remain() {
    for (name, due) in [
        (0, [1, 1, 0, 0, 0, 0, 0, 0]),
        (1, [1, 1, 0, 0, 0, 0, 0, 0]),
        (2, [1, 1, 2, 2, 0, 0, 0, 0]),
        (5, [1, 1, 2, 2, 3, 3, 0, 0]),
        (7, [1, 1, 2, 2, 3, 3, 4, 4]),
    ] {
        let mut plate = Plate::open(loaded(&T));
        for at in 0..POINTS {
            assert!(matches!(plate.set(at), Answer::Yes | Answer::No));
            assert!(at % 2 == 0 || plate.take(b'A') != Answer::Refused(15));
        }
        assert_eq!(plate.held(), (b"AAAA".to_vec(), [1, 1, 2, 2, 3, 3, 4, 4]));
        assert_eq!(plate.back(name), if name < 6 { Answer::Yes } else { Answer::No }); // two marks are complete, three are not
        assert_eq!(plate.held(), (vec![b'A'; name / 2], due));
    }
}

/// A full hand with rubbish behind these used marks, and one point.
fn row(count: usize, name: usize, point: u16) -> Hand {
    let mut hand: Hand = std::array::from_fn(|at| if at < count { 65 } else { 0xF0F0 });
    (hand[INPUT], hand[reader::YEAR]) = (count as u16, YEAR);
    hand[FIRST_POINT..].fill(0);
    hand[FIRST_POINT + name] = point;
    hand
}

/// Every count is a target, from itself, from the next and from a full hand, over a chart of rubbish: the cells (i, j) with
/// j past the count and i up to j are zero, and no other cell has changed.
#[test]
fn every_count_is_a_target() {
    let flat = loaded(&T);
    for (count, from) in (0..=INPUT).flat_map(|count| [count, count + 1, INPUT].map(|from| (count, from.min(INPUT)))) {
        let (found, name) = (rubbish(&mut Rng::new(62 + count as u64), CELLS + 3), count % POINTS);
        let (mut hand, mut chart) = (row(from, name, count as u16 + 1), found.clone());
        let answer = reader_under_test().return_to(&flat, &mut hand, name, chart.part_mut());
        let mut due = found.clone();
        for at in (0..CELLS).filter(|at| at % 65 > count && at / 65 <= at % 65) {
            due.part_mut()[at] = 0;
        }
        assert!(chart == due, "{count} from {from}");
        let complete = found.part()[count] & 1 == 1; // the start of T is 0, and cell (0, n) is word n
        assert_eq!(answer, if complete { Answer::Yes } else { Answer::No });
        let mut left = row(count, name, count as u16 + 1);
        left[count..INPUT].fill(0);
        assert_eq!(hand, left);
        // setting writes no cell, and says the same of this count
        let (mut hand, mut chart) = (row(count, name, 0), found.clone());
        assert_eq!(reader_under_test().set_point(&flat, &mut hand, name, chart.part_mut()), answer);
        assert!(hand == left && chart == found, "{count}");
    }
}

/// What take, set and return answer to a hand, with this name; refused, they leave hand and chart.
fn answers(hand: Hand, name: usize, cells: usize) -> [Answer; 3] {
    let (flat, reader) = (loaded(&T), reader_under_test());
    [0, 1, 2].map(|which| {
        let (found, mut left) = (rubbish(&mut Rng::new(63), cells), hand);
        let mut chart = found.clone();
        let answer = match which {
            0 => reader.take(&flat, &mut left, b'A', chart.part_mut()),
            1 => reader.set_point(&flat, &mut left, name, chart.part_mut()),
            _ => reader.return_to(&flat, &mut left, name, chart.part_mut()),
        };
        if matches!(answer, Answer::Refused(_)) {
            assert!(left == hand && chart == found, "{which}");
        }
        answer
    })
}

/// The numbers of a row are judged whole: counts over 64, used marks over 255, points past the count.
#[test]
fn hands_over_their_limits() {
    let fourteen = [Answer::Refused(14); 3];
    for number in [66, 255, 256, 257, 256 + 64, 65_535] {
        assert_eq!(answers(row(64, 4, number), 4, CELLS), fourteen, "{number}");
    }
    for count in 0..=INPUT {
        let one = count as u16 + 1;
        for number in [one + 1, one + 200, 256, 256 + one, 512, 65_535] {
            for name in [0, 3, 7] {
                assert_eq!(answers(row(count, name, number), name, CELLS), fourteen, "{count}, {number}");
                assert_eq!(answers(row(count, name, number), 8, CELLS - 1), fourteen, "{count}, {number}");
            }
        }
        assert!(!answers(row(count, 7, one), 7, CELLS)[1..].iter().any(|answer| matches!(answer, Answer::Refused(_))));
    }
    for count in [65, 66, 255, 256, 257, 65_535] {
        let mut hand = row(64, 0, 1);
        hand[INPUT] = count;
        assert_eq!(answers(hand, 0, CELLS), fourteen, "{count}");
    }
    for (at, mark, due) in [(2, 256, true), (0, 65_535, true), (2, 255, false), (3, 256, false), (63, 65_535, false)] {
        let mut hand = row(3, 0, 4);
        hand[at] = mark;
        assert_eq!(answers(hand, 0, CELLS) == fourteen, due, "{mark} at {at}");
    }
}

/// 8, 14, 10 and then 19, with the name judged whole.
#[test]
fn the_order_of_the_refusals() {
    for name in [8, 9, 255, 256, 1 << 16, 1 << 32, (1 << 32) + 1, 1 << 63, usize::MAX] {
        let [_, set, back] = answers(row(3, 1, 2), name, CELLS);
        assert_eq!((set, back), (Answer::Refused(19), Answer::Refused(19)), "{name}");
        let [_, set, back] = answers(row(3, 1, 2), name, CELLS - 1);
        assert_eq!((set, back), (Answer::Refused(10), Answer::Refused(10)), "{name}");
    }
    // a name that is not set: only the return is refused
    let [_, set, back] = answers(row(3, 1, 2), 0, CELLS);
    assert!(matches!(set, Answer::Yes | Answer::No) && back == Answer::Refused(19));
    let mut bad = loaded(&T);
    bad[0] = 32;
    let (mut hand, reader) = (row(3, 1, 5), reader_under_test());
    assert_eq!(reader.set_point(&bad, &mut hand, 8, &mut []), Answer::Refused(8));
    assert_eq!(reader.return_to(&bad, &mut hand, 8, &mut []), Answer::Refused(8));
    assert_eq!(hand, row(3, 1, 5));
}

/// Lists of operations run.
const LISTS: u64 = 1500;

/// How often each outcome must come up at least.
const DUE: &[(&str, u64)] = &[
    ("list: up to 100 operations", 500),
    ("list: over 100 operations", 200),
    ("list, take: Yes", 1500),
    ("list, take: No", 15_000),
    ("list, take: refused 15", 1500),
    ("list, set: Yes", 1000),
    ("list, set: No", 6000),
    ("list, set: refused 19", 1000),
    ("list, return: Yes", 1000),
    ("list, return: No", 4000),
    ("list, return: refused 19", 2000),
    ("list, return: not set", 1200),
    ("list: name 8", 300),
    ("list: a name over 8", 800),
    ("list: a name over 32 bits", 450),
    ("list: a point set", 4000),
    ("list: a point moved", 2000),
    ("list: a point set again where it is", 1000),
    ("list: a return between", 2500),
    ("list: a return to where the hand is", 1500),
    ("list: a return to no marks", 1000),
    ("list: a return from 64 marks", 150),
    ("list: a return from 64 marks to none", 3),
    ("list: a return drops a point", 1500),
    ("list: a return keeps another point at its count", 3000),
    ("list: a return keeps a point before", 1200),
];

#[test]
fn random_lists_of_operations() {
    let from = first_seed(9000);
    let mut counts = Counts::default();
    for seed in from..from + LISTS {
        if let Err(difference) = run_list(&reader_under_test(), &books::book(seed), seed, &mut counts) {
            panic!("{difference}\n{SEED}={seed} begins with this list");
        }
    }
    for (name, count) in counts.0.iter().filter(|(name, _)| name.starts_with("list")) {
        println!("{count:8}  {name}");
    }
    for (name, due) in DUE {
        let due = if from == 9000 { *due } else { *due / 2 }; // with other books, half as often is enough
        assert!(counts.get(name) >= due, "{name}: came up {} times, due {due}", counts.get(name));
    }
}
