//! The books that are timed, as bytes, and their inputs.

use crate::random::Random;

/// A place: a nonterminal below 32, a terminal, or a range from low to high.
#[derive(Clone, Copy)]
pub enum P {
    N(u8),
    T(u8),
    R(u8, u8),
}
use P::{N, R, T};

pub struct Book(Vec<u8>);

/// The command that names rule r: eight letters and digits, with a front that all names share.
fn name(r: usize) -> Vec<u8> {
    format!("\x60RULE0{r:03}").into_bytes()
}

/// The book with a name for each of its rules.
pub fn named(book: &[u8]) -> Vec<u8> {
    let (mut out, mut at, mut rules) = (Vec::new(), 0, 0);
    while at < book.len() {
        let size = match book[at] {
            0x20 => 4,
            0x41 => 3,
            0x50 => 1,
            _ => 2,
        };
        out.extend(&book[at..at + size]);
        if book[at] == 0x20 {
            out.extend(name(rules));
            rules += 1;
        }
        at += size;
    }
    out
}

impl Book {
    pub fn new(start: u8) -> Book {
        Book(vec![0x10, start])
    }

    pub fn rule(&mut self, left: u8, places: &[P]) -> &mut Book {
        self.measured(left, 0, places)
    }

    pub fn measured(&mut self, left: u8, length: i16, places: &[P]) -> &mut Book {
        self.0.extend([0x20, left]);
        self.0.extend(length.to_le_bytes());
        for p in places {
            match *p {
                N(k) => self.0.extend([0x30, k]),
                T(m) => self.0.extend([0x40, m]),
                R(low, high) => self.0.extend([0x41, low, high]),
            }
        }
        self
    }

    pub fn bytes(&self) -> Vec<u8> {
        let mut b = self.0.clone();
        b.push(0x50);
        b
    }
}

pub const A: P = T(b'A');

/// 0 → 0 0 | A.
pub fn pairs() -> Vec<u8> {
    Book::new(0).rule(0, &[N(0), N(0)]).rule(0, &[A]).bytes()
}

/// 0 → 0 0 | any byte: on 64 bytes A it does what `pairs` does, through a range.
pub fn pairs_of_any() -> Vec<u8> {
    Book::new(0).rule(0, &[N(0), N(0)]).rule(0, &[R(0, 255)]).bytes()
}

/// 40 rules: a condition, three levels of comparison and logic, sums, products, unary signs, powers, calls and
/// brackets, names, numbers.
pub fn expressions() -> Vec<u8> {
    let text = "0 1?0:0|0 1|1 1I2|1 2|2 2&3|2 3|3 4<4|3 4>4|3 4=4|3 4|4 4+5|4 4-5|4 5|5 5*6|5 5/6|5 5%6|5 6|6 -6|6 !6|6 7|7 8^7|7 8|\
                8 8(L)|8 8()|8 8[0]|8 9|9 (0)|9 M|9 D|M Z|M MZ|Z a|Z b|Z c|Z d|L 0|L L,0|D 1|D 2|D D3";
    let kind = |c: u8| match c {
        b'0' => Some(0),
        b'4'..=b'9' => Some(c - b'0'),
        b'L' => Some(10),
        b'M' => Some(11),
        b'Z' => Some(12),
        b'D' => Some(13),
        _ => None,
    };
    // 1, 2 and 3 are kinds, except in the rules of numbers, where they are digits.
    let mut book = Book::new(0);
    for rule in text.split('|') {
        let (left, right) = rule.split_once(' ').unwrap();
        let left = left.as_bytes()[0];
        let places: Vec<P> = right
            .bytes()
            .map(|c| match (c, left) {
                (b'1'..=b'3', b'D') => T(c),
                (b'1'..=b'3', _) => N(c - b'0'),
                _ => kind(c).map_or(T(c), N),
            })
            .collect();
        let left = if (b'1'..=b'3').contains(&left) { left - b'0' } else { kind(left).unwrap() };
        book.rule(left, &places);
    }
    book.bytes()
}

pub fn expression() -> Vec<u8> {
    b"ab*(c+d^1)-!bad(a,b[13]+c,-d)/2%cab<a+b*(-c-d)&(a=b|d)?ac+d:13*a"
        .iter()
        .map(|&c| if c == b'|' { b'I' } else { c })
        .collect()
}

/// 128 rules of 8 places over all 32 kinds and two marks, except for 4 empty rules. Three places in four hold one of
/// the four nullable kinds, which have rules of 8 places as well.
pub fn dense() -> Vec<u8> {
    let mut random = Random::new(0xd);
    let mut book = Book::new(0);
    for r in 0..128 {
        if r % 32 == 31 {
            book.rule(28 + (r / 32) as u8, &[]);
            continue;
        }
        let mut places = random_places(&mut random, 32, 8, 6, &b"AAB".map(T));
        for place in &mut places {
            if random.below(4) > 0 {
                *place = N(28 + random.below(4) as u8);
            }
        }
        book.rule((r % 32) as u8, &places);
    }
    book.bytes()
}

/// Places, of which one in `rare` is a mark.
fn random_places(random: &mut Random, kinds: usize, count: usize, rare: usize, marks: &[P]) -> Vec<P> {
    (0..count)
        .map(|_| match random.below(rare) {
            0 => marks[random.below(marks.len())],
            _ => N(random.below(kinds) as u8),
        })
        .collect()
}

/// Unit rules i → j over 32 kinds, as many as fit together with `more`, then 0 → A.
pub fn unit_cycles(more: &[&[P]]) -> Vec<u8> {
    let mut book = Book::new(0);
    let units = 127 - more.len();
    let edges = (1..32u8).flat_map(|d| (0..32u8).map(move |i| (i, (i + d * d) % 32)));
    edges.filter(|(i, j)| i != j).take(units).for_each(|(i, j)| {
        book.rule(i, &[N(j)]);
    });
    more.iter().for_each(|places| {
        book.rule(0, places);
    });
    book.rule(0, &[A]).bytes()
}

/// The complete unit graph: 11 kinds, a rule from each to each other one, and 0 → A last, 111 rules. A search that
/// tries rules without exact costs takes seconds on it.
pub fn unit_graph() -> Vec<u8> {
    let mut book = Book::new(0);
    for i in 0..11 {
        (0..11).filter(|&j| j != i).for_each(|j| {
            book.rule(i, &[N(j)]);
        });
    }
    book.rule(0, &[A]).bytes()
}

/// Hidden left recursion: 0 → 1 0 A and other rules begin with a kind that may be empty.
pub fn hidden() -> Vec<u8> {
    Book::new(0)
        .rule(0, &[N(1), N(0), A])
        .rule(0, &[N(2), N(1), N(0), N(3)])
        .rule(0, &[A])
        .rule(1, &[N(2), N(2)])
        .rule(1, &[N(3), N(1)])
        .rule(1, &[])
        .rule(2, &[N(1)])
        .rule(2, &[A, N(0)])
        .rule(2, &[])
        .rule(3, &[N(2), N(3), N(1)])
        .rule(3, &[A])
        .rule(3, &[])
        .bytes()
}

/// k → k+1 for k = 0..30 in this order, so that each pass finds one more kind; then the rules of 31.
pub fn chain(last: &[&[P]]) -> Vec<u8> {
    let mut book = Book::new(0);
    (0..31).for_each(|k| {
        book.rule(k, &[N(k + 1)]);
    });
    last.iter().for_each(|places| {
        book.rule(31, places);
    });
    book.bytes()
}

/// The worst case found by hand: a chain of 29 kinds, one found in each pass over each cell, in rules of 8 places;
/// and 95 rules of 8 places whose every search for a cut runs to its end and fails. 31 covers every span, 29 is only
/// empty, 30 has no rule.
pub fn worst() -> Vec<u8> {
    let mut book = Book::new(0);
    for k in 0..29 {
        let mut places = [N(29); 8];
        places[0] = N(if k == 28 { 31 } else { k + 1 });
        book.rule(k, &places);
    }
    for _ in 0..95 {
        let mut places = [N(31); 8];
        places[7] = N(30);
        book.rule(0, &places);
    }
    book.rule(31, &[A, N(31)]).rule(31, &[A]).rule(31, &[]).rule(29, &[]).bytes()
}

/// Less work, but conditions that a processor predicts badly: a chain of 25 kinds among 94 rules. Their places hold
/// marks and kinds that are empty or not and cover all, some or no spans, and end with a kind without rules.
pub fn worst_mixed() -> Vec<u8> {
    let mut random = Random::new(77);
    let mut rules: Vec<(u8, Vec<P>)> = Vec::new();
    for k in 0..25 {
        let mut places = vec![N(29); 8];
        places[0] = N(if k == 24 { 31 } else { k + 1 });
        rules.push((k, places));
    }
    let pool = [0, 5, 10, 15, 20, 25, 26, 27, 28, 29, 30, 31].map(N);
    for _ in 0..94 {
        let mut places: Vec<P> = (0..8)
            .map(|_| if random.below(7) == 0 { T(b"AB"[random.below(2)]) } else { pool[random.below(12)] })
            .collect();
        places[7] = N(30);
        let at = random.below(rules.len() + 1);
        rules.insert(at, (random.below(25) as u8, places));
    }
    let mut book = Book::new(0);
    rules.iter().for_each(|(left, places)| {
        book.rule(*left, places);
    });
    book.rule(31, &[A, N(31)]).rule(31, &[T(b'B'), N(31)]).rule(31, &[]).rule(29, &[]);
    book.rule(28, &[N(31), A])
        .rule(27, &[A, N(31)])
        .rule(26, &[N(31), T(b'B'), A])
        .rule(25, &[N(28)])
        .rule(25, &[])
        .bytes()
}

/// A full valid book of 2,563 bytes: 128 rules of 8 places.
pub fn full() -> Vec<u8> {
    let mut random = Random::new(0xf);
    let mut book = Book::new(0);
    for r in 0..128 {
        let places = random_places(&mut random, 32, 8, 3, &b"ABC".map(T));
        book.measured((r % 32) as u8, random.draw() as i16, &places);
    }
    book.bytes()
}

/// The longest book without years that loads, 3,587 bytes: 128 rules of 8 ranges.
pub fn full_of_ranges() -> Vec<u8> {
    let mut book = Book::new(0);
    for r in 0..128 {
        book.measured(r % 32, 25, &[R(r, 127 + r); 8]);
    }
    book.bytes()
}

/// The deepest reading: k → k+1 for k = 0..30, 31 → A 0, 31 → A; A × 16 has one reading, of 512 parts nested 512
/// deep.
pub fn deepest() -> (Vec<u8>, Vec<u8>, Vec<u16>) {
    let book = chain(&[&[A, N(0)], &[A]]);
    let mut reading = Vec::new();
    for cover in (1..=16).rev() {
        (0..31).for_each(|r| reading.extend([cover, r]));
        reading.extend([cover, if cover > 1 { 31 } else { 32 }]);
    }
    (book, vec![b'A'; 16], reading)
}

/// The drawer's bush of empty parts: 0 → A and seven of kind 1, 1 → eight of kind 2, 2 → eight of kind 3, 3 →
/// nothing; A has one reading, of 512 parts.
pub fn bush() -> (Vec<u8>, Vec<u8>, Vec<u16>) {
    let book = Book::new(0)
        .measured(0, 4625, &[A, N(1), N(1), N(1), N(1), N(1), N(1), N(1)])
        .measured(1, -25, &[N(2); 8])
        .measured(2, 24, &[N(3); 8])
        .measured(3, -7, &[])
        .bytes();
    let mut reading = vec![1, 0];
    for _ in 0..7 {
        reading.extend([0, 1]);
        for _ in 0..8 {
            reading.extend([0, 2]);
            (0..8).for_each(|_| reading.extend([0, 3]));
        }
    }
    (book, vec![b'A'], reading)
}

/// The deepest reading with four marks per turn: 31 → A A A A 0, 31 → A A A A; A × 64 has one reading, of 512 parts
/// nested 512 deep.
pub fn deepest_of_64() -> Vec<u8> {
    chain(&[&[A, A, A, A, N(0)], &[A, A, A, A]])
}

/// The complete unit graph with its way out at the last kind, and 0 → 0 0: each mark has a chain of 11 unit rules.
pub fn unit_graph_of_pairs() -> Vec<u8> {
    let mut book = Book::new(0);
    for i in 0..11 {
        (0..11).filter(|&j| j != i).for_each(|j| {
            book.rule(i, &[N(j)]);
        });
    }
    book.rule(10, &[A]).rule(0, &[N(0), N(0)]).bytes()
}

/// 0 → 1 1, 1 → six of kind 2, 2 → A, 2 → A: A × 12 has exactly 4,096 readings, and one more with 0 → 3 3, 3 → six A.
pub fn boundary(more: bool) -> Vec<u8> {
    let mut book = Book::new(0);
    book.rule(0, &[N(1), N(1)]).rule(1, &[N(2); 6]).rule(2, &[A]).rule(2, &[A]);
    if more {
        book.rule(0, &[N(3), N(3)]).rule(3, &[A; 6]);
    }
    book.bytes()
}

/// The deepest book of 64 marks after 95 rules of eight kinds, and its reading. It is the last of all, so each of its
/// 512 nodes is searched for another cover and another rule.
pub fn last_of_many() -> (Vec<u8>, Vec<u16>) {
    const WIDE: u16 = 95;
    let mut book = Book::new(0);
    for r in 0..WIDE as u8 {
        let places: Vec<P> = (0..8).map(|q| N(r.wrapping_mul(7).wrapping_add(5 * q) % 32)).collect();
        book.rule(r % 32, &places);
    }
    (0..31).for_each(|k| {
        book.rule(k, &[N(k + 1)]);
    });
    book.rule(31, &[A, A, A, A, N(0)]).rule(31, &[A, A, A, A]);
    let node = |at: u16| [64 - 4 * (at / 32), WIDE + if at == 511 { 32 } else { at % 32 }];
    (book.bytes(), (0..512).flat_map(node).collect())
}

/// One reading. Each of its nodes is searched for another rule in vain, and the costs are computed for that. The
/// rules: k → k+1 (with an empty node after it, if `followed`) for the kinds below the last, last → A 0, last → A.
/// After them, up to 128 rules, come rules of all these kinds whose first kind has no tree over the marks.
pub fn later_in_vain(last: u8, followed: bool) -> Vec<u8> {
    const EMPTY: u8 = 30;
    const NEVER: u8 = 31;
    let mut book = Book::new(0);
    (0..last).for_each(|k| {
        book.rule(k, &[N(k + 1), N(EMPTY)][..1 + usize::from(followed)]);
    });
    book.rule(last, &[A, N(0)]).rule(last, &[A]).rule(EMPTY, &[]).rule(NEVER, &[T(b'B')]);
    (last + 4..128).for_each(|r| {
        book.rule(r % (last + 1), &[N(NEVER), N(EMPTY), N(EMPTY), N(EMPTY), N(EMPTY), N(EMPTY), N(EMPTY), N(EMPTY)]);
    });
    book.bytes()
}

/// A wide rule for each kind: k → eight of k+1, 31 → nothing, and k → A for each k if `marks`. Every kind is
/// nullable, but only the last ones by trees of at most 512 parts.
pub fn wide(marks: bool) -> Vec<u8> {
    let mut book = Book::new(0);
    (0..31).for_each(|k| {
        book.rule(k, &[N(k + 1); 8]);
    });
    book.rule(31, &[]).rule(31, &[A]);
    (0..if marks { 32 } else { 0 }).for_each(|k| {
        book.rule(k, &[A]);
    });
    book.bytes()
}

/// The least tree of 2 goes through 1, which may not occur below 1 again. The other way is expensive: within the
/// limit of 512 parts, seven of eight can take it.
pub fn forbidden() -> Vec<u8> {
    let mut expensive = [N(4); 8];
    expensive[0] = A;
    Book::new(0)
        .rule(0, &[N(1); 8])
        .rule(1, &[N(2)])
        .rule(2, &[N(1)])
        .rule(2, &[N(3)])
        .rule(1, &[A])
        .rule(3, &expensive)
        .rule(4, &[N(5); 8])
        .rule(5, &[])
        .bytes()
}

/// A random book of full size and its input of 64 marks. The styles differ in how many kinds and marks there are, how
/// many rules are short, and how many are nullable.
pub fn random_full(random: &mut Random) -> (Vec<u8>, Vec<u8>) {
    full_with(random, T)
}

/// The same with a range in the place of each mark: it stands for any byte up to the mark. The input is the same.
pub fn random_full_of_ranges(random: &mut Random) -> (Vec<u8>, Vec<u8>) {
    full_with(random, |mark| R(0, mark))
}

fn full_with(random: &mut Random, place: fn(u8) -> P) -> (Vec<u8>, Vec<u8>) {
    let kinds = [4, 8, 16, 32][random.below(4)];
    let rare = [2, 4, 8, 16][random.below(4)];
    let marks: &[u8] = [&b"A"[..], b"AB", b"AAAB", b"ABCD"][random.below(4)];
    let empty = random.below(8);
    let single = random.below(24);
    let terminals: Vec<P> = marks.iter().copied().map(place).collect();
    let mut book = Book::new(0);
    for r in 0..128 {
        let left = random.below(kinds) as u8;
        let count = if r < empty {
            0
        } else if r < empty + single {
            1
        } else {
            8
        };
        let places = random_places(random, kinds, count, rare, &terminals);
        book.rule(left, &places);
    }
    let input = (0..64).map(|_| marks[random.below(marks.len())]).collect();
    (book.bytes(), input)
}
