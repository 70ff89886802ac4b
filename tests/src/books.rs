//! Random books (grammars as bytes) with inputs (plates), each made from a fixed seed, in styles that wrong programs
//! fail on.

mod dated;
mod learnt;
mod named;

pub use learnt::{rule_to_learn, spoil_rule};
pub use named::{bad_name, filled, Name};

use crate::reader::RULES;
use dated::{date, dated_rule, exchange_years, ALL_YEARS};
use named::{christen, damage_names, name_command};
use std::collections::BTreeMap;

/// A plain xorshift generator; the seed is mixed first.
pub struct Rng(u64);

impl Rng {
    pub fn new(seed: u64) -> Rng {
        let mut rng = Rng(seed.wrapping_mul(0x9E37_79B9_7F4A_7C15) ^ 0x2545_F491_4F6C_DD1D | 1);
        for _ in 0..8 {
            rng.draw();
        }
        rng
    }
    pub fn draw(&mut self) -> u64 {
        self.0 ^= self.0 << 13;
        self.0 ^= self.0 >> 7;
        self.0 ^= self.0 << 17;
        self.0
    }
    /// A number below n.
    pub fn below(&mut self, n: usize) -> usize {
        (self.draw() >> 11) as usize % n
    }
    /// A number from low to high, both included.
    pub fn within(&mut self, low: usize, high: usize) -> usize {
        low + self.below(high - low + 1)
    }
    /// True once in n times, on average.
    pub fn one_in(&mut self, n: usize) -> bool {
        self.below(n) == 0
    }
    pub fn pick<T: Copy>(&mut self, from: &[T]) -> T {
        from[self.below(from.len())]
    }
}

/// The variable that sets the seed of a run's first book.
pub const SEED: &str = "FILBOZSEG_SEED";

/// The seed of a run's first book: the variable's value, or this one. The books after it have the seeds after it.
pub fn first_seed(usual: u64) -> u64 {
    match std::env::var(SEED) {
        Ok(text) => text.parse().unwrap_or_else(|_| panic!("{SEED} is no number: {text}")),
        Err(_) => usual,
    }
}

/// A symbol of a draft: N for a nonterminal (kind), T for a terminal (mark), R for a range (low, high).
#[derive(Clone, Copy, PartialEq, Eq, Debug)]
pub enum Sym {
    N(u8),
    T(u8),
    R(u8, u8),
}
use Sym::{N, R, T};

/// A grammar being drafted: its start, and rules with left side, length and places. A rule whose number has a first and a
/// last year is opened by 21, any other by 20. A rule whose number has a name is named after so many of its places.
#[derive(Clone, Default)]
pub struct Draft {
    pub start: u8,
    pub rules: Vec<(u8, i16, Vec<Sym>)>,
    pub years: BTreeMap<usize, (u16, u16)>,
    pub names: BTreeMap<usize, (Name, usize)>,
}

impl Draft {
    pub fn new(start: u8) -> Draft {
        Draft { start, ..Draft::default() }
    }

    /// Adds a rule of length 0.
    pub fn rule(&mut self, left: u8, places: &[Sym]) {
        self.rules.push((left, 0, places.to_vec()));
    }

    /// The book, in the commands of documents 01 and 02.
    pub fn bytes(&self) -> Vec<u8> {
        let mut book = vec![0x10, self.start];
        for (number, (left, length, places)) in self.rules.iter().enumerate() {
            let years = self.years.get(&number);
            book.extend([if years.is_some() { 0x21 } else { 0x20 }, *left]);
            book.extend(length.to_le_bytes());
            if let Some((first, last)) = years {
                book.extend([first.to_le_bytes(), last.to_le_bytes()].concat());
            }
            for at in 0..=places.len() {
                if let Some((name, _)) = self.names.get(&number).filter(|(_, after)| *after == at) {
                    book.push(0x60);
                    book.extend(name);
                }
                match places.get(at) {
                    None => (),
                    Some(N(k)) => book.extend([0x30, *k]),
                    Some(T(t)) => book.extend([0x40, *t]),
                    Some(R(low, high)) => book.extend([0x41, *low, *high]),
                }
            }
        }
        book.push(0x50);
        book
    }

    /// Turns one terminal in three into a range: of its one byte, from A to B, or of all bytes.
    fn ranges(&mut self, rng: &mut Rng) {
        for place in self.rules.iter_mut().flat_map(|rule| &mut rule.2) {
            if let T(t) = *place {
                if rng.one_in(3) {
                    *place = rng.pick(&[R(t, t), R(A, B), R(0, 255)]);
                }
            }
        }
    }

    /// Each rule is copied once for every way to replace its ranges by one of their bytes. There are no ranges left.
    pub fn copied(&self) -> Draft {
        let mut copied = Draft::new(self.start);
        for (left, length, places) in &self.rules {
            let mut rows = vec![Vec::new()];
            for place in places {
                let symbols: Vec<Sym> = match *place {
                    R(low, high) => (low..=high).map(T).collect(),
                    place => vec![place],
                };
                let longer = |row: &Vec<Sym>| symbols.iter().map(|symbol| [&row[..], &[*symbol]].concat()).collect();
                rows = rows.iter().flat_map(|row| -> Vec<Vec<Sym>> { longer(row) }).collect();
            }
            copied.rules.extend(rows.into_iter().map(|row| (*left, *length, row)));
        }
        copied
    }

    /// A row of terminals that the nonterminal derives by random rules; None if it gets too long or too deep. In a range
    /// comes one of its ends, any byte of it, or the usual mark if that fits.
    fn sample(&self, rng: &mut Rng, k: u8, depth: usize, most: usize, usual: u8, row: &mut Vec<u8>) -> Option<()> {
        let own: Vec<_> = self.rules.iter().filter(|rule| rule.0 == k).collect();
        if own.is_empty() || depth == 0 {
            return None;
        }
        // Deep down, prefer rules with few nonterminals, so that the row ends.
        let mut rule = own[rng.below(own.len())];
        for _ in 0..(8 / depth.min(8)) {
            let other = own[rng.below(own.len())];
            let weight = |r: &(u8, i16, Vec<Sym>)| r.2.iter().filter(|p| matches!(p, N(_))).count();
            if weight(other) < weight(rule) {
                rule = other;
            }
        }
        for place in &rule.2 {
            match *place {
                T(t) => row.push(t),
                R(low, high) => {
                    let any = rng.within(low.into(), high.into()) as u8;
                    row.push(rng.pick(&[low, high, any, usual.clamp(low, high)]));
                }
                N(k) => self.sample(rng, k, depth - 1, most, usual, row)?,
            }
            if row.len() > most {
                return None;
            }
        }
        Some(())
    }
}

/// A random book with inputs to try it on, and years to read them in.
pub struct Book {
    pub style: &'static str,
    pub bytes: Vec<u8>,
    pub inputs: Vec<Vec<u8>>,
    pub years: Vec<u16>,
}

const A: u8 = b'A';
const B: u8 = b'B';

/// Random rules: this many, over kinds below `kinds`, with an empty rule once in `empty` and a unit rule once in
/// `unit`.
fn plain(rng: &mut Rng, draft: &mut Draft, kinds: usize, rules: usize, places: usize, empty: usize, unit: usize) {
    for _ in 0..rules {
        let left = rng.below(kinds) as u8;
        let count = match () {
            _ if rng.one_in(empty) => 0,
            _ if rng.one_in(unit) => 1,
            _ => rng.within(1, places),
        };
        let row: Vec<Sym> = (0..count)
            .map(|_| match rng.one_in(2) {
                true => T(rng.pick(&[A, A, B])),
                false => N(rng.below(kinds) as u8),
            })
            .collect();
        draft.rule(left, &row);
    }
}

/// Nonterminals in a ring over the same span, with a cheap way out at one of them and an expensive one (a chain, or a
/// bunch of empty nodes) at another. The least tree of a nonterminal then goes through one that may already be above
/// it.
fn forbidden_ancestor(rng: &mut Rng, draft: &mut Draft, base: u8) {
    let ring = rng.within(2, 4) as u8;
    let (chain, blank) = (base + 4, base + 9);
    for k in 0..ring {
        let next = N(base + (k + 1) % ring);
        match rng.below(4) {
            0 => draft.rule(base + k, &[next, N(blank)]),
            1 => draft.rule(base + k, &[N(blank), next]),
            _ => draft.rule(base + k, &[next]),
        }
    }
    let cheap = base + rng.below(ring as usize) as u8;
    let expensive = base + rng.below(ring as usize) as u8;
    let empty_way = rng.one_in(2);
    draft.rule(cheap, if empty_way { &[] } else { &[T(A)] });
    let length = rng.within(1, 4) as u8;
    draft.rule(expensive, &[N(chain)]);
    for step in 0..length {
        draft.rule(chain + step, &[N(chain + step + 1)]);
    }
    match rng.below(3) {
        0 => draft.rule(chain + length, &[T(A)]),
        1 => draft.rule(chain + length, &[T(A), N(base)]),
        _ => draft.rule(chain + length, &vec![N(blank); rng.within(2, 8)]),
    }
    draft.rule(blank, &[]);
    if rng.one_in(3) {
        draft.rule(blank, &[N(cheap)]);
    }
    if rng.one_in(3) {
        draft.rule(base, &[T(B), N(base)]);
    }
}

/// A bush of exactly `size` empty nodes (400 to 511) below one nonterminal, which is returned. It uses the kinds 24
/// to 29.
fn bush(draft: &mut Draft, size: usize) -> Sym {
    draft.rule(29, &[]); // 1 node
    draft.rule(28, &[N(29); 8]); // 9 nodes
    draft.rule(27, &[N(28); 8]); // 73 nodes
    let large = ((size - 2) / 73).min(6);
    let rest = size - 1 - 73 * large; // below one more kind: 1 + 9 x middle + small
    let mut places = vec![N(27); large];
    let (middle, small) = ((rest - 1) / 9, (rest - 1) % 9);
    assert!(middle <= 7 && large <= 7);
    let mut row = vec![N(28); middle];
    if small > 0 {
        draft.rule(25, &vec![N(29); small - 1]);
        row.push(N(25));
    }
    draft.rule(26, &row);
    places.push(N(26));
    draft.rule(24, &places);
    N(24)
}

/// A start over a core and a bush that leaves the core 1 to 30 of the 512 nodes.
fn beside_a_bush(rng: &mut Rng, draft: &mut Draft) {
    let left = rng.within(1, 30);
    draft.start = 23;
    let bush = bush(draft, 511 - left);
    let core = N(0);
    match rng.below(4) {
        0 => draft.rule(23, &[core, bush]),
        1 => draft.rule(23, &[bush, core]),
        2 => draft.rule(23, &[T(A), bush, core]),
        _ => draft.rule(23, &[bush, core, T(B)]),
    }
}

/// A small core whose derivations of one input have different numbers of nodes.
fn core(rng: &mut Rng, draft: &mut Draft) {
    match rng.below(4) {
        0 => forbidden_ancestor(rng, draft, 0),
        1 => {
            // a list whose items are one terminal below 0 to 3 unit steps
            draft.rule(0, &[N(1), N(0)]);
            draft.rule(0, &[N(1)]);
            for k in 1..=rng.within(2, 4) as u8 {
                draft.rule(k, &[T(A)]);
                draft.rule(k, &[N(k + 1)]);
                if rng.one_in(3) {
                    draft.rule(k, &[T(B)]);
                }
            }
        }
        2 => {
            // optional empty nodes around a terminal
            draft.rule(0, &[N(2), N(1), N(2)]);
            draft.rule(1, &[T(A), N(2), N(1)]);
            draft.rule(1, &[T(A)]);
            draft.rule(2, &[]);
            let wide = rng.within(1, 4);
            draft.rule(2, &vec![N(3); wide]);
            draft.rule(3, &[]);
        }
        _ => {
            let (kinds, rules) = (rng.within(2, 4), rng.within(3, 7));
            plain(rng, draft, kinds, rules, 3, 5, 3);
            draft.rule(0, &[T(A)]);
        }
    }
}

/// Blank options, as the books of service blocks with a bare plate have them: a row of options, each of which may be
/// empty in several ways, often around the next one. In half of the books a bush leaves them 1 to 8 of the 512 nodes.
fn blank_options(rng: &mut Rng, draft: &mut Draft) {
    let options = rng.within(2, 4);
    let row: Vec<Sym> = (0..rng.within(1, 5)).map(|_| N(rng.within(1, options) as u8)).collect();
    draft.rule(0, &row);
    for k in 1..=options {
        draft.rule(k as u8, if rng.one_in(8) { &[T(A)] } else { &[] });
        for _ in 0..rng.within(1, 2) {
            let (next, any) = (k % options + 1, rng.below(options + 1));
            let around: Vec<Sym> = (0..rng.below(3)).map(|_| N(rng.pick(&[next, next, any]) as u8)).collect();
            draft.rule(k as u8, &around);
        }
    }
    if rng.one_in(2) {
        let left = rng.within(1, 8);
        draft.start = 23;
        let bush = bush(draft, 511 - left);
        draft.rule(23, &rng.pick(&[[N(0), bush], [bush, N(0)]]));
    }
}

/// The rules of one style.
fn draft(rng: &mut Rng, style: usize) -> (&'static str, Draft) {
    let mut d = Draft::new(0);
    let name = match style {
        0 => {
            let (kinds, rules) = (rng.within(1, 4), rng.within(2, 9));
            plain(rng, &mut d, kinds, rules, 3, 8, 4);
            "plain"
        }
        1 => {
            let (kinds, rules) = (rng.within(2, 5), rng.within(4, 9));
            plain(rng, &mut d, kinds, rules, 3, 3, 3);
            let (left, k) = (rng.below(3) as u8, rng.below(3) as u8);
            d.rule(left, &[N(k), N(rng.below(3) as u8)]);
            d.rule(k, &[]);
            "nullable"
        }
        2 => {
            let ring = rng.within(1, 4) as u8;
            for k in 0..ring {
                d.rule(k, &[N((k + 1) % ring)]);
            }
            for _ in 0..rng.within(0, 5) {
                d.rule(rng.below(5) as u8, &[N(rng.below(5) as u8)]);
            }
            let (kinds, rules) = (5, rng.within(2, 6));
            plain(rng, &mut d, kinds, rules, 2, 9, 9);
            d.rule(rng.below(ring as usize) as u8, &[T(A)]);
            "unit cycles"
        }
        3 => {
            // left recursion, hidden by a nullable nonterminal or not
            d.rule(0, &[N(0), T(A)]);
            if rng.one_in(2) {
                d.rule(0, &[N(1), N(0), T(rng.pick(&[A, B]))]);
            }
            if rng.one_in(2) {
                d.rule(2, &[N(1), N(1), N(2)]);
                d.rule(0, &[N(2), T(A)]);
                d.rule(2, &[T(B)]);
            }
            d.rule(1, &[]);
            d.rule(1, &[rng.pick(&[T(B), T(A), N(3)])]);
            d.rule(0, &[rng.pick(&[T(A), T(B), N(1)])]);
            let rules = rng.within(0, 2);
            plain(rng, &mut d, 4, rules, 2, 5, 5);
            "left recursion"
        }
        4 => {
            let (kinds, rules) = (rng.within(1, 3), rng.within(3, 5));
            plain(rng, &mut d, kinds, rules, 2, 6, 5);
            for _ in 0..rng.within(1, 3) {
                let mut twin = d.rules[rng.below(d.rules.len())].clone();
                if rng.one_in(3) {
                    // a twin in all but one thing: its terminals are ranges of one byte
                    let one = |place: Sym| if let T(t) = place { R(t, t) } else { place };
                    twin.2.iter_mut().for_each(|place| *place = one(*place));
                }
                d.rules.push(twin);
            }
            d.rule(0, &[T(A)]);
            "twin rules"
        }
        5 => {
            let (kinds, rules) = (rng.within(4, 12), rng.within(2, 7));
            plain(rng, &mut d, kinds, rules, 3, 5, 4);
            d.start = rng.below(4) as u8;
            "kinds without rules"
        }
        6 => {
            d.rule(0, rng.pick(&[&[N(1)][..], &[N(1), T(A)], &[N(1), N(1)], &[N(2), N(1)]]));
            forbidden_ancestor(rng, &mut d, 1);
            "forbidden ancestor"
        }
        7 | 8 => {
            beside_a_bush(rng, &mut d);
            core(rng, &mut d);
            "beside a bush"
        }
        9 => {
            beside_a_bush(rng, &mut d);
            forbidden_ancestor(rng, &mut d, 0);
            "forbidden ancestor beside a bush"
        }
        10 => {
            // close to the limits of 128 rules and 8 places
            let rules = if rng.one_in(2) { rng.within(126, 131) } else { rng.within(2, 12) };
            let most = if rules > 100 { 1 } else { 9 };
            for _ in 0..rules {
                let row: Vec<Sym> = (0..rng.within(most / 2, most))
                    .map(|_| if rng.one_in(3) { N(rng.below(6) as u8) } else { T(rng.pick(&[A, B])) })
                    .collect();
                d.rule(rng.below(6) as u8, &row);
            }
            "near the limits"
        }
        11 => {
            // many kinds, many places: the charts are full, and the lists are too large
            let (kinds, rules) = (rng.within(8, 32), rng.within(20, 128));
            plain(rng, &mut d, kinds, rules, 8, 9, 5);
            "dense"
        }
        12 => {
            // a book of expressions, which reads long inputs
            d.rule(0, &[N(0), T(B), N(1)]);
            d.rule(0, &[N(1)]);
            d.rule(1, &[N(2), N(1)]);
            d.rule(1, &[T(A)]);
            d.rule(2, &[T(A)]);
            d.rule(2, &[]);
            "expressions"
        }
        _ => {
            blank_options(rng, &mut d);
            "blank options"
        }
    };
    (name, d)
}

/// Renumbers the kinds, changes the bytes of the marks and the order of the rules, and sets lengths: negative ones,
/// halves to round, and the extremes. Returns the bytes of A and B.
fn dress(rng: &mut Rng, draft: &mut Draft) -> [u8; 2] {
    let mut kinds: Vec<u8> = (0..32).collect();
    if rng.one_in(2) {
        for i in (1..32).rev() {
            kinds.swap(i, rng.below(i + 1));
        }
    }
    let marks = rng.pick(&[[A, B], [A, B], [0, 255], [0x30, 0x50], [31, 32]]);
    let mark = |t: u8| {
        if t == A {
            marks[0]
        } else if t == B {
            marks[1]
        } else {
            t
        }
    };
    draft.start = kinds[draft.start as usize];
    if rng.one_in(2) {
        for i in (1..draft.rules.len()).rev() {
            draft.rules.swap(i, rng.below(i + 1));
        }
    }
    for rule in &mut draft.rules {
        rule.0 = kinds[rule.0 as usize];
        rule.1 = match rng.below(6) {
            0 => rng.pick(&[i16::MIN, i16::MAX, -1, 1, 0, 256, -256]),
            1 => rng.draw() as i16,
            2 => rng.within(0, 200) as i16 - 100,
            _ => 5 * (rng.within(0, 40) as i16 - 20),
        };
        for place in &mut rule.2 {
            *place = match *place {
                N(k) => N(kinds[k as usize]),
                T(t) => T(mark(t)),
                R(low, high) => R(mark(low), mark(high)),
            };
        }
    }
    marks
}

/// Cuts, changes, inserts, exchanges or appends bytes.
pub fn damage(rng: &mut Rng, book: &mut Vec<u8>) {
    for _ in 0..rng.within(1, 2) {
        let byte = match rng.below(3) {
            0 => rng.pick(&[0x10, 0x20, 0x21, 0x30, 0x40, 0x41, 0x50, 0x60]),
            1 => rng.pick(&[0, 31, 32, 33, 255]),
            _ => rng.draw() as u8,
        };
        let at = rng.below(book.len() + 1);
        match rng.below(14) {
            0 => book.truncate(at),
            1 | 2 if at < book.len() => book[at] = byte,
            3 => book.insert(at, byte),
            4 if at < book.len() => drop(book.remove(at)),
            5 => drop(book.splice(at..at, range(rng))),
            6 => exchange(rng, book),
            7 => drop(book.splice(at..at, dated_rule(rng))),
            8 => exchange_years(rng, book),
            9..=11 => damage_names(rng, book),
            _ => book.push(byte),
        }
    }
}

/// Exchanges the two bytes after a byte 41: mostly the ends of a range.
fn exchange(rng: &mut Rng, book: &mut [u8]) {
    let ranges: Vec<usize> = (2..book.len()).filter(|at| book[at - 2] == 0x41).collect();
    if !ranges.is_empty() {
        let at = rng.pick(&ranges);
        book.swap(at - 1, at);
    }
}

/// A command 41; one in three has the low end above the high end.
fn range(rng: &mut Rng) -> [u8; 3] {
    let low = rng.pick(&[0, A, 255]);
    let high = rng.pick(&[low, low.wrapping_add(1), low.wrapping_sub(1)]);
    if rng.one_in(2) {
        [0x41, low, high]
    } else {
        [0x41, high, low]
    }
}

/// Random commands, mostly in turn.
pub fn soup(rng: &mut Rng) -> Vec<u8> {
    let mut book = if rng.one_in(6) { Vec::new() } else { vec![0x10, rng.below(33) as u8] };
    for _ in 0..rng.below(9) {
        match rng.below(22) {
            0 => book.push(rng.draw() as u8),
            1 => book.extend([0x10, 0]),
            2..=4 => book.extend([0x20, rng.below(33) as u8, 0, 0xFF]),
            5 | 6 => book.extend([0x30, rng.below(33) as u8]),
            7 | 8 => book.extend([0x40, A]),
            9 => book.push(0x50),
            10..=12 => book.extend(range(rng)),
            14 | 15 => book.extend(dated_rule(rng)),
            16..=19 => book.extend(name_command(rng)),
            13 => book.extend([&[0x20, 0, 1, 0][..], &[0x40, A].repeat(8)].concat()),
            20 => book.extend([&[0x20, 0, 1, 0][..], &[0x40, A].repeat(8), &range(rng)].concat()),
            _ => book.extend([0x20, 0, 1, 0, 0x40, A]),
        }
    }
    if !rng.one_in(3) {
        book.push(0x50);
    }
    book
}

/// A book of as many rules as there may be; three in four have one more, opened by 20 or by 21.
pub fn full_and_more(rng: &mut Rng) -> Vec<u8> {
    let mut book = [&[0x10, 0][..], &[0x20, 0, 1, 0].repeat(RULES)].concat();
    match rng.below(4) {
        0 => (),
        1 => book.extend([0x20, 0, 1, 0]),
        _ => book.extend(dated_rule(rng)),
    }
    book.push(0x50);
    book
}

/// Inputs for a draft whose marks are a and b, of 1 to 8 terminals, some of 9 to 64: derived, derived with one terminal
/// changed, or random. Changed ones are often right beside a and b, where a range may end. The last input is empty.
fn inputs(rng: &mut Rng, draft: &Draft, style: &str, [a, b]: [u8; 2]) -> Vec<Vec<u8>> {
    let mut all = Vec::new();
    for number in 0..5 {
        let long = number == 4 && rng.one_in(3);
        let most = if long { 64 } else { 8 };
        let mut row = Vec::new();
        for _ in 0..12 {
            let mut tried = Vec::new();
            let depth = rng.within(3, 12);
            if draft.sample(rng, draft.start, depth, most, a, &mut tried).is_some() && (row.len() < 9 || !long) {
                row = tried;
                if !row.is_empty() && (!long || row.len() > 8) {
                    break;
                }
            }
        }
        if row.is_empty() || rng.one_in(5) {
            let length = if long { rng.within(9, 64) } else { rng.within(1, 8) };
            row = (0..length).map(|_| rng.pick(&[a, a, a, b])).collect();
        } else if rng.one_in(5) {
            let at = rng.below(row.len());
            row[at] = rng.pick(&[a, b, a.wrapping_sub(1), b.wrapping_add(1), b'C']);
        }
        all.push(row);
    }
    if style == "expressions" {
        let length = if rng.one_in(3) { 64 } else { rng.within(9, 63) };
        all.push((0..length).map(|i| if i % 2 == 0 || i == 63 { a } else { b }).collect());
    }
    all.push(Vec::new());
    all
}

/// The book of a seed. One in fourteen has blank options, about one in seven is damaged, and some were never books.
pub fn book(seed: u64) -> Book {
    let rng = &mut Rng::new(seed);
    if seed % 28 == 5 {
        let inputs = vec![vec![A], vec![A, A], vec![]];
        return Book { style: "soup", bytes: soup(rng), inputs, years: ALL_YEARS.to_vec() };
    }
    let (mut style, mut rules) = draft(rng, if seed % 14 == 12 { 13 } else { seed as usize % 13 });
    rules.ranges(rng);
    let marks = dress(rng, &mut rules);
    let inputs = inputs(rng, &rules, style, marks);
    let years = date(&mut Rng::new(seed ^ 0x21), &mut rules);
    christen(&mut Rng::new(seed ^ 0x60), &mut rules);
    let mut bytes = rules.bytes();
    if rng.one_in(7) {
        damage(rng, &mut bytes);
        style = "damaged";
    }
    Book { style, bytes, inputs, years }
}

/// The rules of a seed with small ranges, and inputs. Half of the terminals are ranges of one to four bytes.
pub fn small_ranges(seed: u64) -> (Draft, Vec<Vec<u8>>) {
    let rng = &mut Rng::new(seed ^ 0x41);
    let (style, mut rules) = draft(rng, [0, 1, 2, 3, 4, 5, 6, 12][seed as usize % 8]);
    for place in rules.rules.iter_mut().flat_map(|rule| &mut rule.2) {
        if let T(t) = *place {
            if rng.one_in(2) {
                *place = rng.pick(&[R(t, t), R(A, B), R(A, A + 2), R(B, A + 3), R(A, A + 3)]);
            }
        }
    }
    let inputs = inputs(rng, &rules, style, [A, B]);
    (rules, inputs)
}

/// 0 -> 1 1, 1 -> six of 2, 2 -> A, 2 -> A: 12 marks have exactly 4,096 derivations. With 0 -> 3 3, 3 -> six marks,
/// they have one more.
pub fn boundary(more: bool) -> Book {
    let mut draft = Draft::new(0);
    draft.rule(0, &[N(1), N(1)]);
    draft.rule(1, &[N(2); 6]);
    draft.rule(2, &[T(A)]);
    draft.rule(2, &[T(A)]);
    if more {
        draft.rule(0, &[N(3), N(3)]);
        draft.rule(3, &[T(A); 6]);
    }
    Book { style: "boundary", bytes: draft.bytes(), inputs: vec![vec![A; 12]], years: ALL_YEARS.to_vec() }
}

/// A full book of a seed, with an input of 64 marks: 32 kinds, each with a rule, and 128 rules of 8 places, except
/// that some are empty or have one place. The styles differ in how many these are and in how rare marks are. In one
/// style most places hold one of four nullable kinds.
pub fn full_book(seed: u64) -> Book {
    let rng = &mut Rng::new(seed ^ 0xF011);
    let (rare, empty, single) = (rng.pick(&[2, 3, 5, 9]), rng.within(0, 6), rng.pick(&[8, 24, 40, 56]));
    let marks: &[u8] = rng.pick(&[&[A][..], &[A], &[A, B], &[A, A, A, B]]);
    let blank = seed % 3 == 0;
    let mut draft = Draft::new(0);
    for rule in 0..128 {
        let count = match rule {
            28..=31 if blank => 0,
            _ if rule % 32 < empty && rule < 64 => 0,
            _ if rule % 32 >= empty && rule % 32 < 8 + single / 3 => 1,
            _ => 8,
        };
        let row: Vec<Sym> = (0..count)
            .map(|_| match (rng.one_in(if count == 1 { 2 } else { rare }), rng.below(4)) {
                (true, _) => T(rng.pick(marks)),
                (false, 1..) if blank && count > 1 => N(28 + rng.below(4) as u8),
                (false, _) => N(rng.below(32) as u8),
            })
            .collect();
        draft.rule(if rule < 32 { rule as u8 } else { rng.below(32) as u8 }, &row);
    }
    draft.ranges(rng);
    for i in (1..128).rev() {
        draft.rules.swap(i, rng.below(i + 1));
    }
    let input = (0..64).map(|_| rng.pick(marks)).collect();
    Book { style: "full", bytes: draft.bytes(), inputs: vec![input], years: ALL_YEARS.to_vec() }
}
