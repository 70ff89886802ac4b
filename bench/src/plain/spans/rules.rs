//! The same fill, but at each cell only those rules are looked at that a set of rules names: first those of which a rest
//! can follow at the start after the byte or at an end of a span from here, then those whose flags depend on a kind that
//! was added since. The proved code does not do this yet.

use super::super::packed::{contains, Packed, Rule};
use super::super::{CHART, INPUT, PLACES, RULES};

const KINDS: usize = 32;

/// A set of rules.
type Rules = [u64; 2];

/// What is the same for every column: the set of the kinds that derive the empty span; for each rule the places from
/// which on it cuts that span; the rules with a terminal that can end a span; and for each kind the rules whose flags
/// at a span depend on whether the kind derives the span.
struct Empty {
    own: u32,
    last: [u32; RULES],
    ending: Rules,
    holders: [Rules; KINDS],
}

/// For a start i and a kind k, the ends b of k from i, i < b; `reach` is their union over k.
struct Ends {
    of: [[u64; KINDS]; INPUT],
    reach: [u64; INPUT],
}

/// For a rule and a place q, the starts from which the places q.. cut up to the column's end. For a start the rules
/// that have it at a place from 1 on, and `all` is their union over the starts of the column.
struct Starts {
    of: [[u64; PLACES]; RULES],
    live: [Rules; INPUT],
    all: Rules,
}

fn union(a: Rules, b: Rules) -> Rules {
    [a[0] | b[0], a[1] | b[1]]
}

/// The places q of a rule such that the places q.. cut the span. `whole` and `empty` are the sets of the span and of
/// the empty span at its start. `inner` has the places at which a cut begins whose first piece is inside the span.
fn rule_flags(rule: &Rule, at_end: bool, empty: u32, whole: u32, inner: u32, last: u32) -> u32 {
    let places = rule.places();
    let mut v = if at_end { 1 << places.len() } else { 0 };
    for (q, place) in places.iter().enumerate().rev() {
        let k = place.value as usize;
        let cuts = contains(inner, q)
            || place.is_nonterminal()
                && (contains(empty, k) && contains(v, q + 1) || contains(whole, k) && contains(last, q + 1));
        if cuts {
            v |= 1 << q;
        }
    }
    v
}

impl Empty {
    fn new(rules: &[Rule]) -> Empty {
        let mut e = Empty { own: 0, last: [0; RULES], ending: [0; 2], holders: [[0; 2]; KINDS] };
        loop {
            let before = e.own;
            for (rule, last) in rules.iter().zip(&mut e.last) {
                *last = rule_flags(rule, true, e.own, 0, 0, 0);
                if *last & 1 == 1 && rule.left < 32 {
                    e.own |= 1 << rule.left;
                }
            }
            if e.own == before {
                break;
            }
        }
        for (r, rule) in rules.iter().enumerate() {
            e.hold(r, rule);
        }
        e
    }

    /// Looks for the places of rule r after which everything can be empty.
    fn hold(&mut self, r: usize, rule: &Rule) {
        for (_, place) in rule.places().iter().enumerate().filter(|&(q, _)| contains(self.last[r], q + 1)) {
            if !place.is_nonterminal() {
                self.ending[r / 64] |= 1 << (r % 64);
            } else if place.value < 32 {
                self.holders[place.value as usize][r / 64] |= 1 << (r % 64);
            }
        }
    }
}

impl Ends {
    const NONE: Ends = Ends { of: [[0; KINDS]; INPUT], reach: [0; INPUT] };

    /// The word of the cell (i, b).
    fn put(&mut self, i: usize, b: usize, word: u32) {
        if word != 0 {
            self.reach[i] |= 1 << b;
        }
        let mut word = word;
        while word != 0 {
            self.of[i][word.trailing_zeros() as usize] |= 1 << b;
            word &= word - 1;
        }
    }

    /// The sets of the columns before n, from the chart as found.
    fn found(chart: &[u32], n: usize) -> Ends {
        let mut ends = Ends::NONE;
        for i in 0..n {
            for (b, &word) in chart[65 * i..65 * i + n].iter().enumerate().skip(i + 1) {
                ends.put(i, b, word);
            }
        }
        ends
    }
}

impl Starts {
    const NONE: Starts = Starts { of: [[0; PLACES]; RULES], live: [[0; 2]; INPUT], all: [0; 2] };

    /// Begins a column. What `live` has of a start is written before it is read.
    fn clear(&mut self, rules: usize) {
        self.of[..rules].fill([0; PLACES]);
        self.all = [0; 2];
    }

    /// The rules that have one of these starts at a place from 1 on, starts before `next` aside.
    fn near(&self, next: usize, reach: u64) -> Rules {
        let mut near = self.live[next];
        let mut reach = reach;
        while near != self.all && reach != 0 {
            near = union(near, self.live[reach.trailing_zeros() as usize]);
            reach &= reach - 1;
        }
        near
    }

    /// The flags of the rules in word h of a set, at the start i.
    fn put_word(&mut self, h: usize, word: u64, i: usize, flags: &[u32; RULES]) {
        let mut word = word;
        while word != 0 {
            let bit = word.trailing_zeros() as usize;
            let flags = flags[64 * h + bit];
            if flags > 1 {
                self.live[i][h] |= 1 << bit;
                for (q, set) in self.of[64 * h + bit].iter_mut().enumerate().skip(1) {
                    *set |= u64::from(flags >> q & 1) << i;
                }
            }
            word &= word - 1;
        }
    }
}

/// The places of a rule at which a cut of i..n begins whose first piece is inside the span. `rest` is the start after
/// a byte, as a set, which is empty if that start is the end.
fn inner(rule: &Rule, byte: u8, ends: &[u64; KINDS], starts: &[u64; PLACES], rest: u64, last: u32) -> u32 {
    let mut v = 0;
    for (q, place) in rule.places().iter().enumerate() {
        let after = starts.get(q + 1).copied().unwrap_or(0);
        let begins = if place.is_nonterminal() {
            place.value < 32 && ends[place.value as usize] & after != 0
        } else {
            place.fits(byte) && (after & rest != 0 || rest == 0 && contains(last, q + 1))
        };
        if begins {
            v |= 1 << q;
        }
    }
    v
}

/// What is known at one cell: of the rules that were looked at the flags, and of those with inner cuts where they
/// begin. What the words of other rules say is not asked.
struct Looked {
    inside: [u32; RULES],
    flags: [u32; RULES],
}

impl Looked {
    const NONE: Looked = Looked { inside: [0; RULES], flags: [0; RULES] };

    /// The rules with inner cuts, of those in word h of a set.
    fn begin(
        &mut self,
        (h, word): (usize, u64),
        rules: &[Rule],
        e: &Empty,
        at: Span,
        ends: &Ends,
        starts: &Starts,
    ) -> u64 {
        let rest = if at.i + 1 < at.n { 1 << (at.i + 1) } else { 0 };
        let (mut word, mut begun) = (word, 0);
        while word != 0 {
            let r = 64 * h + word.trailing_zeros() as usize;
            self.inside[r] = inner(&rules[r], at.byte, &ends.of[at.i], &starts.of[r], rest, e.last[r]);
            if self.inside[r] != 0 {
                begun |= word & word.wrapping_neg();
            }
            word &= word - 1;
        }
        begun
    }
}

/// The set of a cell as far as it is known, and the rules to look at in the next pass.
#[derive(Clone, Copy)]
struct Known {
    own: u32,
    later: Rules,
}

impl Known {
    /// Adds a kind. Then the rules whose flags depend on it are looked at again, except for those that this pass will
    /// look at in any case.
    fn add(&mut self, e: &Empty, left: usize, rest: Rules) {
        self.own |= 1 << left;
        for ((later, holders), rest) in self.later.iter_mut().zip(e.holders[left]).zip(rest) {
            *later |= holders & !rest;
        }
    }
}

impl Looked {
    /// Looks at the rules in word h of a set, after those in the words before. `begun` is word h of those with inner cuts.
    fn pass(
        &mut self,
        (h, begun): (usize, u64),
        todo: Rules,
        rules: &[Rule],
        e: &Empty,
        start: u32,
        known: Known,
    ) -> Known {
        let (mut known, mut rest) = (known, todo);
        rest[..h].fill(0);
        while rest[h] != 0 {
            let bit = rest[h].trailing_zeros() as usize;
            let r = 64 * h + bit;
            rest[h] &= rest[h] - 1;
            let inside = if begun >> bit & 1 == 1 { self.inside[r] } else { 0 };
            self.flags[r] = rule_flags(&rules[r], false, start, known.own, inside, e.last[r]);
            let left = rules[r].left as usize;
            if self.flags[r] & 1 == 1 && left < 32 && !contains(known.own, left) {
                known.add(e, left, rest);
            }
        }
        known
    }

    /// Looks at the rules with inner cuts, and then at those whose flags may have changed: the cell's set, and the rules
    /// that were looked at.
    fn close(&mut self, rules: &[Rule], e: &Empty, start: u32, begun: Rules) -> (u32, Rules) {
        let (mut own, mut looked, mut todo) = (0, [0; 2], begun);
        while todo != [0; 2] {
            looked = union(looked, todo);
            let known = self.pass((0, begun[0]), todo, rules, e, start, Known { own, later: [0; 2] });
            let known = self.pass((1, begun[1]), todo, rules, e, start, known);
            (own, todo) = (known.own, known.later);
        }
        (own, looked)
    }
}

/// The span i..n, its first byte, and the set of the empty span at i.
#[derive(Clone, Copy)]
struct Span {
    i: usize,
    n: usize,
    byte: u8,
    start: u32,
}

/// What is kept over the columns of a fill.
struct Words {
    ends: Ends,
    starts: Starts,
    looked: Looked,
}

impl Words {
    fn new(ends: Ends) -> Words {
        Words { ends, starts: Starts::NONE, looked: Looked::NONE }
    }

    /// Column n. `ends` has the ends of the columns before n; afterwards it also has those of n, if a column can follow.
    fn column(&mut self, rules: &[Rule], e: &Empty, w: &[u8], n: usize, chart: &mut [u32]) {
        let Words { ends, starts, looked } = self;
        starts.clear(rules.len());
        chart[65 * n + n] = e.own;
        for i in (0..n).rev() {
            let at = Span { i, n, byte: w[i], start: chart[65 * i + i] };
            let near = if i + 1 < n { starts.near(i + 1, ends.reach[i]) } else { e.ending };
            let low = looked.begin((0, near[0]), rules, e, at, ends, starts);
            let high = looked.begin((1, near[1]), rules, e, at, ends, starts);
            let (own, made) = looked.close(rules, e, at.start, [low, high]);
            starts.live[i] = [0; 2];
            starts.put_word(0, made[0], i, &looked.flags);
            starts.put_word(1, made[1], i, &looked.flags);
            starts.all = union(starts.all, starts.live[i]);
            chart[65 * i + n] = own;
            if n < INPUT {
                ends.put(i, n, own);
            }
        }
    }
}

/// Column n over the chart as found.
pub fn write_column(p: &Packed, w: &[u8], n: usize, chart: &mut [u32]) {
    let rules = p.used();
    Words::new(Ends::found(chart, n)).column(rules, &Empty::new(rules), w, n, chart);
}

pub fn fill(p: &Packed, w: &[u8], chart: &mut [u32]) {
    let rules = p.used();
    let e = Empty::new(rules);
    let mut words = Words::new(Ends::NONE);
    chart[..CHART].fill(0);
    for n in 0..=w.len() {
        words.column(rules, &e, w, n, chart);
    }
}
