//! Opening, taking and filling with spans as bits (docs/FILL.md). For a start and a kind, `ends` has the set of the
//! ends found so far. For a rule and a place q, `starts` has the set of the starts from which the places q.. cut up
//! to the column's end. A piece inside the span followed by the rest from its end is then one AND.

use super::packed::{contains, Packed, Rule};
use super::{CHART, INPUT, PLACES, RULES};

pub mod rules;

const KINDS: usize = 32;

/// What is the same for every column: the set of the kinds that derive the empty span; for each rule the places from
/// which on it cuts that span; and the kinds whose place is the last that need not be empty.
struct Empty {
    own: u32,
    last: [u32; RULES],
    kinds: [u32; RULES],
}

/// For a start i and a kind k, the ends b of k from i, i < b; `reach` is their union over k.
struct Ends {
    of: [[u64; KINDS]; INPUT],
    reach: [u64; INPUT],
}

/// For a rule and a place q, the starts from which the places q.. cut up to the column's end; `live` is their union
/// over q from 1 on.
struct Starts {
    of: [[u64; PLACES]; RULES],
    live: [u64; RULES],
}

/// The places q of a rule such that the places q.. cut the span. `whole` and `empty` are the sets of the span and of
/// the empty span at its start. `inner` has the places at which a cut begins whose first piece is inside the span.
fn rule_flags(rule: &Rule, at_end: bool, empty: u32, whole: u32, inner: u32, last: u32) -> u32 {
    let places = rule.places();
    let mut v = if at_end { 1 << places.len() } else { 0 };
    for (q, place) in places.iter().enumerate().rev() {
        let k = place.value as usize;
        let cuts = contains(inner, q)
            || place.is_nonterminal()
                && (contains(empty, k) && contains(v, q + 1) || contains(whole, k) && contains(last, q + 1));
        if cuts {
            v |= 1 << q;
        }
    }
    v
}

fn added(rule: &Rule, flags: u32, own: u32) -> u32 {
    if flags & 1 == 1 && rule.left < 32 {
        own | 1 << rule.left
    } else {
        own
    }
}

/// The kinds on which the rule's flags at a non-empty span depend: those in places after which everything can be
/// empty.
fn kinds_of(rule: &Rule, last: u32) -> u32 {
    let after = |q: usize| contains(last, q + 1);
    let kinds = rule.places().iter().enumerate().filter(|&(q, place)| place.is_nonterminal() && after(q));
    kinds.filter(|(_, place)| place.value < 32).fold(0, |set, (_, place)| set | 1 << place.value)
}

fn empty_span(rules: &[Rule]) -> Empty {
    let mut e = Empty { own: 0, last: [0; RULES], kinds: [0; RULES] };
    loop {
        let before = e.own;
        for (rule, last) in rules.iter().zip(&mut e.last) {
            *last = rule_flags(rule, true, e.own, 0, 0, 0);
            e.own = added(rule, *last, e.own);
        }
        if e.own == before {
            break;
        }
    }
    for ((rule, &last), kinds) in rules.iter().zip(&e.last).zip(&mut e.kinds) {
        *kinds = kinds_of(rule, last);
    }
    e
}

impl Ends {
    const NONE: Ends = Ends { of: [[0; KINDS]; INPUT], reach: [0; INPUT] };

    /// The word of the cell (i, b).
    fn put(&mut self, i: usize, b: usize, word: u32) {
        if word != 0 {
            self.reach[i] |= 1 << b;
        }
        let mut word = word;
        while word != 0 {
            self.of[i][word.trailing_zeros() as usize] |= 1 << b;
            word &= word - 1;
        }
    }

    /// The sets of the columns before n, from the chart as found.
    fn found(chart: &[u32], n: usize) -> Ends {
        let mut ends = Ends::NONE;
        for i in 0..n {
            for (b, &word) in chart[65 * i..65 * i + n].iter().enumerate().skip(i + 1) {
                ends.put(i, b, word);
            }
        }
        ends
    }
}

impl Starts {
    const NONE: Starts = Starts { of: [[0; PLACES]; RULES], live: [0; RULES] };

    /// The flags of rule r at the start i.
    fn put(&mut self, r: usize, i: usize, flags: u32) {
        if flags >> 1 != 0 {
            self.live[r] |= 1 << i;
            for (q, set) in self.of[r].iter_mut().enumerate().skip(1) {
                *set |= u64::from(flags >> q & 1) << i;
            }
        }
    }
}

/// The places of a rule at which a cut of i..n begins whose first piece is inside the span. `rest` is the start after
/// a byte, as a set, which is empty if that start is the end.
fn inner(rule: &Rule, byte: u8, ends: &[u64; KINDS], starts: &[u64; PLACES], rest: u64, last: u32) -> u32 {
    let mut v = 0;
    for (q, place) in rule.places().iter().enumerate() {
        let after = starts.get(q + 1).copied().unwrap_or(0);
        let begins = if place.is_nonterminal() {
            place.value < 32 && ends[place.value as usize] & after != 0
        } else {
            place.fits(byte) && (after & rest != 0 || rest == 0 && contains(last, q + 1))
        };
        if begins {
            v |= 1 << q;
        }
    }
    v
}

/// What is known about each rule at one start: where inner cuts begin, the flags, and the members of the cell's set
/// on which the flags depend, as they were when the flags were made.
struct Looked {
    inside: [u32; RULES],
    flags: [u32; RULES],
    made: [u32; RULES],
}

impl Looked {
    const NONE: Looked = Looked { inside: [0; RULES], flags: [0; RULES], made: [0; RULES] };

    /// Looks at rule r, at a cell of which `own` is known.
    fn look(&mut self, r: usize, rule: &Rule, e: &Empty, start: u32, own: u32) -> u32 {
        self.made[r] = own & e.kinds[r];
        self.flags[r] = rule_flags(rule, false, start, own, self.inside[r], e.last[r]);
        added(rule, self.flags[r], own)
    }

    /// The first look at the rules, at the cell (i, n). Rules that can have no flag are skipped.
    fn first(&mut self, rules: &[Rule], e: &Empty, byte: u8, at: Span, ends: &Ends, starts: &Starts) -> u32 {
        let rest = if at.i + 1 < at.n { 1 << (at.i + 1) } else { 0 };
        let near = ends.reach[at.i] | rest;
        let mut own = 0;
        for (r, rule) in rules.iter().enumerate() {
            let can = rest == 0 || near & starts.live[r] != 0;
            self.inside[r] = if can { inner(rule, byte, &ends.of[at.i], &starts.of[r], rest, e.last[r]) } else { 0 };
            (self.made[r], self.flags[r]) = (0, 0);
            if self.inside[r] != 0 || own & e.kinds[r] != 0 {
                own = self.look(r, rule, e, at.start, own);
            }
        }
        own
    }

    /// Looks again at the rules whose flags may have changed.
    fn again(&mut self, rules: &[Rule], e: &Empty, start: u32, own: u32) -> u32 {
        let mut own = own;
        for (r, rule) in rules.iter().enumerate() {
            if own & e.kinds[r] != self.made[r] {
                own = self.look(r, rule, e, start, own);
            }
        }
        own
    }
}

/// The span i..n, and the set of the empty span at i.
#[derive(Clone, Copy)]
struct Span {
    i: usize,
    n: usize,
    start: u32,
}

/// Column n. `ends` has the ends of the columns before n; afterwards it also has those of n, if a column can follow.
fn column(rules: &[Rule], e: &Empty, w: &[u8], n: usize, ends: &mut Ends, chart: &mut [u32]) {
    let (mut starts, mut looked) = (Starts::NONE, Looked::NONE);
    chart[65 * n + n] = e.own;
    for i in (0..n).rev() {
        let at = Span { i, n, start: chart[65 * i + i] };
        let mut own = looked.first(rules, e, w[i], at, ends, &starts);
        loop {
            let next = looked.again(rules, e, at.start, own);
            if next == own {
                break;
            }
            own = next;
        }
        for (r, &flags) in looked.flags[..rules.len()].iter().enumerate() {
            starts.put(r, i, flags);
        }
        chart[65 * i + n] = own;
        if n < INPUT {
            ends.put(i, n, own);
        }
    }
}

/// Column n over the chart as found.
pub fn write_column(p: &Packed, w: &[u8], n: usize, chart: &mut [u32]) {
    let rules = p.used();
    column(rules, &empty_span(rules), w, n, &mut Ends::found(chart, n), chart);
}

pub fn fill(p: &Packed, w: &[u8], chart: &mut [u32]) {
    let rules = p.used();
    let e = empty_span(rules);
    let mut ends = Ends::NONE;
    chart[..CHART].fill(0);
    for n in 0..=w.len() {
        column(rules, &e, w, n, &mut ends, chart);
    }
}

#[cfg(test)]
mod tests;
