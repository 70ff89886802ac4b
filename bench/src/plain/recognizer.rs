//! Opening, taking and filling. Column n is written for i from n down to 0, with suffix flags kept over the whole
//! column: bit q of flags[a][r] says that places q.. of rule r cut a..n. Each cell begins with the masks of the cuts
//! whose first piece is inside the span; then passes over the rules follow until one adds nothing. Loops go over the
//! rules up to the last one in use, which each column looks for, as the proved code does.

use super::packed::{contains, Packed, Rule};
use super::points::POINTS;
use super::{Grammar, Refusal, CHART, INPUT, RULES};

type Flags = [[u32; RULES]; INPUT + 1];

/// `cells` and `flags` are those of the ends and starts b between i and n.
fn inner_nonterminal(k: usize, r: usize, q: usize, cells: &[u32], flags: &[[u32; RULES]]) -> bool {
    cells.iter().zip(flags).any(|(&cell, row)| contains(cell, k) && contains(row[r], q))
}

fn inner_mask(
    rule: &Rule,
    r: usize,
    next: Option<u8>,
    cells: &[u32],
    flags: &[[u32; RULES]],
    after: &[u32; RULES],
) -> u32 {
    let mut mask = 0;
    for (q, place) in rule.places().iter().enumerate() {
        let found = if place.is_nonterminal() {
            inner_nonterminal(place.value as usize, r, q + 1, cells, flags)
        } else {
            next.is_some_and(|m| place.fits(m)) && contains(after[r], q + 1)
        };
        if found {
            mask |= 1 << q;
        }
    }
    mask
}

fn inner_masks(rules: &[Rule], w: &[u8], i: usize, n: usize, chart: &[u32], flags: &Flags) -> [u32; RULES] {
    let mut masks = [0; RULES];
    if i == n {
        return masks;
    }
    let cells = &chart[65 * i + i + 1..65 * i + n];
    let between = &flags[i + 1..n];
    let after = &flags[i + 1];
    for (r, (rule, mask)) in rules.iter().zip(&mut masks).enumerate() {
        *mask = inner_mask(rule, r, w.get(i).copied(), cells, between, after);
    }
    masks
}

fn rule_mask(rule: &Rule, whole: bool, empty: u32, own: u32, inner: u32, last: u32) -> u32 {
    let places = rule.places();
    let mut v = if whole { 1 << places.len() } else { 0 };
    for (q, place) in places.iter().enumerate().rev() {
        let k = place.value as usize;
        let cuts = contains(inner, q)
            || place.is_nonterminal()
                && (contains(empty, k) && contains(v, q + 1) || contains(own, k) && contains(last, q + 1));
        if cuts {
            v |= 1 << q;
        }
    }
    v
}

/// `start` is the cell (i, i) if i is before n.
fn pass(
    rules: &[Rule],
    start: Option<u32>,
    own: u32,
    masks: &[u32; RULES],
    last: &[u32; RULES],
    flags: &mut [u32; RULES],
) -> u32 {
    let mut own = own;
    for (((rule, flag), &mask), &last) in rules.iter().zip(flags).zip(masks).zip(last) {
        let m = rule_mask(rule, start.is_none(), start.unwrap_or(own), own, mask, last);
        *flag = m;
        if m & 1 == 1 && rule.left < 32 {
            own |= 1 << rule.left;
        }
    }
    own
}

fn closure(
    rules: &[Rule],
    start: Option<u32>,
    masks: &[u32; RULES],
    last: &[u32; RULES],
    flags: &mut [u32; RULES],
) -> u32 {
    let mut own = 0;
    loop {
        let next = pass(rules, start, own, masks, last, flags);
        if next == own {
            return own;
        }
        own = next;
    }
}

pub fn write_column(p: &Packed, w: &[u8], n: usize, chart: &mut [u32]) {
    let rules = p.used();
    let mut flags: Flags = [[0; RULES]; INPUT + 1];
    for i in (0..=n).rev() {
        let masks = inner_masks(rules, w, i, n, chart, &flags);
        let (before, from) = flags.split_at_mut(n);
        chart[65 * i + n] = if i < n {
            closure(rules, Some(chart[65 * i + i]), &masks, &from[0], &mut before[i])
        } else {
            closure(rules, None, &masks, &[0; RULES], &mut from[0])
        };
    }
}

fn open_chart(p: &Packed, chart: &mut [u32]) {
    chart[..CHART].fill(0);
    write_column(p, &[], 0, chart);
}

pub fn fill(p: &Packed, w: &[u8], chart: &mut [u32]) {
    open_chart(p, chart);
    for m in 1..=w.len() {
        write_column(p, &w[..m], m, chart);
    }
}

#[derive(Clone, Debug, PartialEq)]
pub struct Recognizer {
    pub bytes: [u8; INPUT],
    pub count: usize,
    pub year: u16,
    /// 0 if not set, else 1 plus the count at which it was set.
    pub points: [u8; POINTS],
}

impl Recognizer {
    /// Check 14.
    pub fn valid(&self) -> bool {
        self.count <= INPUT && self.points.iter().all(|&point| usize::from(point) <= self.count + 1)
    }

    /// Returns whether the input is complete. If refused, it leaves everything as it was.
    pub fn take(&mut self, g: &Grammar, byte: u8, chart: &mut [u32]) -> Result<bool, Refusal> {
        if !g.valid() {
            return Err(Refusal::InvalidGrammar);
        }
        if !self.valid() {
            return Err(Refusal::InvalidRecognizer);
        }
        if chart.len() < CHART {
            return Err(Refusal::ChartTooShort);
        }
        if self.count == INPUT {
            return Err(Refusal::RecognizerFull);
        }
        let p = Packed::new(g, self.year);
        self.bytes[self.count..].fill(0);
        self.bytes[self.count] = byte;
        self.count += 1;
        write_column(&p, &self.bytes[..self.count], self.count, chart);
        Ok(contains(chart[self.count], g.start as usize))
    }
}

pub fn open(g: &Grammar, year: u16, chart: &mut [u32]) -> Result<bool, Refusal> {
    if !g.valid() {
        return Err(Refusal::InvalidGrammar);
    }
    if chart.len() < CHART {
        return Err(Refusal::ChartTooShort);
    }
    let p = Packed::new(g, year);
    open_chart(&p, chart);
    Ok(contains(chart[0], g.start as usize))
}
