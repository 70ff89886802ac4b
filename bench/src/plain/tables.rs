//! The tables of the enumerator: least numbers of nodes, at most 513, which means none. They are made once for each
//! call, from the packed grammar, the fit table and the chart filled for the same input.

mod before;
#[cfg(test)]
mod tests;

use super::packed::{contains, Packed, Place, Rule};
use super::{CHART, INPUT, PLACES, RULES};

/// One more than the nodes of any reading.
pub const NONE: u16 = 513;
const KINDS: usize = 32;
pub const SIDE: usize = INPUT + 1;

/// Bit q of entry [i][r]: place q of rule r is a terminal that fits position i.
pub type Fit = [[u8; RULES]; INPUT];

pub fn fit_table(p: &Packed, w: &[u8]) -> Fit {
    let mut fit = [[0; RULES]; INPUT];
    for (&mark, entries) in w.iter().zip(&mut fit) {
        for (rule, entry) in p.used().iter().zip(entries) {
            for (q, place) in rule.places().iter().enumerate() {
                *entry |= u8::from(place.fits(mark)) << q;
            }
        }
    }
    fit
}

/// One array, on the stack. First the least nodes of each kind over each span; the last index is the end. Then for
/// each rule and place the cost of a node without its child there, when all its other children are empty. Then for
/// each non-empty span and each rule the cost of a node without a child over the whole span.
pub type Tables = [u16; TABLES];
pub const TABLES: usize = BARES + INPUT / 2 * SIDE * RULES;
const ALONES: usize = KINDS * CHART;
const BARES: usize = ALONES + RULES * PLACES;

/// One number for each kind, over one span.
pub type Full = [u16; KINDS];
/// The suffixes of one rule up to one end: [q][a] for the places q.. from a on.
pub type Rows = [[u16; SIDE]; PLACES + 1];

/// The costs of kind k from a on, one for each end.
pub fn costs(t: &Tables, k: usize, a: usize) -> &[u16] {
    &t[CHART * k + SIDE * a..][..SIDE]
}

fn alone(t: &Tables, r: usize) -> &[u16] {
    &t[ALONES + PLACES * r..][..PLACES]
}

/// Where the cost of rule r without a child over the whole of i..j is stored: two starts share a row.
fn bare(r: usize, i: usize, j: usize) -> usize {
    let span = if i < INPUT / 2 { SIDE * i + (j - i - 1) } else { SIDE * (INPUT - 1 - i) + j };
    BARES + RULES * span + r
}

/// What the costs are computed from.
#[derive(Clone, Copy)]
pub struct Given<'a> {
    pub rules: &'a [Rule],
    pub fit: &'a Fit,
    pub chart: &'a [u32],
}

impl Given<'_> {
    fn cell(&self, i: usize, j: usize) -> u32 {
        self.chart[SIDE * i + j]
    }

    /// How many places of rule r hold a nonterminal.
    pub fn nonterminals(&self, r: usize) -> usize {
        self.rules[r].places().iter().filter(|place| place.is_nonterminal()).count()
    }

    /// Writes the suffixes of rule r from a to j; those from later starts are already there. A child over the whole
    /// of i..j costs `full`, any other what the least table says. The ends after a and before `from` are skipped:
    /// they cost NONE, or what comes after them does.
    #[allow(clippy::too_many_arguments)]
    pub fn put_column(
        &self,
        r: usize,
        t: &Tables,
        full: &Full,
        i: usize,
        a: usize,
        from: usize,
        j: usize,
        rows: &mut Rows,
    ) {
        let places = self.rules[r].places();
        rows[places.len()][a] = if a == j { 0 } else { NONE };
        for (q, place) in places.iter().enumerate().rev() {
            let rests = &rows[q + 1];
            rows[q][a] = if place.is_nonterminal() {
                let k = place.value as usize;
                let costs = costs(t, k, a);
                let last = if a == i { full[k] } else { costs[j] };
                let none = if a < j { costs[a] + rests[a] } else { NONE };
                let from = from.min(j);
                let inner = costs[from..j].iter().zip(&rests[from..j]).map(|(x, y)| x + y).min();
                inner.unwrap_or(NONE).min(none).min(last + rests[j]).min(NONE)
            } else if a < j && self.fit[a][r] >> q & 1 == 1 {
                rests[a + 1]
            } else {
                NONE
            };
        }
    }

    /// The cost of a node of rule r over i..j.
    pub fn cost(&self, r: usize, t: &Tables, full: &Full, i: usize, j: usize) -> u16 {
        let places = self.rules[r].places();
        if i == j {
            return (total(places, full) + 1).min(NONE);
        }
        let (bare, alone) = (t[bare(r, i, j)], alone(t, r));
        if alone.iter().all(|&others| others == NONE) {
            return bare;
        }
        let through = places.iter().zip(alone).filter(|(place, _)| place.is_nonterminal());
        through.map(|(place, others)| others + full[place.value as usize]).fold(bare, u16::min)
    }

    /// The least nodes of each kind over i..j if the kinds of `mask` may not occur over all of it: passes over the
    /// rules until one lowers nothing.
    pub fn solve(&self, t: &Tables, i: usize, j: usize, mask: u32) -> Full {
        let mut full = [NONE; KINDS];
        let kinds = self.cell(i, j) & !mask;
        let mut changed = kinds != 0;
        while changed {
            changed = false;
            for (r, rule) in self.rules.iter().enumerate() {
                let k = rule.left as usize;
                if contains(kinds, k) {
                    let cost = self.cost(r, t, &full, i, j);
                    if cost < full[k] {
                        full[k] = cost;
                        changed = true;
                    }
                }
            }
        }
        full
    }

    /// Makes the tables of an input of n marks, which are all NONE before: for each end, the starts from the last to
    /// the first. The live starts of a rule are those from which the places after its first have a cost. A rule is
    /// skipped if no piece ends at one of them; the sums of the others begin at the first end that is set and live.
    pub fn make(&self, n: usize, t: &mut Tables) {
        let mut rows: [Rows; RULES] = [[[NONE; SIDE]; PLACES + 1]; RULES];
        let rows = &mut rows[..self.rules.len()];
        let kinds: Vec<u32> = self.rules.iter().map(kinds_below).collect();
        let reach = self.reach(n);
        for j in 0..=n {
            let mut live = [0u64; RULES];
            self.put_empty(j, t, rows);
            for i in (0..j).rev() {
                for ((r, rows), live) in rows.iter_mut().enumerate().zip(&mut live) {
                    if i + 1 < j && *live >> (i + 1) & 1 == 0 && *live & reach[i] == 0 {
                        let count = self.rules[r].places().len();
                        rows[..=count].iter_mut().for_each(|row| row[i] = NONE);
                    } else {
                        *live |= self.put_start(r, t, &[NONE; KINDS], *live & reach[i], i, j, rows);
                    }
                    t[bare(r, i, j)] = (rows[0][i] + 1).min(NONE);
                }
                let full = self.solve(t, i, j, 0);
                put_least(t, &full, i, j);
                for ((r, rows), live) in rows.iter_mut().enumerate().zip(&mut live) {
                    if kinds[r] & self.cell(i, j) != 0 {
                        *live |= self.put_start(r, t, &full, *live & reach[i], i, j, rows);
                    }
                }
            }
        }
    }

    /// The column of start i, and the set of i if it is a live start; `ends` has the live ends from i on.
    #[allow(clippy::too_many_arguments)]
    fn put_start(&self, r: usize, t: &Tables, full: &Full, ends: u64, i: usize, j: usize, rows: &mut Rows) -> u64 {
        let first = ends.trailing_zeros() as usize;
        let from = if i < first { first } else { i + 1 };
        self.put_column(r, t, full, i, i, from, j, rows);
        let count = self.rules[r].places().len();
        u64::from(rows[1..].iter().take(count).any(|row| row[i] < NONE)) << i
    }

    /// For each start, the ends before n of cells that are not empty.
    fn reach(&self, n: usize) -> [u64; INPUT] {
        let ends = |i: usize| (i + 1..n).filter(|&c| self.cell(i, c) != 0).fold(0, |set, c| set | 1 << c);
        std::array::from_fn(ends)
    }

    /// The empty span at j, and the columns of start j.
    fn put_empty(&self, j: usize, t: &mut Tables, rows: &mut [Rows]) {
        let empty = self.solve(t, j, j, 0);
        put_least(t, &empty, j, j);
        if j == 0 {
            self.put_alone(t, &empty);
        }
        for (r, rows) in rows.iter_mut().enumerate() {
            self.put_column(r, t, &empty, j, j, j + 1, j, rows);
        }
    }

    fn put_alone(&self, t: &mut Tables, empty: &Full) {
        for (rule, row) in self.rules.iter().zip(t[ALONES..].chunks_exact_mut(PLACES)) {
            let sum = total(rule.places(), empty);
            for (place, others) in rule.places().iter().zip(row) {
                if place.is_nonterminal() {
                    *others = (sum - single(place, empty) + 1).min(NONE);
                }
            }
        }
    }
}

fn put_least(t: &mut Tables, full: &Full, i: usize, j: usize) {
    for (k, &nodes) in full.iter().enumerate() {
        t[CHART * k + SIDE * i + j] = nodes;
    }
}

fn kinds_below(rule: &Rule) -> u32 {
    rule.places().iter().filter(|place| place.is_nonterminal()).fold(0, |set, place| set | 1 << place.value)
}

/// The cost of places that are all empty.
fn total(places: &[Place], full: &Full) -> u16 {
    places.iter().map(|place| single(place, full)).sum()
}

fn single(place: &Place, full: &Full) -> u16 {
    if place.is_nonterminal() {
        full[place.value as usize]
    } else {
        NONE
    }
}
