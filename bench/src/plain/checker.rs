//! Checking an offered row, its length, and the same build. A node is read as its row of places, and a row as its
//! nodes.

use super::packed::{contains, Packed};
use super::spans::fill;
use super::{Grammar, Refusal, CHART, INPUT};

/// What stays the same during one check.
struct Walk<'a> {
    p: &'a Packed,
    w: &'a [u8],
    e: &'a [u16],
}

impl Walk<'_> {
    /// The node after a node of kind k over from..to at node `at`. `above` holds the kinds of the ancestors over
    /// `cover` bytes.
    fn node(&self, cover: usize, above: u32, k: usize, at: usize, from: usize, to: usize) -> Option<usize> {
        let c = to - from;
        let offered = self.e.get(2 * at..2 * at + 2)?;
        let r = offered[1] as usize;
        if k > 31 || offered[0] as usize != c {
            return None;
        }
        let rule = self.p.rules.get(r)?;
        if rule.left as usize != k {
            return None;
        }
        let above = if c == cover { above } else { 0 };
        if contains(above, k) {
            return None;
        }
        self.row(c, above | 1 << k, r, 0, at + 1, from, to)
    }

    /// The node after a row for the places q.. of rule r over from..to.
    #[allow(clippy::too_many_arguments)]
    fn row(&self, cover: usize, above: u32, r: usize, q: usize, at: usize, from: usize, to: usize) -> Option<usize> {
        let Some(place) = self.p.rules[r].places().get(q) else {
            return (from == to).then_some(at);
        };
        if place.is_nonterminal() {
            let c = *self.e.get(2 * at)? as usize;
            if c > to - from {
                return None;
            }
            let next = self.node(cover, above, place.value as usize, at, from, from + c)?;
            self.row(cover, above, r, q + 1, next, from + c, to)
        } else if from < to && place.fits(self.w[from]) {
            self.row(cover, above, r, q + 1, at, from + 1, to)
        } else {
            None
        }
    }
}

pub fn is_derivation(p: &Packed, start: usize, w: &[u8], e: &[u16]) -> bool {
    if e.len() > 1024 || e.len() % 2 == 1 {
        return false;
    }
    Walk { p, w, e }.node(w.len(), 0, start, 0, 0, w.len()) == Some(e.len() / 2)
}

/// Checks 8 to 10.
pub fn judge(g: &Grammar, input: &[u8], chart: &[u32]) -> Result<(), Refusal> {
    if !g.valid() {
        return Err(Refusal::InvalidGrammar);
    }
    if input.len() > INPUT {
        return Err(Refusal::InputLength);
    }
    if chart.len() < CHART {
        return Err(Refusal::ChartTooShort);
    }
    Ok(())
}

pub fn filled(g: &Grammar, input: &[u8], year: u16, chart: &mut [u32]) -> Packed {
    let p = Packed::new(g, year);
    fill(&p, input, chart);
    p
}

pub fn check(g: &Grammar, input: &[u8], year: u16, offered: &[u16], chart: &mut [u32]) -> Result<bool, Refusal> {
    judge(g, input, chart)?;
    let p = filled(g, input, year, chart);
    Ok(is_derivation(&p, g.start as usize, input, offered))
}

/// The nearest tenth to n hundredths; where two are equally near, the even one.
fn nearest(n: u32) -> u32 {
    let (q, last) = (n / 10, n % 10);
    if last < 5 {
        q
    } else if last > 5 {
        q + 1
    } else if q % 2 == 0 {
        q
    } else {
        q + 1
    }
}

/// In tenths; halves go to the even tenth.
pub fn rounded(sum: i32) -> i32 {
    let tenths = nearest(sum.unsigned_abs()) as i32;
    if sum < 0 {
        -tenths
    } else {
        tenths
    }
}

pub fn length(g: &Grammar, input: &[u8], year: u16, offered: &[u16], chart: &mut [u32]) -> Result<i32, Refusal> {
    judge(g, input, chart)?;
    let p = filled(g, input, year, chart);
    if !is_derivation(&p, g.start as usize, input, offered) {
        return Err(Refusal::NotADerivation);
    }
    let sum = offered.chunks_exact(2).map(|node| g.rules[node[1] as usize].length as i32).sum();
    Ok(rounded(sum))
}

/// The rules of the nodes that cover something, in preorder.
fn rules_used(e: &[u16]) -> impl Iterator<Item = u16> + '_ {
    e.chunks_exact(2).filter(|node| node[0] > 0).map(|node| node[1])
}

pub fn same_build(
    g: &Grammar,
    input: &[u8],
    year: u16,
    a: &[u16],
    b: &[u16],
    chart: &mut [u32],
) -> Result<bool, Refusal> {
    judge(g, input, chart)?;
    let p = filled(g, input, year, chart);
    let start = g.start as usize;
    if !is_derivation(&p, start, input, a) || !is_derivation(&p, start, input, b) {
        return Err(Refusal::NotADerivation);
    }
    Ok(rules_used(a).eq(rules_used(b)))
}
