//! The first reading and the next. The tables decide every choice (rule, cover, a child's nodes), so nothing is tried
//! twice.

use super::checker::{filled, is_derivation, judge};
use super::packed::{contains, Packed};
use super::tables::{costs, fit_table, Full, Given, Rows, Tables, NONE, SIDE, TABLES};
use super::{Grammar, Refusal, PLACES};

pub const NODES: usize = 512;
pub const OUTPUT: usize = 2 * NODES;
/// The most readings that are counted.
pub const COUNTED: usize = 4096;

struct Enumerator<'a> {
    given: Given<'a>,
    tables: &'a Tables,
}

/// A node: its rule, its span, and its own kind with those of the nodes above it over the same span.
#[derive(Clone, Copy)]
struct Node {
    r: usize,
    i: usize,
    j: usize,
    above: u32,
}

/// The costs of the kinds over a node's span, and the suffixes of its rule.
struct Frame {
    full: Full,
    rows: Rows,
}

impl Node {
    /// Whether a child over a..c covers the node's whole span.
    fn whole(&self, a: usize, c: usize) -> bool {
        a == self.i && c == self.j
    }

    /// The kinds that may not occur over all of a..c below it.
    fn forbidden(&self, a: usize, c: usize) -> u32 {
        if self.whole(a, c) {
            self.above
        } else {
            0
        }
    }
}

impl Enumerator<'_> {
    #[inline(never)] // a stack frame has room for one
    fn frame(&self, node: Node, full: Full) -> Frame {
        let mut rows: Rows = [[NONE; SIDE]; PLACES + 1];
        for a in (node.i..=node.j).rev() {
            self.given.put_column(node.r, self.tables, &full, node.i, a, a + 1, node.j, &mut rows);
        }
        Frame { full, rows }
    }

    fn solved(&self, i: usize, j: usize, above: u32) -> Full {
        self.given.solve(self.tables, i, j, above)
    }

    /// The smallest rule of kind k from `from` on that costs at most `budget` over i..j.
    fn rule(
        &self,
        from: usize,
        k: usize,
        i: usize,
        j: usize,
        budget: u16,
        full: impl Fn() -> Full,
    ) -> Option<(usize, Full)> {
        let mut of = (from..self.given.rules.len()).filter(|&r| self.given.rules[r].left as usize == k).peekable();
        of.peek()?;
        let full = full();
        of.find(|&r| self.given.cost(r, self.tables, &full, i, j) <= budget).map(|r| (r, full))
    }

    /// The smallest end from `from` on of a child at place q that begins at a and is followed by the places after q.
    fn end(&self, node: Node, frame: &Frame, q: usize, a: usize, from: usize, budget: u16) -> Option<usize> {
        let k = self.given.rules[node.r].places()[q].value as usize;
        let costs = costs(self.tables, k, a);
        let cost = |c: usize| if node.whole(a, c) { frame.full[k] } else { costs[c] };
        (from..=node.j).find(|&c| cost(c) + frame.rows[q + 1][c] <= budget)
    }

    /// Writes the first tree of kind k over i..j of at most `budget` nodes to the front of `out`, without the kinds
    /// of `above` over all of i..j. There is one. Returns its number of nodes.
    #[inline(never)]
    fn first(&self, k: usize, i: usize, j: usize, above: u32, budget: u16, out: &mut [u16]) -> usize {
        let above = above | 1 << k;
        let (r, full) = self.rule(0, k, i, j, budget, || self.solved(i, j, above)).expect("a rule fits");
        self.first_of_rule(Node { r, i, j, above }, full, budget, out)
    }

    #[inline(never)]
    fn first_of_rule(&self, node: Node, full: Full, budget: u16, out: &mut [u16]) -> usize {
        (out[0], out[1]) = ((node.j - node.i) as u16, node.r as u16);
        1 + self.first_row(node, &self.frame(node, full), 0, node.i, budget - 1, &mut out[2..])
    }

    /// The same for the places q.. of a node from a on. There may be no such places.
    fn first_row(&self, node: Node, frame: &Frame, q: usize, a: usize, budget: u16, out: &mut [u16]) -> usize {
        let (mut left, mut nodes, mut a) = (budget, 0, a);
        for (q, place) in self.given.rules[node.r].places().iter().enumerate().skip(q) {
            if !place.is_nonterminal() {
                a += 1;
                continue;
            }
            let k = place.value as usize;
            let c = self.end(node, frame, q, a, a, left).expect("a cover fits");
            let used = self.first(k, a, c, node.forbidden(a, c), left - frame.rows[q + 1][c], &mut out[2 * nodes..]);
            (left, nodes, a) = (left - used as u16, nodes + used, c);
        }
        nodes
    }

    /// How many nodes the tree at the front of a row has: as long as a place is open, there is one more.
    fn nodes(&self, row: &[u16]) -> usize {
        let (mut open, mut nodes) = (1, 0);
        while open > 0 {
            open = open + self.given.nonterminals(row[2 * nodes + 1] as usize) - 1;
            nodes += 1;
        }
        nodes
    }

    /// Writes the next tree of kind k over i..j after the one at the front of `out`, as `first` does. If that one is
    /// the last, returns None and leaves the row as found.
    fn next(&self, k: usize, i: usize, j: usize, above: u32, budget: u16, out: &mut [u16]) -> Option<usize> {
        let above = above | 1 << k;
        let node = Node { r: out[1] as usize, i, j, above };
        let mut frame = None;
        if let Some(below) = self.next_row(node, &mut frame, 0, i, budget - 1, &mut out[2..]) {
            return Some(1 + below);
        }
        let full = || frame.as_ref().map_or_else(|| self.solved(i, j, above), |frame| frame.full);
        let (r, full) = self.rule(node.r + 1, k, i, j, budget, full)?;
        Some(self.first_of_rule(Node { r, ..node }, full, budget, out))
    }

    /// The same for the places q.. of a node from a on: the later places move, or the child at q does, or it covers
    /// more. The frame is made when it is first needed, and never for the last child.
    fn next_row(
        &self,
        node: Node,
        frame: &mut Option<Frame>,
        q: usize,
        a: usize,
        budget: u16,
        out: &mut [u16],
    ) -> Option<usize> {
        let place = self.given.rules[node.r].places().get(q)?;
        if !place.is_nonterminal() {
            return self.next_row(node, frame, q + 1, a + 1, budget, out);
        }
        let (k, c) = (place.value as usize, a + out[0] as usize);
        if self.given.rules[node.r].places()[q + 1..].iter().all(|place| !place.is_nonterminal()) {
            // nothing after it moves or has nodes: its cover stays, and all the nodes are its own
            return self.next(k, a, c, node.forbidden(a, c), budget, out);
        }
        let nodes = self.nodes(out);
        if let Some(later) = self.next_row(node, frame, q + 1, c, budget - nodes as u16, &mut out[2 * nodes..]) {
            return Some(nodes + later);
        }
        let frame = &*frame.get_or_insert_with(|| self.frame(node, self.solved(node.i, node.j, node.above)));
        let room = |c: usize| budget - frame.rows[q + 1][c];
        let moved = self.next(k, a, c, node.forbidden(a, c), room(c), out).map(|nodes| (c, nodes)).or_else(|| {
            let c = self.end(node, frame, q, a, c + 1, budget)?;
            Some((c, self.first(k, a, c, node.forbidden(a, c), room(c), out)))
        });
        let (c, nodes) = moved?;
        Some(nodes + self.first_row(node, frame, q + 1, c, budget - nodes as u16, &mut out[2 * nodes..]))
    }
}

/// What `with` returns for the tables of an input of 0 to 64 marks, whose chart is filled. None without a tree.
fn tabled<T>(
    p: &Packed,
    k: usize,
    w: &[u8],
    chart: &[u32],
    with: impl FnOnce(Enumerator<'_>) -> T,
) -> Result<Option<T>, Refusal> {
    if !contains(chart[w.len()], k) {
        return Ok(None);
    }
    let fit = fit_table(p, w);
    let given = Given { rules: p.used(), fit: &fit, chart };
    let mut tables = [NONE; TABLES];
    given.make(w.len(), &mut tables);
    if costs(&tables, k, 0)[w.len()] == NONE {
        return Err(Refusal::OnlyLargerTrees);
    }
    Ok(Some(with(Enumerator { given, tables: &tables })))
}

/// How many nodes the reading at the front of the output has.
pub fn first_filled(p: &Packed, k: usize, w: &[u8], chart: &[u32], out: &mut [u16]) -> Result<Option<usize>, Refusal> {
    tabled(p, k, w, chart, |enumerator| enumerator.first(k, 0, w.len(), 0, NODES as u16, out))
}

/// The same for the reading after the offered one. The output is written only if there is one.
pub fn next_filled(
    p: &Packed,
    k: usize,
    w: &[u8],
    offered: &[u16],
    chart: &[u32],
    out: &mut [u16],
) -> Result<Option<usize>, Refusal> {
    if !is_derivation(p, k, w, offered) {
        return Err(Refusal::NotADerivation);
    }
    let mut row = [0; OUTPUT];
    row[..offered.len()].copy_from_slice(offered);
    let next = tabled(p, k, w, chart, |enumerator| enumerator.next(k, 0, w.len(), 0, NODES as u16, &mut row))?;
    Ok(next.flatten().inspect(|nodes| out[..2 * nodes].copy_from_slice(&row[..2 * nodes])))
}

/// How many readings there are; None if more than 4,096.
pub fn count_filled(p: &Packed, k: usize, w: &[u8], chart: &[u32]) -> Result<Option<usize>, Refusal> {
    let count = tabled(p, k, w, chart, |enumerator| {
        let mut row = [0; OUTPUT];
        enumerator.first(k, 0, w.len(), 0, NODES as u16, &mut row);
        (1..=COUNTED).find(|_| enumerator.next(k, 0, w.len(), 0, NODES as u16, &mut row).is_none())
    })?;
    Ok(count.unwrap_or(Some(0)))
}

/// Passes the readings to `with`, each with its place from 1, at most 4,096 of them, as long as `with` returns true.
/// Returns how many there are; None for more.
pub fn list_filled(
    p: &Packed,
    k: usize,
    w: &[u8],
    chart: &[u32],
    mut with: impl FnMut(usize, &[u16]) -> bool,
) -> Result<Option<usize>, Refusal> {
    let count = tabled(p, k, w, chart, |enumerator| {
        let mut row = [0; OUTPUT];
        let mut nodes = Some(enumerator.first(k, 0, w.len(), 0, NODES as u16, &mut row));
        (1..=COUNTED).find(|&place| {
            if !nodes.is_some_and(|nodes| with(place, &row[..2 * nodes])) {
                return true;
            }
            nodes = enumerator.next(k, 0, w.len(), 0, NODES as u16, &mut row);
            nodes.is_none()
        })
    })?;
    Ok(count.unwrap_or(Some(0)))
}

pub fn first(
    g: &Grammar,
    input: &[u8],
    year: u16,
    chart: &mut [u32],
    out: &mut [u16],
) -> Result<Option<usize>, Refusal> {
    judge(g, input, chart)?;
    if out.len() < OUTPUT {
        return Err(Refusal::OutputTooShort);
    }
    let p = filled(g, input, year, chart);
    first_filled(&p, g.start as usize, input, chart, out)
}

pub fn next(
    g: &Grammar,
    input: &[u8],
    year: u16,
    offered: &[u16],
    chart: &mut [u32],
    out: &mut [u16],
) -> Result<Option<usize>, Refusal> {
    judge(g, input, chart)?;
    if out.len() < OUTPUT {
        return Err(Refusal::OutputTooShort);
    }
    let p = filled(g, input, year, chart);
    next_filled(&p, g.start as usize, input, offered, chart, out)
}

pub fn count(g: &Grammar, input: &[u8], year: u16, chart: &mut [u32]) -> Result<Option<usize>, Refusal> {
    judge(g, input, chart)?;
    let p = filled(g, input, year, chart);
    count_filled(&p, g.start as usize, input, chart)
}
