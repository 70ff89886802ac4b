//! The tables made without skipping any rule or any end: the benchmark and a test compare with them.

use super::{bare, kinds_below, put_least, Given, Rows, Tables, KINDS, NONE, PLACES, RULES, SIDE};

impl Given<'_> {
    /// Makes the same tables as `make`, but tries every rule from every start up to every end.
    pub fn make_before(&self, n: usize, t: &mut Tables) {
        let mut rows: [Rows; RULES] = [[[NONE; SIDE]; PLACES + 1]; RULES];
        let rows = &mut rows[..self.rules.len()];
        let kinds: Vec<u32> = self.rules.iter().map(kinds_below).collect();
        for j in 0..=n {
            self.put_empty(j, t, rows);
            for i in (0..j).rev() {
                for (r, rows) in rows.iter_mut().enumerate() {
                    self.put_column(r, t, &[NONE; KINDS], i, i, i + 1, j, rows);
                    t[bare(r, i, j)] = (rows[0][i] + 1).min(NONE);
                }
                let full = self.solve(t, i, j, 0);
                put_least(t, &full, i, j);
                for (r, rows) in rows.iter_mut().enumerate() {
                    if kinds[r] & self.cell(i, j) != 0 {
                        self.put_column(r, t, &full, i, i, i + 1, j, rows);
                    }
                }
            }
        }
    }
}
