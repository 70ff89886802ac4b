//! Setting a point and returning to it.

use super::packed::contains;
use super::recognizer::Recognizer;
use super::{Grammar, Refusal, CHART, INPUT};

pub const POINTS: usize = 8;

/// Writes zero into the columns after the first p, and no other cell.
fn clear_after(p: usize, chart: &mut [u32]) {
    for i in 0..=INPUT {
        chart[65 * i + i.max(p + 1)..65 * (i + 1)].fill(0);
    }
}

impl Recognizer {
    /// Checks 8, 14 and 10, which set, return and learn share.
    pub(super) fn judged(&self, g: &Grammar, cells: usize) -> Result<(), Refusal> {
        match () {
            _ if !g.valid() => Err(Refusal::InvalidGrammar),
            _ if !self.valid() => Err(Refusal::InvalidRecognizer),
            _ if cells < CHART => Err(Refusal::ChartTooShort),
            _ => Ok(()),
        }
    }

    /// Returns whether the input is complete. If refused, it leaves everything as it was.
    pub fn set_point(&mut self, g: &Grammar, name: usize, chart: &[u32]) -> Result<bool, Refusal> {
        self.judged(g, chart.len())?;
        *self.points.get_mut(name).ok_or(Refusal::NoPoint)? = self.count as u8 + 1;
        self.bytes[self.count..].fill(0);
        Ok(contains(chart[self.count], g.start as usize))
    }

    /// Returns whether the input that remains is complete. If refused, it leaves everything as it was.
    pub fn return_to(&mut self, g: &Grammar, name: usize, chart: &mut [u32]) -> Result<bool, Refusal> {
        self.judged(g, chart.len())?;
        let point = self.points.get(name).copied().unwrap_or(0);
        self.count = usize::from(point).checked_sub(1).ok_or(Refusal::NoPoint)?;
        self.bytes[self.count..].fill(0);
        self.points.iter_mut().filter(|other| **other > point).for_each(|other| *other = 0);
        clear_after(self.count, chart);
        Ok(contains(chart[self.count], g.start as usize))
    }
}
