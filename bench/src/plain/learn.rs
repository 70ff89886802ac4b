//! Learning a rule: its commands are read into a copy of the grammar, which is tidied first; then the chart is filled, as check
//! fills it.

use super::loader::{carried_out, nullable_depth, nullable_set, operands_at, unknown, Open};
use super::names::Names;
use super::packed::{contains, Packed};
use super::recognizer::Recognizer;
use super::spans::fill;
use super::{Grammar, Refusal, Rule, Symbol};

/// Writes zeros into all that is unused.
fn tidy(g: &mut Grammar) {
    let (used, unused) = g.rules.split_at_mut(g.count);
    used.iter_mut().for_each(|rule| rule.places[rule.count..].fill(Symbol::Nonterminal(0)));
    unused.fill(Rule::ZERO);
}

/// Whether a known command is not where it may be in one rule.
fn misplaced(byte: u8, at: usize) -> bool {
    let opens = matches!(byte, 0x20 | 0x21);
    match at {
        0 => !opens,
        _ => opens || matches!(byte, 0x10 | 0x50),
    }
}

/// Adds the rule of these bytes to a tidy grammar.
fn join(bytes: &[u8], g: &mut Grammar) -> Result<(), (Refusal, usize)> {
    if bytes.is_empty() {
        return Err((Refusal::NotOneRule, 0));
    }
    let mut names = Names::of(&g.rules[..g.count]);
    let mut at = 0;
    while let Some(&byte) = bytes.get(at) {
        let open = Open::of(g);
        match () {
            _ if unknown(byte) => return Err((Refusal::UnknownCommand, at)),
            _ if misplaced(byte, at) => return Err((Refusal::NotOneRule, at)),
            _ if byte == 0x60 && open.named => return Err((Refusal::OutOfTurn, at)),
            _ => at = carried_out(operands_at(bytes, at, open)?, at, g, &mut names)?,
        }
    }
    g.depth = nullable_depth(g, nullable_set(g));
    Ok(())
}

impl Recognizer {
    /// Returns the longer grammar, and whether the input is complete. If refused, it leaves everything as it was.
    pub fn learn(&mut self, g: &Grammar, bytes: &[u8], chart: &mut [u32]) -> Result<(Grammar, bool), (Refusal, usize)> {
        self.judged(g, chart.len()).map_err(|refusal| (refusal, 0))?;
        let mut longer = g.clone();
        tidy(&mut longer);
        join(bytes, &mut longer)?;
        self.bytes[self.count..].fill(0);
        fill(&Packed::new(&longer, self.year), &self.bytes[..self.count], chart);
        let complete = contains(chart[self.count], longer.start as usize);
        Ok((longer, complete))
    }
}
