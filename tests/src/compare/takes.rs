//! Opening and taking, over correctly filled charts and over spoilt charts.

use super::hands::{opened, taken};
use super::lent::{self, same, Lent};
use super::Comparison;
use crate::lister::chart::{self, cell};
use crate::lister::grammar::Grammar;
use crate::lister::{hand, has_tree};
use crate::reader::{Answer, FlatGrammar, CELLS, INPUT, YEAR};

impl Comparison<'_> {
    /// Opens in the year, and takes the input terminal by terminal. At first the chart is full of rubbish, and so are the unused
    /// marks of the hands. Returns the chart.
    pub(super) fn takes(
        &mut self,
        flat: &FlatGrammar,
        grammar: &Grammar,
        input: &[u8],
        year: u16,
    ) -> Result<Lent<u32>, String> {
        let chart = self.chart();
        let mine = self.either(flat);
        let found = lent::hand(&mut self.rng);
        let ((mut answer, mut hand), mut chart) =
            self.both("open", &mine, &chart, |r, g, c| opened(r, g, year, found, c))?;
        for (n, mark) in input.iter().enumerate() {
            self.counts.add(if answer == Answer::Yes { "complete: yes" } else { "complete: no" });
            same("the lister's hand: count and year", (usize::from(hand[INPUT]), hand[YEAR]), (n, year))?;
            if self.rng.one_in(2) {
                hand[n..INPUT].iter_mut().for_each(|mark| *mark = lent::number(&mut self.rng));
                if hand[n..INPUT].iter().any(|mark| *mark > 255) {
                    self.counts.add("take: an unused mark over 255");
                }
            }
            let mine = self.either(flat);
            let what = format!("take {}", n + 1);
            ((answer, hand), chart) = self.both(&what, &mine, &chart, |r, g, c| taken(r, g, hand, *mark, c))?;
        }
        self.counts.add(if answer == Answer::Yes { "complete: yes" } else { "complete: no" });
        // Checks the lister itself: from a fresh opening, these are the true sets.
        let derives = chart::derives(grammar, input);
        for (i, j) in (0..=INPUT).flat_map(|i| (0..=INPUT).map(move |j| (i, j))) {
            let holds = |k: &usize| i <= j && j <= input.len() && derives[i][*k] >> j & 1 == 1;
            let due: u32 = (0..32).filter(holds).map(|k| 1 << k).sum();
            same("the lister's own cell: i, j, word", (i, j, chart.part()[cell(i, j)]), (i, j, due))?;
        }
        same("the lister's complete", answer == Answer::Yes, has_tree(grammar, input))?;
        Ok(chart)
    }

    /// The same over spoilt charts: before each take some words are changed, and the next column must be the least
    /// one over the chart as found.
    pub(super) fn spoilt_takes(
        &mut self,
        flat: &FlatGrammar,
        grammar: &Grammar,
        input: &[u8],
        year: u16,
    ) -> Result<(), String> {
        let mut chart = self.chart();
        chart::open(grammar, chart.part_mut());
        let nullable = chart.part()[0];
        let mut hand = hand::of(&[], year);
        let kinds: Vec<u8> = grammar.numbered().map(|(_, rule)| rule.left).chain([grammar.start]).collect();
        for (n, mark) in input.iter().enumerate() {
            for _ in 0..self.rng.within(1, 12) {
                let b = self.rng.below(n + 1);
                let at = match self.rng.below(8) {
                    0..=2 => cell(b, b),
                    3..=5 => cell(self.rng.below(b + 1), b),
                    6 => cell(self.rng.below(n + 2), n + 1),
                    _ => self.rng.below(CELLS),
                };
                let word = &mut chart.part_mut()[at];
                match self.rng.below(6) {
                    0 => *word = self.rng.draw() as u32,
                    1 => *word = 0,
                    _ => *word ^= 1 << self.rng.pick(&kinds),
                }
            }
            let before = chart.clone();
            let what = format!("take {} over a spoilt chart", n + 1);
            let mine = self.either(flat);
            ((_, hand), chart) = self.both(&what, &mine, &chart, |r, g, c| taken(r, g, hand, *mark, c))?;
            self.counts.add("take over a spoilt chart");
            // Counts how often the cells (a, a) as found decide, where the nullable set would decide otherwise.
            let mut other = before;
            (0..=n).for_each(|a| other.part_mut()[cell(a, a)] = nullable);
            chart::fill_column(grammar, &input[..n + 1], other.part_mut());
            if (0..n + 2).any(|i| other.part()[cell(i, n + 1)] != chart.part()[cell(i, n + 1)]) {
                self.counts.add("take over a spoilt chart: an empty piece as found decides");
            }
        }
        Ok(())
    }
}
