//! Readings in words (request U4 of document 02): every derivation is written, and parsed back to its input and its row.

use super::lent::{offset, same, Lent};
use super::{Comparison, Plate};
use crate::lister::grammar::Grammar;
use crate::lister::parse::parsed;
use crate::lister::trees::{self, Row};
use crate::lister::words;
use crate::reader::{Answer, FlatGrammar, Reader, CELLS};

/// No text is longer: 11 bytes for each node and 4 for each mark.
const LONGEST: usize = 11 * 512 + 4 * 64;

impl Comparison<'_> {
    /// Writes a derivation into a buffer that just fits or is longer, and at times offers it one that is shorter. What is written
    /// is the lister's text, and the lister's parser finds the input and the row in it.
    pub(super) fn words(
        &mut self,
        flat: &FlatGrammar,
        whole: &Grammar,
        grammar: &Grammar,
        plate: Plate<'_>,
        row: &[u16],
    ) -> Result<(), String> {
        let (tree, _) = trees::tree_of(grammar, grammar.start, plate.input, row).expect("a derivation");
        let text = words::text(grammar, &tree).into_bytes();
        let (n, more) = (text.len(), self.rng.within(2, 40));
        let length = self.rng.pick(&[n, n, n + 1, n + more, LONGEST]);
        let buffer = self.written(flat, plate, row, length, Ok(&text))?;
        let back = parsed(whole, &buffer.part()[..n]);
        same("words: the text parsed back", back, Some((plate.input.to_vec(), row.to_vec())))?;
        same("words: the longest text", n <= LONGEST, true)?;
        self.counts.add(match length - n {
            0 => "words: the buffer just fits",
            1 => "words: the buffer is one longer",
            _ => "words: the buffer is longer",
        });
        self.rules_called(&text);
        if self.rng.one_in(5) {
            let any = self.rng.below(n);
            let length = self.rng.pick(&[n - 1, n - 1, 0, any]);
            self.written(flat, plate, row, length, Err(18))?;
            self.counts.add(match length {
                0 => "refused 18: no buffer",
                _ if length == n - 1 => "refused 18: one short",
                _ => "refused 18: shorter",
            });
        }
        Ok(())
    }

    /// Counts how the rules of a text are called.
    fn rules_called(&mut self, text: &[u8]) {
        let (numbers, rules) = [b'#', b'('].map(|byte| text.iter().filter(|other| **other == byte).count()).into();
        self.counts.add(match numbers {
            0 => "words: only names",
            n if n == rules => "words: only numbers",
            _ => "words: names and numbers",
        });
        if text.windows(2).any(|two| two == b"()") {
            self.counts.add("words: a rule without places");
        }
    }

    /// Words of a row that is no derivation: refused 12, with any buffer.
    pub(super) fn no_words(&mut self, flat: &FlatGrammar, plate: Plate<'_>, row: &[u16]) -> Result<(), String> {
        let length = self.rng.pick(&[0, 0, 1, 2, 30, LONGEST]);
        self.written(flat, plate, row, length, Err(12))?;
        if length == 0 {
            self.counts.add("words: refused 12, no buffer");
        }
        Ok(())
    }

    /// Calls words on the reader with a buffer of this length: the text that is due, or the refusal. The chart must be the filled
    /// one. Only the front of the buffer is written, and nothing with a refusal. Returns the buffer.
    fn written(
        &mut self,
        flat: &FlatGrammar,
        plate: Plate<'_>,
        row: &[u16],
        length: usize,
        due: Result<&[u8], u8>,
    ) -> Result<Lent<u8>, String> {
        let Plate { input, year, filled } = plate;
        let (mine, mut chart, found) = (self.either(flat), self.chart(), offset(&mut self.rng));
        let mut buffer = Lent::filled(length, || self.rng.draw() as u8);
        let (mut due_chart, mut due_buffer, mut bytes) = (chart.clone(), buffer.clone(), found);
        due_chart.part_mut()[..CELLS].copy_from_slice(filled);
        let (lent, offered) = (Lent::of(input, 0x41), Lent::of(row, 0));
        let before = (lent.clone(), offered.clone());
        let (chart_lent, buffer_lent) = (chart.part_mut(), buffer.part_mut());
        let answer = self.reader.words(&mine, lent.part(), year, offered.part(), chart_lent, buffer_lent, &mut bytes);
        let due = match due {
            Ok(text) => {
                due_buffer.part_mut()[..text.len()].copy_from_slice(text);
                (Answer::Bytes(text.len()), text.len())
            }
            Err(number) => (Answer::Refused(number), found),
        };
        let all_same = || {
            same("answer and number of bytes", (answer, bytes), due)?;
            chart.against(&due_chart, "chart")?;
            buffer.against(&due_buffer, "buffer")?;
            lent.against(&before.0, "the input lent")?;
            offered.against(&before.1, "the row lent")
        };
        all_same().map_err(|what| format!("words of {row:?}, buffer of {length}: {what}"))?;
        let what = match due.0 {
            Answer::Refused(number) => format!("words: refused {number}"),
            _ => "words: written".to_string(),
        };
        self.add(input, &what);
        Ok(buffer)
    }

    /// Words of a reading of the whole book in one year: written, or 12 if a rule is out of force.
    pub(super) fn words_in(
        &mut self,
        flat: &FlatGrammar,
        input: &[u8],
        year: u16,
        offered: &[u16],
    ) -> Result<(), String> {
        if offered.is_empty() || self.rng.one_in(2) {
            return Ok(());
        }
        let (chart, found) = (self.chart(), offset(&mut self.rng));
        let buffer = Lent::filled(LONGEST, || self.rng.draw() as u8);
        let call = |r: &dyn Reader, g: &FlatGrammar, c: &mut [u32]| {
            let (mut buffer, mut bytes) = (buffer.clone(), found);
            (r.words(g, input, year, offered, c, buffer.part_mut(), &mut bytes), bytes, buffer.all)
        };
        let what = format!("words of {offered:?}, input {input:?}, year {year}");
        let ((answer, ..), _) = self.both(&what, flat, &chart, call)?;
        self.counts.add(match answer {
            Answer::Bytes(_) => "words in another year: written",
            _ => "words in another year: a rule out of force",
        });
        Ok(())
    }

    /// Refusals 8, 9, 10, 12 and 18 of words, and what they leave.
    pub(super) fn refused_words(
        &mut self,
        flat: &FlatGrammar,
        input: &[u8],
        year: u16,
        chart: &Lent<u32>,
    ) -> Result<(), String> {
        let row: Row = (0..self.rng.below(5)).map(|_| self.rng.below(3) as u16).collect();
        let (length, found) = (self.rng.pick(&[0, 1, 5, 6, 1023, LONGEST]), offset(&mut self.rng));
        let buffer = Lent::filled(length, || self.rng.draw() as u8);
        let call = |r: &dyn Reader, g: &FlatGrammar, c: &mut [u32]| {
            let (mut buffer, mut bytes) = (buffer.clone(), found);
            (r.words(g, input, year, &row, c, buffer.part_mut(), &mut bytes), bytes, buffer.all)
        };
        let ((answer, bytes, left), after) = self.both("words", flat, chart, call)?;
        self.seen("words", answer, chart, &after)?;
        self.seen_with(input, "words", answer)?;
        if matches!(answer, Answer::Refused(_)) {
            same("words refused: number and buffer as found", bytes == found && left == buffer.all, true)?;
        }
        Ok(())
    }
}
