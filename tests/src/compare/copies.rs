//! A book with ranges, and the book in which each rule with ranges is copied once for every byte of them: a reader must
//! answer the same for both. A byte of the input decides which copy is used, so no reading is gained or lost.

use super::in_year;
use super::lent::{rubbish, same, Counts};
use crate::books::{small_ranges, Draft, Rng, Sym};
use crate::lister::listing::derivations;
use crate::lister::trees::LIMIT;
use crate::lister::STEPS;
use crate::reader::{Answer, FlatGrammar, Reader, CELLS, FLAT, HAND, RULES};

/// The year of all inputs: any, since the books hold in all years.
const YEAR: u16 = 2008;

/// Compares the book of a seed with its copy. Counts the outcomes, and the books whose copy has too many rules.
pub fn compare_copies(reader: &dyn Reader, seed: u64, counts: &mut Counts) -> Result<(), String> {
    let (draft, inputs) = small_ranges(seed);
    let copied = draft.copied();
    if copied.rules.len() > RULES {
        counts.add("too many rules");
        return Ok(());
    }
    counts.add("book");
    if copied.rules.len() > draft.rules.len() {
        counts.add("a rule copied");
    }
    for input in &inputs {
        compared(reader, [&draft, &copied], input, counts)
            .map_err(|what| format!("seed {seed}, book {:02X?}, input {input:?}: {what}", draft.bytes()))?;
    }
    Ok(())
}

/// Compares complete after each mark, the chart, and the count, where it is not too large for the reader.
fn compared(reader: &dyn Reader, drafts: [&Draft; 2], input: &[u8], counts: &mut Counts) -> Result<(), String> {
    let [one, other] = drafts.map(|draft| loaded(reader, draft));
    let (one, other) = (one?, other?);
    let (answers, chart) = taken(reader, &one, input);
    let (other_answers, other_chart) = taken(reader, &other, input);
    same("complete, after each mark", &answers, &other_answers)?;
    same("the chart", chart == other_chart, true)?;
    counts.add(if answers.last() == Some(&Answer::Yes) { "complete" } else { "not complete" });
    let small = |flat| derivations(&in_year(flat, YEAR), input, LIMIT, STEPS / 10).is_ok();
    if reader.by_listing() && !(small(&one) && small(&other)) {
        return Ok(());
    }
    let count = counted(reader, &one, input);
    same("count", count, counted(reader, &other, input))?;
    let range = drafts[0].rules.iter().any(|rule| rule.2.iter().any(|place| matches!(place, Sym::R(..))));
    counts.add(match count {
        Answer::Count(0) => "count: 0",
        Answer::Count(1) if range => "count: 1",
        Answer::Count(_) if range => "count: two or more",
        _ => "count: other",
    });
    Ok(())
}

/// The row of a draft's book.
fn loaded(reader: &dyn Reader, draft: &Draft) -> Result<FlatGrammar, String> {
    let (mut flat, mut offset) = ([9; FLAT], 9);
    let answer = reader.load(&draft.bytes(), &mut flat, &mut offset);
    same("load", answer, Answer::Yes)?;
    Ok(flat)
}

/// Opens and takes the input: the answers, and the cells of the chart.
fn taken(reader: &dyn Reader, flat: &FlatGrammar, input: &[u8]) -> (Vec<Answer>, Vec<u32>) {
    let (mut hand, mut chart) = ([9; HAND], rubbish(&mut Rng::new(41), CELLS));
    let mut answers = vec![reader.open(flat, YEAR, &mut hand, chart.part_mut())];
    answers.extend(input.iter().map(|mark| reader.take(flat, &mut hand, *mark, chart.part_mut())));
    (answers, chart.part().to_vec())
}

fn counted(reader: &dyn Reader, flat: &FlatGrammar, input: &[u8]) -> Answer {
    reader.count(flat, input, YEAR, rubbish(&mut Rng::new(42), CELLS).part_mut(), &mut 9)
}
