//! Faults in what learning a rule leaves.

use super::switches::{fault, Fault};
use crate::lister::{chart, grammar, hand, Lister};
use outside_tests::reader::{
    record, Answer, FlatGrammar, Hand, Reader, CELLS, FIRST_POINT, FLAT, INPUT, PLACES, RULES, RULE_WIDTH, YEAR,
};

/// The numbers of the places of a rule from this one on.
fn places(rule: usize, from: usize) -> std::ops::Range<usize> {
    record(rule) + 3 + 2 * from..record(rule) + 3 + 2 * PLACES
}

/// Puts back what a row held in its unused numbers.
fn untidy(flat: &mut FlatGrammar, found: &FlatGrammar) {
    let (old, new) = (usize::from(found[1]), usize::from(flat[1]).min(RULES));
    if fault(Fault::UnusedRecordsKept) {
        let unused = record(new)..FLAT;
        flat[unused.clone()].copy_from_slice(&found[unused]);
    }
    if fault(Fault::UnusedPlacesKept) {
        for rule in 0..old.min(RULES) {
            let unused = places(rule, usize::from(flat[record(rule) + 2]).min(PLACES));
            flat[unused.clone()].copy_from_slice(&found[unused]);
        }
    }
    if fault(Fault::NewRecordKeepsItsPlaces) && old < new {
        let unused = places(old, usize::from(flat[record(old) + 2]).min(PLACES));
        flat[unused.clone()].copy_from_slice(&found[unused]);
    }
}

/// Spoils what a rule that is learnt leaves in the hand.
fn spoil_hand(hand: &mut Hand, found: &Hand) {
    let used = usize::from(hand[INPUT]).min(INPUT);
    match () {
        _ if fault(Fault::LearnDropsTheMarks) => *hand = hand::keeping(&[], &{ *hand }),
        _ if fault(Fault::LearnKeepsUnusedMarks) => hand[used..INPUT].copy_from_slice(&found[used..INPUT]),
        _ if fault(Fault::LearnClearsThePoints) => hand[FIRST_POINT..].fill(0),
        _ if fault(Fault::LearnDropsThePointAtTheCount) => {
            let at_the_count = hand[INPUT] + 1;
            hand[FIRST_POINT..].iter_mut().filter(|point| **point == at_the_count).for_each(|point| *point = 0);
        }
        _ if fault(Fault::LearnForgetsTheYear) => hand[YEAR] = 0,
        _ => (),
    }
}

/// Spoils what a refused rule leaves.
fn spoil_refused(number: u8, flat: &mut FlatGrammar, hand: &mut Hand, bytes: &[u8], chart: &mut [u32]) {
    let of_the_bytes = !matches!(number, 8 | 10 | 14);
    let used = usize::from(hand[INPUT]).min(INPUT);
    match () {
        _ if fault(Fault::RefusedRuleTidiesTheGrammar) && of_the_bytes => {
            let book = grammar::from_flat(flat).expect("a grammar let through");
            *flat = grammar::to_flat(&book, flat[2]);
        }
        _ if fault(Fault::RefusedRuleClearsTheGrammar) && of_the_bytes => *flat = [0; FLAT],
        _ if fault(Fault::RefusedRuleOpensARule) && of_the_bytes && bytes.len() > 4 && usize::from(flat[1]) < RULES => {
            let at = record(usize::from(flat[1]));
            flat[at..at + RULE_WIDTH].fill(0);
            flat[1] += 1;
        }
        _ if fault(Fault::RefusedRuleTidiesTheHand) => hand[used..INPUT].fill(0),
        _ if fault(Fault::RefusedRuleClearsTheHand) => *hand = hand::of(&[], 0),
        _ if fault(Fault::RefusedRuleClearsTheChart) => chart.fill(0),
        _ if fault(Fault::RefusedRuleFillsTheChart) && of_the_bytes => {
            let book = grammar::from_flat(flat).expect("a grammar let through").in_year(hand[YEAR]);
            chart::fill(&book, &hand::marks(hand).expect("a hand let through"), chart);
        }
        _ => (),
    }
}

/// Learns a rule; spoils what is left.
pub fn learn(flat: &mut FlatGrammar, hand: &mut Hand, bytes: &[u8], chart: &mut [u32], offset: &mut usize) -> Answer {
    let (row, held, at, sheet) = (*flat, *hand, *offset, chart.to_vec());
    let answer = Lister.learn(flat, hand, bytes, chart, offset);
    if let Answer::Refused(number) = answer {
        if fault(Fault::OffsetUnwrittenBeforeTheBytes) && matches!(number, 8 | 10 | 14) {
            *offset = at;
        }
        spoil_refused(number, flat, hand, bytes, chart);
        return answer;
    }
    untidy(flat, &row);
    spoil_hand(hand, &held);
    match () {
        _ if fault(Fault::ChartAsFound) => chart.copy_from_slice(&sheet),
        _ if fault(Fault::LearnWritesBehindTheCells) && chart.len() > CELLS => chart[CELLS] = 0,
        _ if fault(Fault::OffsetZeroWhenLearnt) => *offset = 0,
        _ if fault(Fault::OffsetOfTheEndWhenLearnt) => *offset = bytes.len(),
        _ => (),
    }
    answer
}
