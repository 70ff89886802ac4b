//! Faults in what the calls leave of a hand's points, and in what setting a point and returning to one leave.

use super::switches::{fault, Fault};
use crate::lister::chart::cell;
use crate::lister::{grammar, hand, Lister};
use outside_tests::reader::{Answer, FlatGrammar, Hand, Reader, CELLS, FIRST_POINT, INPUT, YEAR};

/// How many marks of a hand are used.
fn used(hand: &Hand) -> usize {
    usize::from(hand[INPUT]).min(INPUT)
}

/// Makes the call; with the fault, its hand's points are not judged.
fn unjudged(which: Fault, hand: &mut Hand, call: impl FnOnce(&mut Hand) -> Answer) -> Answer {
    let found = *hand;
    let past = |point: &&mut u16| u32::from(**point) > u32::from(found[INPUT]) + 1;
    if fault(which) {
        hand[FIRST_POINT..].iter_mut().filter(past).for_each(|point| *point = 0);
    }
    let answer = call(hand);
    if matches!(answer, Answer::Refused(_)) {
        *hand = found;
    }
    answer
}

/// Spoils the points that opening has left.
pub fn opened(answer: Answer, found: &Hand, hand: &mut Hand) {
    let refused = matches!(answer, Answer::Refused(_));
    let left = if refused { Fault::RefusedOpeningLeavesThePoints } else { Fault::OpenedHandKeepsItsPoints };
    if fault(left) {
        hand[FIRST_POINT..].copy_from_slice(&found[FIRST_POINT..]);
    }
}

/// Takes a mark; spoils the points that are left.
pub fn take(flat: &FlatGrammar, hand: &mut Hand, terminal: u8, chart: &mut [u32]) -> Answer {
    let answer = unjudged(Fault::PointsUnjudgedByTake, hand, |hand| Lister.take(flat, hand, terminal, chart));
    if matches!(answer, Answer::Refused(_)) {
        return answer;
    }
    let count = hand[INPUT]; // one more than before, and so the number of a point that was at the count
    for point in &mut hand[FIRST_POINT..] {
        match () {
            _ if fault(Fault::TakeForgetsThePoints) => *point = 0,
            _ if fault(Fault::TakeDropsThePointAtTheCount) && *point == count => *point = 0,
            _ if fault(Fault::TakeMovesThePointAtTheCount) && *point == count => *point += 1,
            _ => (),
        }
    }
    answer
}

/// Sets a point; spoils what is left.
pub fn set(flat: &FlatGrammar, hand: &mut Hand, name: usize, chart: &mut [u32]) -> Answer {
    let found = *hand;
    let answer = unjudged(Fault::PointsUnjudgedBySet, hand, |hand| Lister.set_point(flat, hand, name, chart));
    let used = used(hand);
    match answer {
        Answer::Refused(_) if fault(Fault::RefusedSetTidiesTheHand) => hand[used..INPUT].fill(0),
        Answer::Refused(_) => (),
        _ if fault(Fault::SetKeepsUnusedMarks) => hand[used..INPUT].copy_from_slice(&found[used..INPUT]),
        _ if fault(Fault::SetForgetsTheYear) => hand[YEAR] = 0,
        _ if fault(Fault::SetDropsAnotherPoint) => hand[FIRST_POINT + (name + 1) % 8] = 0,
        _ if fault(Fault::SetClearsTheNextColumn) && used < INPUT => {
            (0..=used + 1).for_each(|i| chart[cell(i, used + 1)] = 0)
        }
        _ if fault(Fault::SetClearsItsColumn) => (0..=used).for_each(|i| chart[cell(i, used)] = 0),
        _ => (),
    }
    answer
}

/// Returns to a point; spoils what is left.
pub fn return_to(flat: &FlatGrammar, hand: &mut Hand, name: usize, chart: &mut [u32]) -> Answer {
    let found = *hand;
    let answer = unjudged(Fault::PointsUnjudgedByReturn, hand, |hand| Lister.return_to(flat, hand, name, chart));
    let (count, before) = (used(hand), used(&found));
    match answer {
        Answer::Refused(_) if fault(Fault::RefusedReturnTidiesTheHand) => hand[before..INPUT].fill(0),
        Answer::Refused(_) if fault(Fault::RefusedReturnClearsTheChart) => chart.iter_mut().for_each(|word| *word = 0),
        Answer::Refused(_) => (),
        _ if fault(Fault::ReturnKeepsTheCount) => hand[INPUT] = found[INPUT],
        _ if fault(Fault::ReturnKeepsTheMarksBeyond) => hand[count..before].copy_from_slice(&found[count..before]),
        _ if fault(Fault::ReturnForgetsTheYear) => hand[YEAR] = 0,
        _ if fault(Fault::ClearsBehindTheCells) && chart.len() > CELLS => chart[CELLS] = 0,
        // from a fresh opening this is the same chart; over any other it is not
        _ if fault(Fault::ReturnOpensAgain) => {
            let marks = hand::marks(hand).expect("a hand let through");
            let grammar = grammar::from_flat(flat).expect("a grammar let through").in_year(hand[YEAR]);
            crate::lister::chart::fill(&grammar, &marks, chart);
        }
        _ => (),
    }
    answer
}
