//! Points to come back to (request U6 of document 02): a hand's points, setting one, and returning to one.

use super::chart::cell;
use super::grammar::{self, Grammar};
use super::{complete, hand};
use crate::reader::{Answer, FlatGrammar, Hand, CELLS, FIRST_POINT, INPUT, POINTS};
use crate::switches::{fault, low_byte, Fault};

/// For each name the count at which its point is set, if it is.
pub type Points = [Option<usize>; POINTS];

/// The points of a hand: 0 is not set, any other number is 1 plus a count.
pub fn of(hand: &Hand) -> Points {
    std::array::from_fn(|name| usize::from(hand[FIRST_POINT + name]).checked_sub(1))
}

/// Whether a set point is past the hand's count.
pub fn past(hand: &Hand) -> bool {
    let judged = match () {
        _ if fault(Fault::PointsUnjudged) => 0,
        _ if fault(Fault::LastPointUnjudged) => POINTS - 1,
        _ => POINTS,
    };
    let count = match () {
        _ if fault(Fault::PointsJudgedBy64) => INPUT as u32,
        _ if fault(Fault::PointAtTheCountRefused) => u32::from(hand[INPUT]).saturating_sub(1),
        _ => u32::from(hand[INPUT]) + u32::from(fault(Fault::PointOnePastTheCountAccepted)),
    };
    let number = |point: &u16| u32::from(low_byte(*point, Fault::PointsByTheirLowByte));
    hand[FIRST_POINT..][..judged].iter().any(|point| number(point) > count + 1)
}

/// Writes points into a hand.
fn put(points: &Points, hand: &mut Hand) {
    for (number, point) in hand[FIRST_POINT..].iter_mut().zip(points) {
        *number = point.map_or(0, |count| count as u16 + 1);
    }
}

/// The name as a call reads it.
fn read(name: usize) -> usize {
    match () {
        _ if fault(Fault::NameByItsLowByte) => name % 256,
        _ if fault(Fault::NameByIts32Bits) => name % (1 << 32),
        _ if fault(Fault::NameByItsLowBits) => name % POINTS,
        _ if fault(Fault::NameSevenRefused) && name == POINTS - 1 => POINTS,
        _ => name,
    }
}

/// Checks 8, 14 and 10, in order. Returns the grammar and the used marks.
fn judged(flat: &FlatGrammar, hand: &Hand, cells: usize) -> Result<(Grammar, Vec<u8>), Answer> {
    let (marks, ten) = (hand::marks(hand), cells < CELLS);
    if fault(Fault::PointsFourteenBeforeEight) && marks.is_none() {
        return Err(Answer::Refused(14));
    }
    let grammar = grammar::from_flat(flat).ok_or(Answer::Refused(8))?;
    if fault(Fault::PointsTenBeforeFourteen) && ten {
        return Err(Answer::Refused(10));
    }
    let marks = marks.ok_or(Answer::Refused(14))?;
    if ten {
        return Err(Answer::Refused(10));
    }
    Ok((grammar, marks))
}

/// The faults of the order of 19: a refusal out of turn.
fn out_of_turn(flat: &FlatGrammar, hand: &Hand) -> bool {
    match () {
        _ if fault(Fault::NineteenBeforeEight) => true,
        _ if fault(Fault::NineteenBeforeFourteen) => grammar::from_flat(flat).is_some(),
        _ if fault(Fault::NineteenBeforeTen) => grammar::from_flat(flat).is_some() && hand::marks(hand).is_some(),
        _ => false,
    }
}

/// Sets the point of this name at the count, wherever it was. No cell is written.
pub fn set(flat: &FlatGrammar, hand: &mut Hand, name: usize, chart: &[u32]) -> Answer {
    let name = read(name);
    let mut points = of(hand);
    let nineteen = match () {
        _ if fault(Fault::Name8Accepted) => name > POINTS,
        _ if fault(Fault::OnlySetPointsMoved) => name >= POINTS || points[name].is_none(),
        _ if fault(Fault::SetPointsStay) => name >= POINTS || points[name].is_some(),
        _ => name >= POINTS,
    };
    if nineteen && out_of_turn(flat, hand) {
        return Answer::Refused(19);
    }
    let (grammar, marks) = match judged(flat, hand, chart.len()) {
        Ok(judged) => judged,
        Err(refused) => return refused,
    };
    if nineteen {
        return Answer::Refused(19);
    }
    if let Some(point) = points.get_mut(name) {
        *point = match () {
            _ if fault(Fault::SetOnePastTheCount) => Some(marks.len() + 1),
            _ if fault(Fault::SetOneBeforeTheCount) => marks.len().checked_sub(1),
            _ if fault(Fault::SetAgainDoesNotMove) => point.or(Some(marks.len())),
            _ => Some(marks.len()),
        };
    }
    *hand = hand::keeping(&marks, hand);
    put(&points, hand);
    match () {
        _ if fault(Fault::SetSaysNo) => Answer::No,
        _ if fault(Fault::SetSaysOfOneMarkLess) => complete(&grammar, chart, marks.len().saturating_sub(1)),
        _ => complete(&grammar, chart, marks.len()),
    }
}

/// The points after a return to the one of this name, which is at the count: those beyond are gone.
fn kept(points: &Points, name: usize, count: usize) -> Points {
    let gone = |other: usize, at: usize| match () {
        _ if fault(Fault::PointsBeyondKept) => false,
        _ if fault(Fault::NextPointKept) => at > count + 1,
        _ if fault(Fault::TargetDropped) => at > count || other == name,
        _ if fault(Fault::PointsAtTheTargetDropped) => at > count || (at == count && other != name),
        _ if fault(Fault::AllOtherPointsDropped) => other != name,
        _ => at > count,
    };
    std::array::from_fn(|other| points[other].filter(|at| !gone(other, *at)))
}

/// Writes zero into the cells of the columns past the count, up to 64: those of column j are (0, j) to (j, j).
fn clear(chart: &mut [u32], count: usize, before: usize) {
    let from = count + usize::from(!fault(Fault::ClearedFromTheOwnColumn));
    let from = from + usize::from(fault(Fault::FirstColumnSpared));
    let to = match () {
        _ if fault(Fault::ClearingStopsAtTheCount) => before,
        _ if fault(Fault::Column64Spared) => INPUT - 1,
        _ => INPUT,
    };
    for j in from..=to {
        let first = usize::from(fault(Fault::WholeSpansSpared));
        let last = match () {
            _ if fault(Fault::DiagonalSpared) => j.saturating_sub(1),
            _ if fault(Fault::CellBelowTheDiagonalCleared) => (j + 1).min(INPUT),
            _ => j,
        };
        for i in first..=last {
            chart[cell(i, j)] = 0;
        }
    }
}

/// Returns to the point of this name, and clears the columns past it.
pub fn return_to(flat: &FlatGrammar, hand: &mut Hand, name: usize, chart: &mut [u32]) -> Answer {
    let name = read(name);
    let points = of(hand);
    let point = match points.get(name) {
        None if fault(Fault::ReturnToName8) && name == POINTS => Some(0),
        None => None,
        Some(None) if fault(Fault::ReturnToAnUnsetPoint) => Some(0),
        Some(None) if fault(Fault::UnsetPointLeavesAll) => Some(usize::from(hand[INPUT]).min(INPUT)),
        Some(Some(0)) if fault(Fault::PointAtNoMarksUnset) => None,
        Some(point) => *point,
    };
    if point.is_none() && out_of_turn(flat, hand) {
        return Answer::Refused(19);
    }
    let (grammar, marks) = match judged(flat, hand, chart.len()) {
        Ok(judged) => judged,
        Err(refused) => return refused,
    };
    let Some(count) = point else { return Answer::Refused(19) };
    let count = count.min(marks.len()); // no point is past the count, but with a fault
    let before = complete(&grammar, chart, marks.len());
    *hand = hand::keeping(&marks[..count], hand);
    put(&kept(&points, name, count), hand);
    clear(chart, count, marks.len());
    match () {
        _ if fault(Fault::ReturnSaysAsBefore) => before,
        _ if fault(Fault::ReturnSaysNo) => Answer::No,
        _ => complete(&grammar, chart, count),
    }
}
