//! First, next and count as functions of the list of all derivations, and the walk of demand 3 as a separate machine.

use super::trees::{same_build, Row};
use crate::switches::{fault, Fault};

/// What first, next or count gives: a row, or an answer without one.
#[derive(Clone, PartialEq, Eq, Debug)]
pub enum Given {
    Row(Row),
    NoDerivation,
    NoneLeft,
    Count(usize),
    More,
    Refused(u8),
}

/// First. `list` is document 01's L; `tree` says whether the input has a tree of any size.
pub fn first(list: &[Row], tree: bool) -> Given {
    let found = match () {
        _ if fault(Fault::GreatestRuleFirst) => first_by(list, |at, number| if at % 2 == 1 { !number } else { number }),
        _ if fault(Fault::LargestCoverFirst) => first_by(list, |at, number| if at % 2 == 0 { !number } else { number }),
        _ if fault(Fault::FirstHandsOutTheSecond) => list.get(1).or(list.first()),
        _ if fault(Fault::FirstHandsOutTheLast) => list.last(),
        _ => list.first(),
    };
    match found {
        _ if fault(Fault::FirstNeverLooks) => Given::NoDerivation,
        Some(row) => Given::Row(row.clone()),
        None if fault(Fault::ThirteenForgotten) => Given::NoDerivation,
        None if tree || fault(Fault::ThirteenWithoutATree) => Given::Refused(13),
        None => Given::NoDerivation,
    }
}

/// The first row in another order: by these numbers instead of those of the row. Only faults use it.
fn first_by(list: &[Row], key: impl Fn(usize, u16) -> u16) -> Option<&Row> {
    list.iter().min_by_key(|row| row.iter().enumerate().map(|(at, number)| key(at, *number)).collect::<Row>())
}

/// Next, offered any row.
pub fn next(list: &[Row], offered: &[u16]) -> Given {
    let row = |place: usize| Given::Row(list[place].clone());
    match list.iter().position(|row| row == offered) {
        None if fault(Fault::TwelveForgotten) => Given::NoneLeft,
        None if fault(Fault::TwelveForTheEmptyRowForgotten) && offered.is_empty() && !list.is_empty() => row(0),
        None if fault(Fault::EmptyCopyOfTheEmptyInputGoesOn) && offered.is_empty() && of_the_empty_input(list) => {
            row(0)
        }
        None if fault(Fault::TwelveFindsTheLater) => {
            list.iter().position(|row| row[..] > *offered).map_or(Given::Refused(12), row)
        }
        None => Given::Refused(12),
        Some(place) if fault(Fault::NextSkipsOne) && place + 2 < list.len() => row(place + 2),
        Some(place) if fault(Fault::NextBeginsAgain) && place + 1 == list.len() => row(0),
        Some(place) if fault(Fault::LastLeftOut) && place + 2 == list.len() => Given::NoneLeft,
        Some(place) if fault(Fault::NextGoesBack) && place > 0 => row(place - 1),
        Some(0) if fault(Fault::NoneAfterTheFirst) => Given::NoneLeft,
        Some(place) if fault(Fault::NextHandsBack) => row(place),
        Some(place) if place + 1 < list.len() => row(place + 1),
        Some(_) => Given::NoneLeft,
    }
}

/// Whether the derivations cover nothing. Only a fault asks.
fn of_the_empty_input(list: &[Row]) -> bool {
    list.first().is_some_and(|row| row[0] == 0)
}

/// Count.
pub fn count(list: &[Row], tree: bool) -> Given {
    match counted(list) {
        0 if fault(Fault::CountThirteenForgotten) => Given::Count(0),
        0 if tree || fault(Fault::CountThirteenWithoutATree) => Given::Refused(13),
        4096 if fault(Fault::MoreAt4096) => Given::More,
        4097 if fault(Fault::CountedAt4097) => Given::Count(4097),
        n if n <= 4096 => Given::Count(n),
        _ => Given::More,
    }
}

/// How many there are.
fn counted(list: &[Row]) -> usize {
    let new_build = |at: &usize| !list[..*at].iter().any(|row| same_build(row, &list[*at]));
    match list.len() {
        n if fault(Fault::CountInvented) => n + 1,
        n if fault(Fault::CountOneLess) => n.saturating_sub(1),
        n if fault(Fault::CountByItsLowByte) => n % 256,
        n if fault(Fault::BuildsCounted) => (0..n).filter(new_build).count(),
        n => n,
    }
}

/// The four calls of the walk.
#[derive(Clone, Copy, PartialEq, Eq, Debug)]
pub enum Call {
    First,
    NextWithCopy,
    NextWithNoDerivation,
    Count,
}

/// The walk of demand 3: a plain machine that is given only which of the four calls comes.
pub struct Walk {
    pub list: Vec<Row>,
    pub tree: bool,
    pub place: usize,
}

impl Walk {
    pub fn call(&mut self, call: Call) -> Given {
        let n = self.list.len();
        match call {
            Call::First if n > 0 => {
                self.place = 1;
                Given::Row(self.list[0].clone())
            }
            Call::First if self.tree => Given::Refused(13),
            Call::First => Given::NoDerivation,
            Call::NextWithCopy if self.place == 0 => Given::Refused(12),
            Call::NextWithCopy if self.place < n => {
                self.place += 1;
                Given::Row(self.list[self.place - 1].clone())
            }
            Call::NextWithCopy => Given::NoneLeft,
            Call::NextWithNoDerivation => Given::Refused(12),
            Call::Count if n == 0 && self.tree => Given::Refused(13),
            Call::Count if n <= 4096 => Given::Count(n),
            Call::Count => Given::More,
        }
    }
}
