//! The harness is not blind: the comparison must catch deliberate faults in the lister, and readers that leave a lent
//! place unwritten, over the books of the random test. The lister's files are compiled here again, with faults that
//! can be switched on. The comparison's own lister is the ordinary one.

mod faulty;
#[allow(dead_code)] // not all of it is called from here
#[path = "../src"]
mod compiled_again {
    pub mod lister;
}

use compiled_again::lister;
use faulty::forgetful::Forgets;
use faulty::switches::{self, switch_on, Fault};
use faulty::Faulty;
use outside_tests::books::book;
use outside_tests::compare::{
    compare_book, compare_boundary, compare_copies, compare_searches, compare_year_files, play_book, run_learning,
    run_list, Counts,
};
use outside_tests::reader::{self, Reader};
use std::sync::atomic::{AtomicUsize, Ordering};

/// A fault must be caught within this many books. After `SOME` of them come the books at the limit of count.
const WITHIN: u64 = 400;
const SOME: u64 = 40;

/// The seed of the first book that shows a difference, and the text of the difference.
fn caught(reader: &dyn Reader) -> Option<(u64, String)> {
    let mut random = (0..WITHIN).map(|seed| {
        let book = book(seed);
        let difference = compare_book(reader, &book, seed, &mut Counts::default());
        difference.err().map(|text| {
            let named = format!("seed {seed} ({}), book {:02X?}", book.style, book.bytes);
            assert!(text.starts_with(&named), "the seed and the book are not named: {text}");
            (seed, text)
        })
    });
    let boundary = || compare_boundary(reader).err().map(|text| (SOME, text));
    random.by_ref().take(SOME as usize).flatten().next().or_else(boundary).or_else(|| random.flatten().next())
}

/// Tries all cases on two threads. None may be missed.
fn all_caught<T: Sync>(cases: &[(String, T)], try_one: impl Fn(&T) -> Option<(u64, String)> + Sync) {
    let turn = AtomicUsize::new(0);
    let work = || {
        let mut missed = Vec::new();
        while let Some((name, case)) = cases.get(turn.fetch_add(1, Ordering::Relaxed)) {
            match try_one(case) {
                Some((seed, text)) => {
                    let what = text.split("]: ").last().unwrap_or(&text);
                    println!("{name}: caught by book {} ({})", seed + 1, what.chars().take(90).collect::<String>());
                }
                None => missed.push(name.clone()),
            }
        }
        missed
    };
    let mut missed = Vec::new();
    std::thread::scope(|scope| {
        let other = scope.spawn(work);
        missed.extend(work());
        missed.extend(other.join().expect("the other half ends"));
    });
    assert!(missed.is_empty(), "not caught within {WITHIN} books: {missed:?}");
}

#[test]
fn every_fault_is_caught() {
    let faults: Vec<(String, Fault)> = Fault::ALL.iter().map(|fault| (format!("{fault:?}"), *fault)).collect();
    assert!(faults.len() >= 435);
    all_caught(&faults, |fault| {
        switch_on(Some(*fault));
        caught(&Faulty::default())
    });
}

/// Faults where the list is too large for the lister: the library with one wrong answer.
#[cfg(feature = "library")]
#[test]
fn every_fault_with_large_lists_is_caught() {
    use faulty::large::Large;
    let readers = Large::ALL.map(|which| (format!("{which:?}"), which));
    all_caught(&readers, |which| caught(which));
}

#[test]
fn every_place_left_unwritten_is_caught() {
    let readers: Vec<(String, Forgets)> = Forgets::ALL.iter().map(|which| (format!("{which:?}"), *which)).collect();
    all_caught(&readers, |which| caught(which));
}

/// The faults that the walk of demand 3 must catch by itself.
#[test]
fn the_walk_alone_catches_what_it_has_to() {
    let faults = [
        Fault::FirstNeverLooks,
        Fault::ThirteenForgotten,
        Fault::FirstHandsOutTheLast,
        Fault::FirstGoesOn,
        Fault::NextHandsBack,
        Fault::NoneAfterTheFirst,
        Fault::NextSkipsOne,
        Fault::NextBeginsAgain,
        Fault::NextGoesBack,
        Fault::LastLeftOut,
        Fault::TwelveForgotten,
        Fault::TwelveFindsTheLater,
        Fault::OutputZeroWithNone,
        Fault::CountInvented,
        Fault::CountOneLess,
        Fault::CountThirteenForgotten,
        Fault::CountsWhatIsLeft,
        Fault::BuildsCounted,
        Fault::OrderReversed,
        Fault::FewerNodesFirst,
        Fault::RuleBeforeCover,
        Fault::ListingLimit513,
        Fault::ListingLimit511,
        Fault::LimitCountsTerminals,
        Fault::FewerTerminalsSuperfluous,
        Fault::ChildOfItsOwnKindLetThrough,
        Fault::EmptySiblingsSuperfluous,
        Fault::EmptyInputRefused,
        Fault::EmptyInputRefusedByNext,
        Fault::EmptyCopyOfTheEmptyInputGoesOn,
        Fault::ThirteenForgottenOnTheEmptyInput,
        Fault::ThirteenOnTheEmptyInputWithoutATree,
        Fault::EmptyRootRecursionListed,
        Fault::EmptyInputLeavesTheChart,
    ];
    all_caught(&faults.map(|fault| (format!("{fault:?}"), fault)), |fault| {
        switch_on(Some(*fault));
        let reader = Faulty::default();
        (0..WITHIN).find_map(|seed| {
            let difference = play_book(&reader, &book(seed), seed, 16, &mut Counts::default());
            difference.err().map(|text| (seed, text))
        })
    });
}

/// The faults that a list of operations must show by itself: by opening again and taking what remains.
#[test]
fn the_lists_alone_catch_what_they_have_to() {
    let faults = [
        Fault::NameByItsLowByte,
        Fault::NameByIts32Bits,
        Fault::NameSevenRefused,
        Fault::Name8Accepted,
        Fault::ReturnToName8,
        Fault::PointAtTheCountRefused,
        Fault::OnlySetPointsMoved,
        Fault::SetPointsStay,
        Fault::SetOnePastTheCount,
        Fault::SetOneBeforeTheCount,
        Fault::SetAgainDoesNotMove,
        Fault::SetSaysNo,
        Fault::SetSaysOfOneMarkLess,
        Fault::SetKeepsUnusedMarks,
        Fault::SetForgetsTheYear,
        Fault::SetDropsAnotherPoint,
        Fault::SetClearsItsColumn,
        Fault::ReturnToAnUnsetPoint,
        Fault::UnsetPointLeavesAll,
        Fault::PointAtNoMarksUnset,
        Fault::PointsBeyondKept,
        Fault::NextPointKept,
        Fault::TargetDropped,
        Fault::PointsAtTheTargetDropped,
        Fault::AllOtherPointsDropped,
        Fault::ClearedFromTheOwnColumn,
        Fault::FirstColumnSpared,
        Fault::Column64Spared,
        Fault::WholeSpansSpared,
        Fault::DiagonalSpared,
        Fault::ClearsBehindTheCells,
        Fault::ReturnSaysAsBefore,
        Fault::ReturnSaysNo,
        Fault::ReturnKeepsTheCount,
        Fault::ReturnKeepsTheMarksBeyond,
        Fault::ReturnForgetsTheYear,
        Fault::TakeForgetsThePoints,
        Fault::TakeDropsThePointAtTheCount,
        Fault::TakeMovesThePointAtTheCount,
    ];
    all_caught(&faults.map(|fault| (format!("{fault:?}"), fault)), |fault| {
        switch_on(Some(*fault));
        let reader = Faulty::default();
        (0..WITHIN).find_map(|seed| {
            let difference = run_list(&reader, &book(seed), seed, &mut Counts::default());
            difference.err().map(|text| (seed, text))
        })
    });
}

/// The faults that a list with learning must show by itself: by loading the book with the rules learnt, opening again and taking what
/// remains.
#[test]
fn the_lists_with_learning_alone_catch_what_they_have_to() {
    let faults = [
        Fault::NoBytesAreOne,
        Fault::NoBytesLearnt,
        Fault::NoBytesAtOne,
        Fault::NoRuleFirstIsThree,
        Fault::NameFirstIsThree,
        Fault::StartLearntFirst,
        Fault::TwentyOneOpensNoRule,
        Fault::AnotherRuleIsThree,
        Fault::AnotherRuleLearnt,
        Fault::AnotherRuleOf21Learnt,
        Fault::LaterStartIsThree,
        Fault::LaterStartLearnt,
        Fault::EndIsThree,
        Fault::EndIsSeven,
        Fault::EndLearnt,
        Fault::EndLearntAtTheEnd,
        Fault::UnknownFirstIsTwenty,
        Fault::UnknownLaterIsTwenty,
        Fault::OneBeforeTwentyFirst,
        Fault::OneBeforeTwentyLater,
        Fault::SecondNameLearnt,
        Fault::SecondNameIsTwenty,
        Fault::SecondNameIsSeventeen,
        Fault::OneWhereTheRuleEnds,
        Fault::CutCommandLeftOut,
        Fault::CutIsTwenty,
        Fault::OneAtTheCommand,
        Fault::LearnFourBeforeOne,
        Fault::LearnTwentyOneBeforeFour,
        Fault::LearnSixBeforeSixteen,
        Fault::LearnSixBeforeFour,
        Fault::LearnOffsetOfTheOperand,
        Fault::Kind32Learnt,
        Fault::ReversedYearsLearnt,
        Fault::ReversedRangeLearnt,
        Fault::NinthPlaceLearnt,
        Fault::NamesOfTheBookUnread,
        Fault::OnlyTheLastNameRead,
        Fault::LastNameUnread,
        Fault::FirstNameUnread,
        Fault::NamesOutOfForceUnread,
        Fault::OutOfForceRefused,
        Fault::OutOfForceNotLearnt,
        Fault::LearntUnderNumber0,
        Fault::LearntUnderTheLastOldNumber,
        Fault::LearntBeforeTheLastRule,
        Fault::LearntForAllYears,
        Fault::DepthAsFound,
        Fault::DepthOfTheOldRules,
        Fault::DepthInTheHandsYear,
        Fault::LearnDropsTheMarks,
        Fault::LearnKeepsUnusedMarks,
        Fault::LearnClearsThePoints,
        Fault::LearnDropsThePointAtTheCount,
        Fault::LearnForgetsTheYear,
        Fault::ChartAsFound,
        Fault::ChartOfTheOldGrammar,
        Fault::ChartOfAllYears,
        Fault::OnlyTheLastColumnFilled,
        Fault::LastColumnUnfilled,
        Fault::LearnWritesBehindTheCells,
        Fault::LearnSaysOfTheOldGrammar,
        Fault::LearnSaysNo,
        Fault::LearnSaysYes,
        Fault::OffsetZeroWhenLearnt,
        Fault::OffsetOfTheEndWhenLearnt,
        Fault::RefusedRuleClearsTheGrammar,
        Fault::RefusedRuleOpensARule,
        Fault::RefusedRuleTidiesTheHand,
        Fault::RefusedRuleClearsTheHand,
        Fault::RefusedRuleClearsTheChart,
    ];
    all_caught(&faults.map(|fault| (format!("{fault:?}"), fault)), |fault| {
        switch_on(Some(*fault));
        let reader = Faulty::default();
        (0..WITHIN).find_map(|seed| {
            let difference = run_learning(&reader, &book(seed), seed, &mut Counts::default());
            difference.err().map(|text| (seed, text))
        })
    });
}

/// The faults that a book with ranges and its copy without ranges must show by themselves.
#[test]
fn the_copied_rules_alone_catch_what_they_have_to() {
    let faults = [
        Fault::UpperEndExcluded,
        Fault::LowerEndExcluded,
        Fault::UpperEndUnread,
        Fault::OnlyTheLowEndFits,
        Fault::Tag2ATerminal,
        Fault::TwinsWithARangeMerged,
    ];
    all_caught(&faults.map(|fault| (format!("{fault:?}"), fault)), |fault| {
        switch_on(Some(*fault));
        let reader = Faulty::default();
        (0..WITHIN).find_map(|seed| {
            let difference = compare_copies(&reader, seed, &mut Counts::default());
            difference.err().map(|text| (seed, text))
        })
    });
}

/// The faults of the lister's search. No call shows it, so only the table of request U3 can catch them.
#[test]
fn every_fault_of_the_search_is_caught() {
    let faults: Vec<(String, Fault)> = Fault::OF_THE_SEARCH.iter().map(|of| (format!("{of:?}"), *of)).collect();
    let searched = |book: &[u8]| {
        let sought = lister::search::search(&lister::grammar::load(book).expect("the book loads"));
        (sought.set, sought.passes)
    };
    all_caught(&faults, |fault| {
        switch_on(Some(*fault));
        compare_searches(searched).err().map(|text| (0, text))
    });
    switch_on(None);
    compare_searches(searched).expect("no difference");
}

/// The faults of the program's file for the year. No call shows it, so only its table can catch them.
#[test]
fn every_fault_of_the_year_file_is_caught() {
    let faults: Vec<(String, Fault)> = Fault::OF_THE_YEAR_FILE.iter().map(|of| (format!("{of:?}"), *of)).collect();
    all_caught(&faults, |fault| {
        switch_on(Some(*fault));
        compare_year_files(lister::year::of_file).err().map(|text| (0, text))
    });
    switch_on(None);
    compare_year_files(lister::year::of_file).expect("no difference");
}

/// There is no difference over this many books.
fn passes(reader: &dyn Reader, books: u64) {
    for seed in 0..books {
        compare_book(reader, &book(seed), seed, &mut Counts::default()).expect("no difference");
    }
}

#[test]
fn without_a_fault_there_is_no_difference() {
    switch_on(None);
    passes(&Faulty::default(), 120);
    passes(&Forgets::Nothing, 120);
}
