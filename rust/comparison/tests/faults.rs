//! Implementations that are wrong in one point are found out.

mod plain;

use comparison::classes::{Class, Extent, CLASSES};
use comparison::compare_class;
use comparison::difference::{Outcome, Stop};
use comparison::random::Random;
use comparison::readers::{Reader, Readers};
use plain::Fault;

/// Implementations, each with one of the faults.
macro_rules! wrong {
    ($($fault:ident)*) => {
        [$((
            Fault::$fault,
            Reader {
                check: |table| plain::check(table, Fault::$fault),
                schedule: |table, list| plain::write(table, list, Fault::$fault),
                ..Reader::second()
            },
        )),*]
    };
}

const EXTENT: Extent = Extent {
    rounds: 20,
    step: 41,
};

/// The numbers of the classes that try tables: those before the stored programs and
/// runs, and those of budgets.
fn classes() -> Vec<usize> {
    let stored = |class: &Class| class.name == "programs, parts and runs of the vectors";
    let before = 0..CLASSES.iter().position(stored).unwrap();
    let budgets = |class: &usize| CLASSES[*class].name.starts_with("budgets ");
    before.chain((0..CLASSES.len()).filter(budgets)).collect()
}

/// Tries a class with an implementation in the library's place.
fn tried(library: Reader, class: usize) -> Outcome {
    let second = Reader::second();
    let readers = Readers { library, second };
    let mut random = Random::new(Random::SEED + class as u64);
    compare_class(&readers, &CLASSES[class], &mut random, &EXTENT).map(|_| ())
}

/// A class that finds the fault, all but vectors and corpus tried, the last
/// one first.
fn finder(library: Reader) -> Option<&'static str> {
    let finds = |class: &usize| matches!(tried(library, *class), Err(Stop::Differs(_)));
    let class = classes().into_iter().skip(2).rev().find(finds)?;
    Some(CLASSES[class].name)
}

#[test]
fn the_plain_implementation_agrees_with_the_second() {
    let [(_, right)] = wrong![None];
    for class in classes() {
        assert_eq!(tried(right, class), Ok(()), "{}", CLASSES[class].name);
    }
}

#[test]
fn each_fault_is_found() {
    let faults = wrong![
        TieToHighestEdge LastReadyTaken WindowOfOneTick BudgetsIgnored BudgetOneTickMore
        BudgetOneTickLess BudgetFromEntry BudgetOfFirstEdge BudgetOfTakenAlone HighsIgnored FirstBoundOnly DataIgnored
        DataUnsigned ClocksGrowByWindow AllClocksReset NoClockReset UpdatesFromTheEnd
        OverflowWraps OverflowFoundAtClosing TicksOf16Bits ClosesAtHorizon CloseTieToHighest
        OnePassageMore OnePassageLess SevenAfterEight SevenAfterNine
        MessageStartsTogether MessageEndsTogether MessageFromHorizonOn MessageAtHorizon
        MessageTieToHighest MessageTieToFirstOpened MessageEndingLast MessageOfOpenForgotten
        TimeoutToFirstPair BandsIgnored ChannelsForBands TouchingSendsAllowed OwnSendsCollide SendsFromHorizonOnCount
        SendsAtHorizonCount SendsEndingLaterForgotten ListenerStartsTogether
        ListenerEndsTogether SecondListenerAllowed TouchingListenerAllowed
        ListenersFromHorizonOnForgotten OwnListenerCounts OtherChannelHeard
        ListenersByBand TwoSendsOnTwoBandsHeard
        TwoSendsForOneListener TwoSendsOfOneComponent OwnSendHeard EntryTickMissed
        TwelveBeforeEleven ElevenBeforeTen LastAtFaultNamed ComponentsForWindows
        FirstOfSeveralDecides ElevenForAll LateForEarly SeveralForNobody EarlyForNobody
        EndBeforeStart MessageWrittenAs0 PassagesByEnd
    ];
    for (fault, library) in faults {
        let finder = finder(library);
        println!("{fault:?}: {finder:?}");
        assert!(finder.is_some(), "{fault:?} is not found");
    }
}
