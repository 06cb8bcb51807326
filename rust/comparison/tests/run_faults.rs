//! Runs that are wrong in one point are found out, by the comparison and, if
//! both sides are wrong, by the demand.

mod finding;
mod plain_run;

use comparison::readers::{Reader, Readers};
use finding::{classes, finder, tried};
use plain_run::Fault;

/// Implementations, each with one of the faults.
macro_rules! wrong {
    ($($fault:ident)*) => {
        [$((
            Fault::$fault,
            Reader {
                run: |table, choices, bytes| {
                    plain_run::run(table, choices, bytes, Fault::$fault)
                },
                ..Reader::second()
            },
        )),*]
    };
}

/// The classes of runs without stored answers.
fn of_runs(name: &str) -> bool {
    name.starts_with("runs ")
        || name == "budgets: runs"
        || name == "finish ticks: works of several statements"
}

#[test]
fn the_plain_run_agrees_with_the_second() {
    let [(_, library)] = wrong![None];
    let second = Reader::second();
    for class in classes(of_runs) {
        let readers = Readers { library, second };
        assert_eq!(tried(&readers, class), Ok(()), "{}", class.name);
    }
}

#[test]
fn each_fault_is_found() {
    let faults = wrong![
        TieToLastTried WindowOfOneTick LowForgotten HighForgotten DataForgotten
        BudgetForgotten BudgetOneTickMore BudgetOneTickLess BudgetFromEntry
        FailureForgotten KeptNeverForgotten EntersWhenWorkFinishes ReadyFromWorkOn
        AgesByWindow AgesByReady ZeroForgotten ClocksOf16Bits PairedForgotten
        PairedNeverForgotten PairsRun SleepsShorter ListensShorter TickWhileSleepDue
        TickWhileListenDue AbsentNodeWaits OtherByteIsTick
        ListenerListensOn NeverLateAtWork NeverLateForSleep LateAtEnd LateOneTickLater
        LateOnceWorkIsDone HighestLateNode LateBeforeNotAllowed HorizonBeforeLate
        LateTickNotCounted UsedUpBeforeHorizon GoesOnBehindHorizon HorizonOneTickLater
        ForbiddenIsCounted NodeOfForbidden ClocksAtEntry ClocksAtEnd AbsentClocksGrow
        DestinationShown WrittenAfterWork VariablesLittleEndian FirstFinish0
        FinishOfTheFirstUpdate FinishAtReady FinishAtEnd FinishNotNotedForTimeout
        FinishNotNotedForMessage FinishOfTheWorkBefore FinishLittleEndian
    ];
    let mut missed = Vec::new();
    for (fault, reader) in faults {
        let by_comparison = finder(of_runs, reader, Reader::second());
        let by_demand = finder(of_runs, reader, reader);
        println!("{fault:?}: {by_comparison:?}, {by_demand:?}");
        if by_comparison.is_none() || by_demand.is_none() {
            missed.push(fault);
        }
    }
    assert_eq!(missed, []);
}

/// One side alone refuses a run with too few bytes. The demand knows nothing of what was
/// lent, so that it finds nothing where both sides take place.
#[test]
fn room_for_32_bytes_is_found() {
    let [(_, reader)] = wrong![RoomFor32Bytes];
    assert!(finder(of_runs, reader, Reader::second()).is_some());
}
