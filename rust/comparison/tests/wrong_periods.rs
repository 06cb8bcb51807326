//! Pairs and runs to a horizon that are wrong in one point are found out.

mod finding;
mod plain_period;

use comparison::readers::{Reader, Readers};
use finding::{classes, finder, tried};
use plain_period::Fault;

/// Implementations, each with one of the faults of the pair.
macro_rules! wrong_pairs {
    ($($fault:ident)*) => {
        [$((Fault::$fault, Reader {
            period: |table| plain_period::asked(table, Fault::$fault),
            ..Reader::second()
        })),*]
    };
}

/// Implementations, each with one of the faults of the run.
macro_rules! wrong_runs {
    ($($fault:ident)*) => {
        [$((Fault::$fault, Reader {
            run_to: |table, choices, horizon, observations| {
                plain_period::run_to(table, choices, horizon, observations, Fault::$fault)
            },
            ..Reader::second()
        })),*]
    };
}

/// The classes of tables that are made at random; the largest horizon takes the plain
/// version too long.
fn drawn(class: &str) -> bool {
    class.starts_with("what comes again: ")
        && !class.ends_with("stored tables")
        && !class.ends_with("the largest horizon")
}

/// The classes in which ticks or choices are many.
fn large(class: &str) -> bool {
    class == "what comes again: the largest horizon"
}

/// The class of stored requests.
fn stored(class: &str) -> bool {
    class == "programs, parts and runs of the vectors"
}

#[test]
fn the_plain_version_agrees_with_the_second() {
    let [(_, pairs)] = wrong_pairs![None];
    let [(_, runs)] = wrong_runs![None];
    let library = Reader {
        period: pairs.period,
        ..runs
    };
    let second = Reader::second();
    for class in classes(drawn).chain(classes(stored)) {
        let readers = Readers { library, second };
        assert_eq!(tried(&readers, class), Ok(()), "{}", class.name);
    }
}

/// Which of these faults no class finds, or none of the vectors.
fn missed(faults: &[(Fault, Reader)], only_drawn: &[Fault]) -> Vec<Fault> {
    let mut missed = Vec::new();
    for (fault, reader) in faults {
        let by_drawn = finder(drawn, *reader, Reader::second());
        let by_stored = finder(stored, *reader, Reader::second());
        println!("{fault:?}: {by_drawn:?}, {by_stored:?}");
        if by_drawn.is_none() || by_stored.is_none() && !only_drawn.contains(fault) {
            missed.push(*fault);
        }
    }
    missed
}

#[test]
fn each_fault_of_the_pair_is_found() {
    let faults = wrong_pairs![
        LastClockForgotten AbsentClocksCompared VariablesForgotten FirstLocationAlone
        LocationsForgotten MessagesCompared StartLeftOut FirstComponentAlone UpToTheHorizon
        LastPair LeastFromFirst TicksInPlaceOfTo
    ];
    assert_eq!(missed(&faults, &[]), []);
}

#[test]
fn each_fault_of_the_run_is_found() {
    let faults = wrong_runs![
        EndsAtOwnHorizon OneTickLess NeverLateBeyond ReadiesNotMoved ReadiesFromRowZero
        ReadiesOneRowTooMany CountsOwnPassages CountsAPeriodMore CountsEndsBelow ThirteenFirst
        OwnHorizonRefused BeyondWithoutPair ZeroIsOwn
    ];
    let only_drawn = [Fault::NeverLateBeyond];
    assert_eq!(missed(&faults, &only_drawn), []);
}

/// What shows with many choices or past 65,535 ticks alone.
#[test]
fn faults_of_large_numbers_are_found() {
    let faults = wrong_runs![SixteenBits FourteenApplies];
    for (fault, reader) in faults {
        assert!(
            finder(large, reader, Reader::second()).is_some(),
            "{fault:?}"
        );
    }
}
