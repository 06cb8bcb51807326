//! Verdicts at a spread, largest spreads and lists of windows that met that are
//! wrong in one point are found out.

mod finding;
mod plain_spread;

use comparison::classes::{Extent, CLASSES};
use comparison::compare_class;
use comparison::difference::Stop;
use comparison::random::Random;
use comparison::readers::{
    second_check_spread, second_largest_spread, second_meetings_spread, Reader, Readers,
};
use finding::{classes, tried};
use plain_spread::Fault;
use timed_network::{Meetings, Verdict, FIELDS, MAX_SPREAD};

/// The classes of verdicts at a spread.
fn at_a_spread(name: &str) -> bool {
    name.ends_with(" at a spread")
}

/// One of them that finds a difference.
fn finder(library: Reader, second: Reader) -> Option<&'static str> {
    finding::finder(at_a_spread, library, second)
}

/// Implementations, each with one of the faults.
macro_rules! wrong {
    ($($fault:ident)*) => {
        [$((
            Fault::$fault,
            Reader {
                check_spread: |table, spread| plain_spread::check(table, spread, Fault::$fault),
                ..Reader::second()
            },
        )),*]
    };
}

#[test]
fn the_plain_check_agrees_with_the_second() {
    let [(_, library)] = wrong![None];
    assert_eq!(classes(at_a_spread).count(), 3);
    for class in classes(at_a_spread) {
        let second = Reader::second();
        let readers = Readers { library, second };
        assert_eq!(tried(&readers, class), Ok(()), "{}", class.name);
    }
}

#[test]
fn each_fault_is_found() {
    let faults = wrong![
        OneMore OneLess CloserThanTheSpread OnlyBehind SendsTogether ListenersTogether
        StartNotStrict EndNotStrict StartWithoutSpread EndWithoutSpread EndBeforeStart
        FirstDecides BandsIgnored PastTheHorizon ListenersToTheHorizon OwnWindows
        OneComponentOnce NeverCrowded
    ];
    for (fault, library) in faults {
        let found = finder(library, Reader::second());
        println!("{fault:?}: {found:?}");
        assert!(found.is_some(), "{fault:?} is not found");
    }
}

/// The answers of chains follow from their windows: a fault is found on both sides.
#[test]
fn faults_of_both_sides_are_found() {
    let faults = wrong![
        OneMore CloserThanTheSpread OnlyBehind SendsTogether ListenersTogether StartNotStrict
        EndNotStrict StartWithoutSpread EndWithoutSpread EndBeforeStart FirstDecides BandsIgnored
        PastTheHorizon ListenersToTheHorizon OwnWindows OneComponentOnce NeverCrowded
    ];
    for (fault, reader) in faults {
        assert!(finder(reader, reader).is_some(), "{fault:?} is not found");
    }
}

/// The order of 19 and 1 to 6 is seen on the tables of other classes.
#[test]
fn an_other_place_of_19_is_found() {
    let named = |name: &str| CLASSES.iter().find(|class| class.name == name).unwrap();
    let extent = Extent {
        rounds: 100,
        step: 1,
    };
    for (fault, library) in wrong![BeforeTheHeader AfterReading] {
        let second = Reader::second();
        let readers = Readers { library, second };
        let class = named("worked example, one byte changed");
        let mut random = Random::new(Random::SEED);
        let outcome = compare_class(&readers, class, &mut random, &extent);
        assert!(matches!(outcome, Err(Stop::Differs(_))), "{fault:?}");
    }
}

fn with_largest(largest_spread: fn(&[u8]) -> Result<u32, Verdict>) -> Reader {
    Reader {
        largest_spread,
        ..Reader::second()
    }
}

/// The largest spread, changed if there is one.
fn largest(table: &[u8], change: fn(u32) -> u32) -> Result<u32, Verdict> {
    second_largest_spread(table).map(change)
}

#[test]
fn wrong_largest_spreads_are_found_out() {
    let all: [fn(&[u8]) -> Result<u32, Verdict>; 5] = [
        |table| largest(table, |spread| spread + 1),
        |table| largest(table, |spread| spread.saturating_sub(1)),
        |table| largest(table, |spread| spread.min(MAX_SPREAD - 1)),
        |table| largest(table, |spread| spread & 255),
        |table| second_largest_spread(table).or(Ok(0)),
    ];
    for (place, call) in all.into_iter().enumerate() {
        let found = finder(with_largest(call), Reader::second());
        assert!(found.is_some(), "{place}");
        // Also on both sides: that spread and the next one are tried.
        let found = finder(with_largest(call), with_largest(call));
        assert!(found.is_some(), "{place}");
    }
}

/// Lists the windows that met without a spread.
fn at_0(table: &[u8], spread: u32, list: &mut [u32]) -> Meetings {
    Meetings {
        table: second_check_spread(table, spread),
        ..second_meetings_spread(table, 0, list)
    }
}

/// Lists the one at fault last.
fn at_fault_last(table: &[u8], spread: u32, list: &mut [u32]) -> Meetings {
    let answer = second_meetings_spread(table, spread, list);
    if answer.size > 1 {
        list[..FIELDS * answer.size].rotate_left(FIELDS);
    }
    answer
}

/// Asks for one number more.
fn wants_more(table: &[u8], spread: u32, list: &mut [u32]) -> Meetings {
    match list.split_last_mut() {
        Some((_, list)) => second_meetings_spread(table, spread, list),
        None => second_meetings_spread(table, spread, list),
    }
}

/// Judges the table as accepted where the list is too short.
fn short_is_accepted(table: &[u8], spread: u32, list: &mut [u32]) -> Meetings {
    let answer = second_meetings_spread(table, spread, list);
    match answer.verdict {
        Verdict::Accepted => answer,
        _ => Meetings {
            table: Verdict::Accepted,
            ..answer
        },
    }
}

/// Clears the list that is too short.
fn clears(table: &[u8], spread: u32, list: &mut [u32]) -> Meetings {
    let answer = second_meetings_spread(table, spread, list);
    if answer.verdict != Verdict::Accepted {
        list.fill(0);
    }
    answer
}

#[test]
fn wrong_lists_are_found_out() {
    let all = [at_0, at_fault_last, wants_more, short_is_accepted, clears];
    for (place, meetings_spread) in all.into_iter().enumerate() {
        let second = Reader::second();
        let library = Reader {
            meetings_spread,
            ..second
        };
        assert!(finder(library, second).is_some(), "{place}");
    }
}
