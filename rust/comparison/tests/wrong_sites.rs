//! Airtimes and sites that are wrong in one point are found out.

mod finding;
mod plain_site;

use comparison::readers::{Reader, Readers};
use finding::{classes, difference, finder, tried};
use plain_site::Fault;

/// Implementations, each with one of the faults.
macro_rules! wrong {
    ($($fault:ident)*) => {
        [$((Fault::$fault, Reader {
            airtime: |table| plain_site::airtime(table, Fault::$fault),
            site: |limit, calls| plain_site::sites(limit, calls, Fault::$fault),
            ..Reader::second()
        })),*]
    };
}

/// The classes of sites.
fn drawn(class: &str) -> bool {
    class.starts_with("sites of ")
}

/// The class of stored requests.
fn stored(class: &str) -> bool {
    class == "programs, parts and runs of the vectors"
}

/// The classes in which tables alone are tried.
fn tables(class: &str) -> bool {
    matches!(
        class,
        "planned tables" | "plans with windows moved" | "windows close together"
    )
}

#[test]
fn the_plain_site_agrees_with_the_second() {
    let [(_, library)] = wrong![None];
    let second = Reader::second();
    for class in classes(drawn).chain(classes(stored)) {
        let readers = Readers { library, second };
        assert_eq!(tried(&readers, class), Ok(()), "{}", class.name);
    }
}

#[test]
fn each_fault_is_found() {
    let faults = wrong![
        ReadyAtHorizon LastTickLeftOut CutAtHorizon ReceivesCount TouchingOnce SixteenBits
        AtSpread1 FullAtLimit OneAbove HorizonStays SilentHasNoHorizon PlaceBeforeTable
        HorizonBeforePlace AirtimeBeforeHorizon InUseBefore NothingInUse RefusedIsPutIn
        TakenInUse AirtimeKept PlaceModulo4 NextPlace LimitLowered EmptyIsTaken
        FilledIsReplaced TakesAllBehind NumberStays NamesComponent0 TwentyEightForBoth
    ];
    let mut missed = Vec::new();
    for (fault, reader) in faults {
        let by_drawn = finder(drawn, reader, Reader::second());
        let by_stored = finder(stored, reader, Reader::second());
        println!("{fault:?}: {by_drawn:?}, {by_stored:?}");
        let only_drawn = fault == Fault::SixteenBits;
        if by_drawn.is_none() || by_stored.is_none() && !only_drawn {
            missed.push(fault);
        }
    }
    assert_eq!(missed, []);
}

/// An airtime that is wrong is found with the tables too, without a site.
#[test]
fn wrong_airtimes_are_found_without_a_site() {
    for (fault, Reader { airtime, .. }) in wrong![LastTickLeftOut ReceivesCount CutAtHorizon] {
        let second = Reader::second();
        let reader = Reader { airtime, ..second };
        assert!(finder(tables, reader, second).is_some(), "{fault:?}");
    }
}

/// A difference is told with the calls up to it.
#[test]
fn a_difference_is_told() {
    let [(_, reader)] = wrong![LimitLowered];
    let told = difference(drawn, reader, Reader::second()).unwrap();
    assert!(told.call.starts_with("a site with the limit "), "{told}");
    assert!(told.call.contains(" bytes into "), "{told}");
    assert!(told.library.contains(" in use of "), "{told}");
}
