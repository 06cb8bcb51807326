//! What the classes find: the first that tells two implementations apart.
#![allow(dead_code)]

use comparison::classes::{Class, Extent, CLASSES};
use comparison::compare_class;
use comparison::difference::{Difference, Outcome, Stop};
use comparison::random::Random;
use comparison::readers::{Reader, Readers};

/// How much of a class is tried.
const EXTENT: Extent = Extent {
    rounds: 20,
    step: 41,
};

/// The classes whose names pass a test.
pub fn classes(named: fn(&str) -> bool) -> impl Iterator<Item = &'static Class> {
    CLASSES.iter().filter(move |class| named(class.name))
}

/// Tries a class.
pub fn tried(readers: &Readers, class: &Class) -> Outcome {
    let mut random = Random::new(Random::SEED);
    compare_class(readers, class, &mut random, &EXTENT).map(|_| ())
}

/// The first of these classes that finds a difference, and what it finds.
fn found(
    named: fn(&str) -> bool,
    library: Reader,
    second: Reader,
) -> Option<(&'static str, Difference)> {
    let readers = Readers { library, second };
    classes(named).find_map(|class| match tried(&readers, class) {
        Err(Stop::Differs(difference)) => Some((class.name, *difference)),
        _ => None,
    })
}

/// The name of that class.
pub fn finder(named: fn(&str) -> bool, library: Reader, second: Reader) -> Option<&'static str> {
    found(named, library, second).map(|(name, _)| name)
}

/// The difference that it finds.
pub fn difference(named: fn(&str) -> bool, library: Reader, second: Reader) -> Option<Difference> {
    found(named, library, second).map(|(_, difference)| difference)
}
