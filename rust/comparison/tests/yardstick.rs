//! The yardstick of speed: held to the answers of the vectors and the corpus,
//! and against the library on a few cases of each class.

use comparison::classes::{Class, Extent, CLASSES};
use comparison::random::Random;
use comparison::readers::{Reader, Readers};
use comparison::{compare, compare_class, gaps, Least};

/// What a short comparison has to try.
const LEAST: Least = Least {
    cases: 1000,
    runs: 500,
    of_each_kind: 1,
    of_each_hearing: 1,
    of_each_apart: 1,
    of_each_place: 1,
    of_each_path: 1,
    of_each_finish: 1,
    of_each_simulation: 1,
    of_each_export: 1,
    of_each_site: 1,
    of_each_period: 1,
};

/// The classes that hold both sides to stored answers.
const STORED: [&str; 3] = [
    "vectors",
    "corpus",
    "programs, parts and runs of the vectors",
];

#[test]
fn stored_answers_are_given() {
    let readers = Readers {
        library: Reader::yardstick(),
        second: Reader::yardstick(),
    };
    let stored = |class: &&Class| STORED.contains(&class.name);
    let classes: Vec<&Class> = CLASSES.iter().filter(stored).collect();
    assert_eq!(classes.len(), STORED.len());
    for class in classes {
        let mut random = Random::new(Random::SEED);
        let tally = compare_class(&readers, class, &mut random, &Extent::SHORT).unwrap();
        assert!(!tally.is_empty(), "{}", class.name);
    }
}

#[test]
fn second_implementation_and_yardstick_agree() {
    let readers = Readers {
        library: Reader::yardstick(),
        second: Reader::second(),
    };
    let tallies = compare(&readers, 4, &Extent::SHORT, |_| {}).unwrap();
    assert_eq!(gaps(&tallies, &LEAST), Vec::<String>::new());
}

#[test]
fn library_and_yardstick_agree() {
    for seed in [Random::SEED, 1, 2, 3] {
        let tallies = compare(&Readers::fast(), seed, &Extent::SHORT, |_| {}).unwrap();
        assert_eq!(gaps(&tallies, &LEAST), Vec::<String>::new());
    }
}
