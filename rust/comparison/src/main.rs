//! The comparison as a program: `comparison [SEED [CLASS]]`. The library is held
//! against the second implementation, then, on a share of the same cases,
//! against the yardstick of speed. With CLASS, only the classes are tried that
//! have it in their names.
//!
//! Exit status 0: no difference; 1: a difference, or, where all classes are
//! tried, something that had to be tried was not; 2: wrong use, or a file that
//! cannot be read.
#![forbid(unsafe_code)]

use comparison::classes::Extent;
use comparison::difference::Stop;
use comparison::random::Random;
use comparison::readers::Readers;
use comparison::tally::Tally;
use comparison::{cases, compare_named, gaps, Least};
use std::env;
use std::process::ExitCode;

/// The comparison with the second implementation has to try at least so much.
const LEAST: Least = Least {
    cases: 100_000,
    runs: 50_000,
    of_each_kind: 500,
    of_each_hearing: 1_000,
    of_each_apart: 400,
    of_each_place: 400,
    of_each_path: 400,
    of_each_finish: 2_000,
    of_each_simulation: 400,
    of_each_export: 400,
    of_each_site: 1_000,
    of_each_period: 400,
};
/// The comparison with the yardstick has to try at least so much.
const LEAST_SHARE: Least = Least {
    cases: 20_000,
    runs: 10_000,
    of_each_kind: 100,
    of_each_hearing: 100,
    of_each_apart: 50,
    of_each_place: 60,
    of_each_path: 60,
    of_each_finish: 300,
    of_each_simulation: 60,
    of_each_export: 60,
    of_each_site: 150,
    of_each_period: 60,
};

fn main() -> ExitCode {
    let words: Vec<String> = env::args().skip(1).collect();
    let Some((seed, name)) = asked(&words) else {
        eprintln!("usage: comparison [SEED [CLASS]], where SEED is a whole number from 0");
        return ExitCode::from(2);
    };
    println!("seed: {seed}");
    println!("the library against the second implementation:");
    let agree = hold(&Readers::real(), (seed, name), &Extent::FULL, &LEAST);
    if agree != ExitCode::SUCCESS {
        return agree;
    }
    println!("the library against the yardstick, a share of the same cases:");
    hold(&Readers::fast(), (seed, name), &Extent::SHARE, &LEAST_SHARE)
}

/// Compares two implementations, and tells the first difference.
fn hold(readers: &Readers, (seed, name): (u64, &str), extent: &Extent, least: &Least) -> ExitCode {
    let show = |tally: &Tally| println!("{tally}");
    match compare_named(readers, seed, extent, name, show) {
        Ok(tallies) => conclude(&tallies, least, name),
        Err(Stop::Differs(difference)) => {
            println!("comparison: {difference}");
            ExitCode::from(1)
        }
        Err(Stop::Unreadable(problem)) => {
            eprintln!("comparison: {problem}");
            ExitCode::from(2)
        }
    }
}

/// The seed given, or the fixed one, and what the classes' names have to have;
/// nothing if the words are not understood.
fn asked(words: &[String]) -> Option<(u64, &str)> {
    match words {
        [] => Some((Random::SEED, "")),
        [word] => Some((word.parse().ok()?, "")),
        [word, name] => Some((word.parse().ok()?, name)),
        _ => None,
    }
}

/// The last lines, after all classes went through without a difference.
fn conclude(tallies: &[Tally], least: &Least, name: &str) -> ExitCode {
    let sum = Tally::sum(tallies);
    println!("{sum}");
    let (count, way) = sum.places.rarest();
    println!("checks 4 to 9, the rarest: {count} {way}");
    let gaps = match name {
        "" => gaps(tallies, least),
        _ => Vec::new(),
    };
    for gap in &gaps {
        println!("comparison: {gap}");
    }
    if gaps.is_empty() {
        let [cases, verdicts, runs, paths] = cases(tallies);
        println!(
            "comparison: {cases} cases, {verdicts} verdicts at spreads, {runs} runs, \
             {paths} paths, 0 differences"
        );
        ExitCode::SUCCESS
    } else {
        ExitCode::from(1)
    }
}
