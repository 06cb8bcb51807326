//! A short comparison: a few cases of each class.

use comparison::classes::{Extent, CLASSES};
use comparison::difference::{Expected, Stop};
use comparison::random::Random;
use comparison::readers::{refused, second_reader, second_schedule, Reader, Readers};
use comparison::tally::Tally;
use comparison::{compare, compare_class, gaps, Least};
use timed_network::{Call, Slots, Verdict};

/// What a short comparison has to try.
const LEAST: Least = Least {
    cases: 1000,
    runs: 500,
    of_each_kind: 1,
    of_each_hearing: 1,
    of_each_apart: 1,
    of_each_place: 1,
    of_each_path: 1,
    of_each_finish: 1,
    of_each_simulation: 1,
    of_each_export: 1,
    of_each_site: 1,
    of_each_period: 1,
};

fn short(readers: &Readers, seed: u64) -> Result<Vec<Tally>, Stop> {
    compare(readers, seed, &Extent::SHORT, |_| {})
}

#[test]
fn library_and_second_implementation_agree() {
    for seed in [Random::SEED, 1, 2, 3] {
        let tallies = short(&Readers::real(), seed).unwrap();
        assert_eq!(gaps(&tallies, &LEAST), Vec::<String>::new());
        assert_eq!(tallies.len(), CLASSES.len());
    }
}

#[test]
fn a_seed_gives_the_same_cases_again() {
    let tallies = |seed| short(&Readers::real(), seed).unwrap();
    assert_eq!(tallies(5), tallies(5));
    assert_ne!(tallies(5), tallies(6));
}

/// A reader that leaves a check out.
fn without<const NUMBER: u8>(table: &[u8]) -> Verdict {
    match second_reader(table) {
        Verdict::Refused { number, .. } if number == NUMBER => Verdict::Accepted,
        answer => answer,
    }
}

/// A reader that names component 0 for any other one.
fn names_component_0(table: &[u8]) -> Verdict {
    match second_reader(table) {
        Verdict::Refused { number, component } => refused(number, component & 128),
        answer => answer,
    }
}

/// A reader that says of everything what it says of the empty table.
fn refuses_all(_: &[u8]) -> Verdict {
    refused(1, 255)
}

/// A reader that says 11 of what it should accept.
fn gives_11(table: &[u8]) -> Verdict {
    match second_reader(table) {
        Verdict::Accepted => refused(11, 0),
        answer => answer,
    }
}

/// A reader that gives a number that there is not.
fn gives_13(table: &[u8]) -> Verdict {
    match second_reader(table) {
        Verdict::Accepted => refused(13, 255),
        answer => answer,
    }
}

/// A call that writes nothing and says that it did.
fn writes_nothing(table: &[u8], list: &mut [u32]) -> Call {
    second_schedule(table, &mut list.to_vec())
}

/// A call that clears the list that it refuses.
fn clears_after_refusal(table: &[u8], list: &mut [u32]) -> Call {
    let call = second_schedule(table, list);
    if call.verdict != Verdict::Accepted {
        list.fill(0);
    }
    call
}

/// A call that asks for one number more than it needs.
fn wants_more(table: &[u8], list: &mut [u32]) -> Call {
    match list.split_last_mut() {
        Some((_, list)) => second_schedule(table, list),
        None => second_schedule(table, list),
    }
}

/// Whether one of the classes tells the reader from the right one. The
/// vectors and the corpus, the first two classes, are left aside.
fn is_found_out(library: Reader) -> bool {
    let second = Reader::second();
    let readers = Readers { library, second };
    CLASSES[2..].iter().any(|class| {
        let mut random = Random::new(Random::SEED);
        let outcome = compare_class(&readers, class, &mut random, &Extent::SHORT);
        matches!(outcome, Err(Stop::Differs(_)))
    })
}

fn with_check(check: fn(&[u8]) -> Verdict) -> Reader {
    Reader {
        check,
        ..Reader::second()
    }
}

fn with_schedule(schedule: fn(&[u8], &mut [u32]) -> Call) -> Reader {
    Reader {
        schedule,
        ..Reader::second()
    }
}

#[test]
fn wrong_readers_are_found_out() {
    assert!(!is_found_out(Reader::second()));
    let checks = [without::<1>, without::<2>, without::<3>, without::<4>];
    let checks = checks.into_iter().chain([without::<5>, without::<6>]);
    let checks = checks.chain([without::<7>, without::<8>, without::<9>]);
    let checks = checks.chain([without::<10>, without::<11>, without::<12>]);
    let checks = checks.chain([without::<15>, without::<16>, without::<17>]);
    let checks = checks.chain([names_component_0, refuses_all, gives_11, gives_13]);
    for (place, check) in checks.enumerate() {
        assert!(is_found_out(with_check(check)), "{place}");
    }
}

#[test]
fn wrong_schedules_are_found_out() {
    assert!(is_found_out(with_schedule(writes_nothing)));
    assert!(is_found_out(with_schedule(clears_after_refusal)));
    assert!(is_found_out(with_schedule(wants_more)));
}

/// A chart whose first cell is another.
fn draws_another_cell(table: &[u8], chart: &mut [u8]) -> Call {
    let call = (Reader::second().timing_chart)(table, chart);
    if call.size > 0 {
        chart[4] ^= 1;
    }
    call
}

/// A chart whose 13 comes with one byte too few lent.
fn wants_68_a_row(table: &[u8], chart: &mut [u8]) -> Call {
    let mut ample = [0; 552];
    let call = (Reader::second().timing_chart)(table, &mut ample);
    if chart.len() < call.size / 69 * 68 {
        return (Reader::second().timing_chart)(table, chart);
    }
    let room = chart.len().min(call.size);
    chart[..room].copy_from_slice(&ample[..room]);
    call
}

#[test]
fn wrong_charts_are_found_out() {
    for timing_chart in [draws_another_cell, wants_68_a_row] {
        let second = Reader::second();
        assert!(is_found_out(Reader {
            timing_chart,
            ..second
        }));
    }
}

/// A plan that is written where n x (s + 2 x g) is the period.
fn plans_up_to_the_period(slots: Slots, table: &mut [u8]) -> Call {
    let wide = slots.slot.saturating_add(slots.guard.saturating_mul(2));
    let period = match slots.probes.saturating_mul(wide) == slots.period {
        true => slots.period + 1,
        false => slots.period,
    };
    (Reader::second().plan)(Slots { period, ..slots }, table)
}

/// A plan whose numbers are taken as 16 bits.
fn plans_16_bits(slots: Slots, table: &mut [u8]) -> Call {
    let slots = Slots {
        probes: slots.probes & 65_535,
        slot: slots.slot & 65_535,
        guard: slots.guard & 65_535,
        period: slots.period & 65_535,
    };
    (Reader::second().plan)(slots, table)
}

/// A plan whose hub listens as long as a probe sends: its bound is one guard
/// too low.
fn plans_a_short_listener(slots: Slots, table: &mut [u8]) -> Call {
    let call = (Reader::second().plan)(slots, table);
    if call.size > 0 {
        let bound = 7 + 38 * slots.probes as usize + 9;
        table[bound] = table[bound].wrapping_sub(slots.guard as u8);
    }
    call
}

/// A plan that refuses too few bytes before the numbers.
fn plans_13_first(slots: Slots, table: &mut [u8]) -> Call {
    let call = (Reader::second().plan)(slots, table);
    match call.verdict {
        Verdict::Refused { number: 18, .. } if table.is_empty() => Call {
            verdict: refused(13, 255),
            size: 0,
        },
        _ => call,
    }
}

#[test]
fn wrong_plans_are_found_out() {
    for plan in [
        plans_up_to_the_period,
        plans_16_bits,
        plans_a_short_listener,
        plans_13_first,
    ] {
        let second = Reader::second();
        assert!(is_found_out(Reader { plan, ..second }));
    }
}

#[test]
fn two_readers_that_are_wrong_in_the_same_way_are_found_out_by_the_vectors() {
    let readers = Readers {
        library: with_check(without::<6>),
        second: with_check(without::<6>),
    };
    let Err(Stop::Differs(difference)) = short(&readers, 1) else {
        panic!("no difference was found");
    };
    assert_eq!(difference.class, "vectors");
    assert_eq!(difference.library, difference.second);
    let text = difference.to_string();
    assert!(text.contains("\ncall: check\n"), "{text}");
    assert!(text.contains("\nlibrary: accepted\n"), "{text}");
    assert!(text.contains("\nexpected: refused 6 "), "{text}");
}

#[test]
fn two_schedules_that_are_wrong_in_the_same_way_are_found_out_by_the_vectors() {
    let readers = Readers {
        library: with_schedule(writes_nothing),
        second: with_schedule(writes_nothing),
    };
    let Err(Stop::Differs(difference)) = short(&readers, 1) else {
        panic!("no difference was found");
    };
    assert_eq!(
        (difference.class, &difference.call[..]),
        ("vectors", "schedule")
    );
    let expected = difference.expected.unwrap();
    assert!(
        expected.starts_with("[[0, 0, 0, 0, 10, 14, 0], "),
        "{expected}"
    );
}

#[test]
fn a_number_that_there_is_not_is_a_difference() {
    let readers = Readers {
        library: with_check(gives_13),
        second: with_check(gives_13),
    };
    assert!(matches!(short(&readers, 1), Err(Stop::Differs(_))));
}

#[test]
fn what_is_known_before_is_demanded() {
    let answers = [Verdict::Accepted, refused(6, 0), refused(7, 0)];
    let allowed = |expected: Expected| answers.map(|answer| expected.allows(answer));
    assert_eq!(allowed(Expected::Anything), [true, true, true]);
    assert_eq!(
        allowed(Expected::Verdict(refused(6, 0))),
        [false, true, false]
    );
    assert_eq!(allowed(Expected::Verdict(refused(6, 1))), [false; 3]);
    assert_eq!(allowed(Expected::Number(7)), [false, false, true]);
    assert_eq!(allowed(Expected::Past(6)), [true, false, true]);
    assert!(!Expected::Anything.allows(refused(13, 255)));
    assert!(!Expected::Anything.allows(refused(0, 255)));
}
