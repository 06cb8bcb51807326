//! The safe call `check`: the worked example and what is next to it.

mod common;

use common::*;
use timed_network::{check, refusal_place, refused_opening, Part, Verdict, MAX_BUDGET};

#[test]
fn the_worked_example_is_accepted() {
    assert_eq!(check(&PROBE_AND_HUB), Verdict::Accepted);
}

#[test]
fn the_empty_table_is_refused() {
    assert_eq!(check(&[]), refused(1, 255));
}

#[test]
fn a_refusal_gives_its_number_and_its_component() {
    assert_eq!(check(&with(0, 4)), refused(1, 255));
    assert_eq!(check(&PROBE_AND_HUB[..102]), refused(2, 255));
    assert_eq!(check(&with(6, 0)), refused(3, 255));
    assert_eq!(check(&with(8, 37)), refused(4, 0));
    assert_eq!(check(&with(48, 3)), refused(5, 1));
}

#[test]
fn version_2_has_a_band_for_each_channel_behind_the_header() {
    let on_band = |band| {
        let mut table = PROBE_AND_HUB.to_vec();
        table[0] = 2;
        table[2] += 1;
        table.insert(7, band);
        table
    };
    for band in 0..=3 {
        assert_eq!(check(&on_band(band)), Verdict::Accepted);
    }
    assert_eq!(check(&on_band(4)), refused(3, 255));
    assert_eq!(check(&[2, 0, 7, 1, 1, 0, 20]), refused(3, 255));
    assert_eq!(check(&with(0, 2)), refused(4, 0));
}

/// A valve with the invariant x0 ≤ 10 and one edge, whose work needs so many ticks.
#[test]
fn version_3_has_a_budget_behind_each_edge_s_seven_bytes() {
    let valve = |budget: u16| {
        let mut table = vec![3, 0, 26, 1, 0, 0, 30, 0, 19, 1, 0, 1, 0, 1, 0, 0, 10];
        table.extend([0, 0, 0, 1, 0, 0, 0]);
        table.extend(budget.to_be_bytes());
        table
    };
    for budget in [0, 1, 9, 10] {
        assert_eq!(check(&valve(budget)), Verdict::Accepted, "{budget}");
    }
    for budget in [11, 59_999, MAX_BUDGET] {
        assert_eq!(check(&valve(budget)), refused(8, 0), "{budget}");
    }
    for budget in [MAX_BUDGET + 1, 65_535] {
        assert_eq!(check(&valve(budget)), refused(5, 0), "{budget}");
        let place = refusal_place(&valve(budget)).unwrap();
        assert_eq!((place.part, place.start), (Part::Budget, 24));
        assert_eq!((place.width, place.value), (2, budget.into()));
        assert_eq!((place.least, place.limit), (0, 60_001));
    }
    let opening = refused_opening(&valve(11)).unwrap();
    let edges = (opening.leaving, opening.blocked, opening.windowless);
    assert_eq!(edges, (1, 0, 1));
    let mut short = valve(5)[..25].to_vec();
    (short[2], short[8]) = (25, 18);
    assert_eq!(check(&short), refused(4, 0));
    assert_eq!(check(&with(0, 3)), refused(4, 0));
}

#[test]
fn refusals_of_the_worked_example_s_neighbours() {
    let hub_low_3 = with(70, 3);
    assert_eq!(check(&hub_low_3), refused(16, 0));
    let hub_bound_5 = with(54, 5);
    assert_eq!(check(&hub_bound_5), refused(17, 0));
    let probe_low_5 = with(29, 5);
    assert_eq!(check(&probe_low_5), refused(8, 0));
}

#[test]
fn verdicts_are_written_as_the_vectors_write_them() {
    assert_eq!(Verdict::Accepted.to_string(), "accepted");
    assert_eq!(refused(4, 1).to_string(), "refused 4 1");
}
