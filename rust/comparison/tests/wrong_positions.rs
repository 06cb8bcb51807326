//! Positions that are wrong in one point are found out.

mod finding;
mod position_faults;

use comparison::readers::{second_positions, Positions, Reader};
use finding::finder;
use position_faults::*;

/// Classes of tables with pairs that are drawn; of refused ones too.
fn generated(class: &str) -> bool {
    let drawn = class.starts_with("positions: ") && class != "positions: stored tables";
    drawn || ["schedules near 1,024 passages", "well-formed tables"].contains(&class)
}

/// The class of stored requests.
fn stored(class: &str) -> bool {
    class == "programs, parts and runs of the vectors"
}

/// Whether a class finds positions that are wrong.
fn finds(classes: fn(&str) -> bool, positions: Positions) -> bool {
    let second = Reader::second();
    let library = Reader {
        positions,
        ..second
    };
    finder(classes, library, second).is_some()
}

const FAULTS: [(&str, Positions); 28] = [
    ("before_its_end_counts", before_its_end_counts),
    ("ready_is_before", ready_is_before),
    ("own_number", own_number),
    ("latest_of_all", latest_of_all),
    ("low_byte_first", low_byte_first),
    ("backwards", backwards),
    ("reads_all", reads_all),
    ("reads_one_more", reads_one_more),
    ("reads_to_the_first_tick", reads_to_the_first_tick),
    ("reads_without_a_pair", reads_without_a_pair),
    ("reads_before_the_tick", reads_before_the_tick),
    ("reads_own_ones", reads_own_ones),
    ("twenty_four_before_21", twenty_four_before_21),
    ("all_21_first", all_21_first),
    ("last_bad_pair", last_bad_pair),
    ("equal_ticks_fall", equal_ticks_fall),
    ("below_the_first_falls", below_the_first_falls),
    ("unsorted_taken", unsorted_taken),
    ("tick_h", tick_h),
    ("component_of_8_bits", component_of_8_bits),
    ("tick_of_16_bits", tick_of_16_bits),
    ("thirteen_first", thirteen_first),
    ("names_a_component", names_a_component),
    ("pairs_before_the_table", pairs_before_the_table),
    ("writes_before_it_refuses", writes_before_it_refuses),
    ("writes_what_fits", writes_what_fits),
    ("wants_one_more", wants_one_more),
    ("wants_bytes_for_none", wants_bytes_for_none),
];

#[test]
fn each_fault_is_found_by_pairs_drawn() {
    let mut missed = Vec::new();
    for (name, fault) in FAULTS.iter().chain(&[LEFT_OVER]) {
        if !finds(generated, *fault) {
            missed.push(*name);
        }
    }
    assert_eq!(missed, [""; 0]);
    assert!(!finds(generated, second_positions));
}

/// No vector has a number left over.
const LEFT_OVER: (&str, Positions) = ("left_over_is_a_pair", left_over_is_a_pair);

#[test]
fn each_fault_is_found_by_the_vectors() {
    let mut missed = Vec::new();
    for (name, fault) in FAULTS {
        if !finds(stored, fault) {
            missed.push(name);
        }
    }
    assert_eq!(missed, [""; 0]);
    assert!(!finds(stored, second_positions));
}
