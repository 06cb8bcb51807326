//! The worked example of document 01, "Probe and hub", with all its cases.

mod common;

use common::*;
use reference::calls;
use reference::checks::verdict;
use reference::program::{decode, part_bytes, program};
use reference::run::{End, Outcome, OBSERVATION};
use reference::schedule::print;
use reference::table::*;

const PRINTED: &str = "\
c e l entry ready end msg
0 0 0 0 3 5 0
1 0 0 0 2 6 0
0 1 1 5 8 10 -
1 1 1 6 9 10 -
0 0 0 10 13 15 0
1 0 0 10 12 16 0
0 1 1 15 18 20 -
1 1 1 16 19 20 -
";

/// The refusal of the example changed by a test, if it is refused.
fn changed(change: impl Fn(&mut Table)) -> Option<Refusal> {
    let mut table = probe_and_hub_table();
    change(&mut table);
    verdict(&write_table(&table)).err()
}

fn set_low(edge: &mut Edge, low: u16) {
    edge.clock_bounds = [clock_bound(low, None)].into_iter().collect();
}

#[test]
fn the_table_has_103_bytes() {
    assert_eq!(write_table(&probe_and_hub_table()), probe_and_hub());
    assert_eq!(probe_and_hub().len(), 103);
}

#[test]
fn accepted_with_the_schedule_printed() {
    let (_, passages) = verdict(&probe_and_hub()).unwrap();
    assert_eq!(print(&passages), PRINTED);
    assert_eq!(calls::check(&probe_and_hub()), Ok(()));
}

#[test]
fn the_values_at_entry() {
    let (_, passages) = verdict(&probe_and_hub()).unwrap();
    let clocks: Vec<u32> = passages.iter().map(|p| p.clocks[0]).collect();
    assert_eq!(clocks, [0, 0, 5, 6, 0, 0, 5, 6]);
    let variables: Vec<i16> = passages.iter().map(|p| p.variables[0]).collect();
    assert_eq!(variables, [0, 0, 0, 0, 0, 1, 0, 1]);
}

#[test]
fn blocks_of_the_probe() {
    let bytes = program(&probe_and_hub_table());
    let code = &part_bytes(&bytes, 0)[6 + 2 * 4..];
    assert_eq!(hex(&code[..20]), "0a0000000c0000050b0000030f00000010000000");
    assert_eq!(
        hex(&code[40..60]),
        "0000000004000000070000000900000111000000"
    );
}

#[test]
fn the_whole_program() {
    let bytes = program(&probe_and_hub_table());
    let probe = 6 + 2 * 4 + 4 * 20;
    let hub = 6 + 2 * 6 + 4 * 32;
    assert_eq!(bytes.len(), 6 + probe + hub);
    let length = bytes.len() as u8;
    assert_eq!(bytes[..6], [1, 0, length, 2, 0, 20]);
    assert_eq!(bytes[6..14], [0, probe as u8, 2, 2, 0, 0, 0, 0]);
    let at = 6 + probe;
    assert_eq!(bytes[at..at + 6], [0, hub as u8, 3, 3, 0, 0]);
    let starts: Vec<u8> = bytes[at + 6..at + 18].to_vec();
    assert_eq!(starts, [0, 0, 0, 5, 0, 10, 0, 15, 0, 21, 0, 27]);
}

#[test]
fn the_hub_in_readable_form() {
    let bytes = program(&probe_and_hub_table());
    let lines = decode(part_bytes(&bytes, 1));
    let expected = "\
L0:|trial|high x0 <= 6|low x0 >= 2|keep e0|take|\
L1:|trial|high x0 <= 10|low x0 >= 9|keep e1|take|\
L2:|trial|high x0 <= 10|low x0 >= 9|keep e2|take|\
e0:|sleep|listen, 1 pairs|pair channel 0 to L1|age x0|enter L2|choose|\
e1:|sleep|add v0 + 1|done|zero x0|enter L0|choose|\
e2:|sleep|done|zero x0|enter L0|choose";
    let lines: Vec<&str> = lines.iter().map(|line| line.trim()).collect();
    assert_eq!(lines, expected.split('|').collect::<Vec<_>>());
}

#[test]
fn changes_that_are_refused() {
    let hub_low_3 = changed(|t| set_low(&mut t.components[1].edges[0], 3));
    assert_eq!(hub_low_3, Some(refused(16, 0)));
    let hub_bound_5 = changed(|t| t.components[1].locations[0].bound = 5);
    assert_eq!(hub_bound_5, Some(refused(17, 0)));
    let probe_low_5 = changed(|t| set_low(&mut t.components[0].edges[0], 5));
    assert_eq!(probe_low_5, Some(refused(8, 0)));
    assert_eq!(verdict(&[]).err(), Some(refused(1, 255)));
    assert_eq!(changed(|t| t.horizon = 0), Some(refused(3, 255)));
}

#[test]
fn no_choices() {
    let mut bytes = [0; 8 * OBSERVATION];
    let used_up = Outcome {
        end: End::UsedUp,
        node: 255,
        tick: 0,
        used: 0,
    };
    let answer = calls::run(&probe_and_hub(), &[], &mut bytes);
    assert_eq!(answer, Ok((used_up, 0)));
    assert_eq!(bytes, [0; 8 * OBSERVATION]);
}

#[test]
fn updates_at_the_border() {
    let updates = |first| {
        changed(move |t| {
            let updates = [(Operation::Set, first), (Operation::Add, 1)];
            t.components[1].edges[1].action = internal(&updates);
        })
    };
    assert_eq!(updates(32_767), Some(refused(9, 1)));
    assert_eq!(updates(32_766), None);
}

/// The decoder keeps bytes that are no statement.
#[test]
fn damaged_parts_are_decoded_too() {
    assert_eq!(decode(&[]), Vec::<String>::new());
    assert_eq!(decode(&[0, 6, 1, 0, 0, 0]), Vec::<String>::new());
    let part = [0, 15, 1, 0, 0, 0, 0, 1, 0x10, 0, 0, 0, 0x13, 1, 2, 3, 9];
    assert_eq!(decode(&part), ["  take", "L0:", "  13010203", "  09"]);
}
