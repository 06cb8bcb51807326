//! The program: parts of damaged bytes, statements, and lengths.

mod common;

use common::*;
use reference::program::*;
use reference::table::*;

#[test]
fn parts_of_the_example() {
    let bytes = program(&probe_and_hub_table());
    assert_eq!(part(&bytes, 0), (6, 94));
    assert_eq!(part(&bytes, 1), (100, 146));
    assert_eq!(bytes.len(), 246);
    assert_eq!(part(&bytes, 2), (0, 0));
    assert_eq!(part(&bytes, 255), (0, 0));
    assert_eq!(part_bytes(&bytes, 1), &bytes[100..]);
    assert_eq!(part_bytes(&bytes, 2), &[0u8; 0]);
}

/// Cut at every place: a part is there when all its bytes are.
#[test]
fn parts_of_bytes_that_run_out() {
    let bytes = program(&probe_and_hub_table());
    for length in 0..=bytes.len() {
        let cut = &bytes[..length];
        let first = if length >= 100 { (6, 94) } else { (0, 0) };
        let second = if length >= 246 { (100, 146) } else { (0, 0) };
        assert_eq!(part(cut, 0), first, "{length}");
        assert_eq!(part(cut, 1), second, "{length}");
    }
}

#[test]
fn only_the_count_and_the_lengths_are_tried() {
    let mut bytes = program(&probe_and_hub_table());
    bytes[0] = 9;
    bytes[1] = 255;
    bytes[8..14].fill(255);
    assert_eq!(part(&bytes, 1), (100, 146));
    bytes[3] = 255;
    assert_eq!(part(&bytes, 1), (100, 146));
    assert_eq!(part(&bytes, 2), (0, 0));
    bytes[3] = 1;
    assert_eq!(part(&bytes, 1), (0, 0));
    bytes[3] = 0;
    assert_eq!(part(&bytes, 0), (0, 0));
}

/// "A stated length of 0 or 1 is taken as it is".
#[test]
fn short_lengths_are_taken_as_they_are() {
    let one = unhex("0100080100140001");
    assert_eq!(part_bytes(&one, 0), &[0]);
    let zero = unhex("010008050014000000");
    assert_eq!(part_bytes(&zero, 0), &[0u8; 0]);
    assert_eq!(part_bytes(&zero, 4), &[0u8; 0]);
    let walk = unhex("01000903001400010002");
    assert_eq!(part(&walk, 0), (6, 1));
    assert_eq!(part(&walk, 1), (0, 0), "a length of 256 at byte 7");
    let next = unhex("0100090300140001000200");
    assert_eq!(part(&next, 0), (6, 1));
    let third = unhex("01000003001400020002ff");
    assert_eq!(part(&third, 1), (8, 2));
    assert_eq!(part(&third, 2), (0, 0));
}

/// The walk written once more, from the other side: all parts in a row.
#[test]
fn parts_of_random_bytes() {
    let mut numbers = Numbers(99);
    let mut found = 0;
    for _ in 0..100_000 {
        let length = numbers.below(30);
        let mut byte = |limit| numbers.below(limit) as u8;
        let bytes: Vec<u8> = (0..length)
            .map(|_| if byte(9) == 0 { byte(256) } else { byte(6) })
            .collect();
        for node in 0..6 {
            let (start, count) = part(&bytes, node);
            assert_eq!(
                (start, count),
                all_parts(&bytes).get(node).copied().unwrap_or((0, 0))
            );
            found += usize::from(count > 0);
        }
    }
    assert!(found > 1000);
}

fn all_parts(bytes: &[u8]) -> Vec<(usize, usize)> {
    let mut parts = Vec::new();
    let mut rest = bytes.get(6..).unwrap_or(&[]);
    let count = if bytes.len() < 6 { 0 } else { bytes[3] };
    for _ in 0..count {
        let [high, low, ..] = *rest else { break };
        let length = usize::from(high) * 256 + usize::from(low);
        if length > rest.len() {
            break;
        }
        parts.push((bytes.len() - rest.len(), length));
        rest = &rest[length..];
    }
    parts
}

#[test]
fn statements_and_their_bytes() {
    for byte in 0..=255 {
        let statement = Statement::from_bytes([byte, 1, 0x80, 2]);
        assert_eq!(statement.is_some(), byte <= 0x12);
        if let Some(statement) = statement {
            assert_eq!(statement.op as u8, byte);
            assert_eq!(statement.to_bytes(), [byte, 1, 0x80, 2]);
            assert_eq!((statement.k, statement.signed()), (0x8002, -32_766));
        }
    }
    assert_eq!(Statement::plain(Op::Take).to_bytes(), [0x10, 0, 0, 0]);
}

/// Every kind of statement at least once, with two clocks and variables.
#[test]
fn a_block_with_all_bounds() {
    let bound = |clock, low, high| ClockBound { clock, low, high };
    let data = |variable, low, high| DataBound {
        variable,
        low,
        high,
    };
    let update = |variable, operation, number| Update {
        variable,
        operation,
        number,
    };
    let first = Edge {
        clock_bounds: [bound(1, 0, Some(7)), bound(0, 3, None)]
            .into_iter()
            .collect(),
        data_bounds: [data(1, -2, 5), data(0, 6, -7)].into_iter().collect(),
        ..edge(
            0,
            0,
            0b10,
            0,
            Action::Internal(
                [update(1, Operation::Set, -9), update(0, Operation::Add, 4)]
                    .into_iter()
                    .collect(),
            ),
        )
    };
    let second = Edge {
        clock_bounds: List::new(),
        ..edge(0, 1, 0b01, 0, receive(&[(2, 1), (0, 0)]))
    };
    let table = Table {
        version: 1,
        bands: Vec::new(),
        channels: 3,
        horizon: 5,
        components: vec![Component {
            initial: 1,
            clocks: 2,
            variables: 2,
            locations: vec![Location { clock: 1, bound: 9 }, location(8)],
            edges: vec![first, second],
        }],
    };
    let bytes = program(&table);
    assert_eq!(bytes[6..12], [0, bytes.len() as u8 - 6, 2, 2, 1, 0]);
    let lines = decode(part_bytes(&bytes, 0));
    let expected = "\
L0:|trial|high x1 <= 9|low x1 >= 0|high x1 <= 7|low x0 >= 3|\
low v1 >= -2|high v1 <= 5|low v0 >= 6|high v0 <= -7|keep e0|\
trial|high x1 <= 9|keep e1|take|\
L1:|take|\
e0:|sleep|set v1 = -9|add v0 + 4|done|age x0|zero x1|enter L0|choose|\
e1:|sleep|listen, 2 pairs|pair channel 2 to L1|pair channel 0 to L0|\
zero x0|age x1|enter L1|choose";
    let lines: Vec<&str> = lines.iter().map(|line| line.trim()).collect();
    assert_eq!(lines, expected.split('|').collect::<Vec<_>>());
}

/// The length is known before the program is written, and its own lengths
/// and starts agree with its blocks.
#[test]
fn lengths_and_starts_of_many_programs() {
    for_each_schedule(5_000, |table, _| {
        let bytes = program(table);
        assert_eq!(bytes.len(), program_length(table));
        assert_eq!(bytes[1..3], (bytes.len() as u16).to_be_bytes());
        let last = part(&bytes, table.components.len() - 1);
        assert_eq!(last.0 + last.1, bytes.len());
        for number in 0..table.components.len() {
            check_blocks(part_bytes(&bytes, number));
        }
    });
}

/// Each block starts where the one before it ended.
fn check_blocks(part: &[u8]) {
    let node = NodeProgram::new(part).unwrap();
    let locations = (0..node.locations).map(|l| (node.location_start(l).unwrap(), Op::Take));
    let edges = (0..node.edges).map(|e| (node.edge_start(e).unwrap(), Op::Choose));
    let mut place = 0;
    for (start, last) in locations.chain(edges) {
        assert_eq!(start, place);
        while node.statement(place).unwrap().op != last {
            place += 1;
        }
        place += 1;
    }
    assert_eq!(place, node.len());
    assert_eq!(node.statement(place), None);
}
