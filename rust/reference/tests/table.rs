//! The reader and the writer: checks 1 to 6.

mod common;

use common::*;
use reference::table::*;

/// Both readers must say the same.
fn read(bytes: &[u8]) -> Result<Table, Refusal> {
    let table = read_table(bytes);
    assert_eq!(table.clone().err(), check_only(bytes).err());
    table
}

fn refusal(bytes: &[u8]) -> Option<Refusal> {
    read(bytes).err()
}

/// The worked example with one byte changed.
fn with(at: usize, byte: u8) -> Vec<u8> {
    let mut bytes = probe_and_hub();
    bytes[at] = byte;
    bytes
}

/// The worked example changed as a table, and its refusal.
fn changed(change: impl Fn(&mut Table)) -> Option<Refusal> {
    let mut table = probe_and_hub_table();
    change(&mut table);
    refusal(&write_table(&table))
}

/// The table's bytes cut or grown to a length, the stated length with it.
fn resized(bytes: &[u8], length: usize) -> Vec<u8> {
    let mut bytes = bytes.to_vec();
    bytes.resize(length, 0);
    bytes[1..3].copy_from_slice(&(length as u16).to_be_bytes());
    bytes
}

#[test]
fn the_worked_example_is_read_and_written() {
    let bytes = probe_and_hub();
    assert_eq!(bytes.len(), 103);
    assert_eq!(read(&bytes), Ok(probe_and_hub_table()));
    assert_eq!(write_table(&probe_and_hub_table()), bytes);
}

#[test]
fn the_directory_tells_where_the_parts_stand() {
    let directory = check_only(&probe_and_hub()).unwrap();
    let entry = |first_location, first_edge, counts: [u8; 4]| Entry {
        first_location,
        first_edge,
        locations: counts[0],
        initial: 0,
        clocks: counts[1],
        variables: counts[2],
        edges: counts[3],
    };
    assert_eq!((directory.components, directory.channels), (2, 1));
    assert_eq!(directory.horizon, 20);
    assert_eq!(directory.entries[0], entry(14, 20, [2, 1, 0, 2]));
    assert_eq!(directory.entries[1], entry(52, 61, [3, 1, 1, 3]));
    assert_eq!(directory.entries[2..], [Entry::default(); 6]);
}

#[test]
fn check_1_the_first_byte() {
    assert_eq!(refusal(&[]), Some(refused(1, 255)));
    for version in [0, 4, 255] {
        assert_eq!(refusal(&with(0, version)), Some(refused(1, 255)));
    }
}

#[test]
fn check_2_the_length() {
    for length in 1..7 {
        let bytes = [1, 0, length as u8, 1, 0, 0, 5];
        assert_eq!(refusal(&bytes[..length]), Some(refused(2, 255)));
    }
    assert_eq!(refusal(&with(2, 102)), Some(refused(2, 255)));
    assert_eq!(refusal(&with(2, 104)), Some(refused(2, 255)));
    assert_eq!(refusal(&with(1, 1)), Some(refused(2, 255)));
    let longest = resized(&probe_and_hub(), 8192);
    assert_eq!(refusal(&longest), Some(refused(4, 1)));
    let too_long = resized(&probe_and_hub(), 8193);
    assert_eq!(refusal(&too_long), Some(refused(2, 255)));
}

#[test]
fn check_3_the_header() {
    for (at, byte) in [(3, 0), (3, 9), (3, 255), (4, 17), (4, 255), (6, 0)] {
        assert_eq!(refusal(&with(at, byte)), Some(refused(3, 255)));
    }
    assert_eq!(changed(|t| t.horizon = 60_001), Some(refused(3, 255)));
    assert_eq!(changed(|t| t.horizon = 65_535), Some(refused(3, 255)));
    assert_eq!(changed(|t| t.horizon = 60_000), None);
    assert_eq!(changed(|t| t.horizon = 1), None);
    assert_eq!(changed(|t| t.channels = 16), None);
}

/// The worked example in version 2, with these bytes behind the header.
fn banded(channels: u8, bands: &[u8]) -> Vec<u8> {
    let mut table = probe_and_hub_table();
    table.version = 2;
    table.channels = channels;
    table.bands = bands.to_vec();
    write_table(&table)
}

#[test]
fn check_3_the_bands() {
    for band in 0..=255 {
        let three = (band > 3).then_some(refused(3, 255));
        assert_eq!(refusal(&banded(1, &[band])), three, "{band}");
        let unused = [[0; 15].as_slice(), &[band]].concat();
        assert_eq!(refusal(&banded(16, &unused)), three, "{band}, not used");
    }
    let head = |channels, length| resized(&[2, 0, 0, 1, channels, 0, 20], length);
    for channels in 1..=16 {
        let enough = 7 + channels as usize;
        for length in 7..enough {
            let bytes = head(channels, length);
            assert_eq!(refusal(&bytes), Some(refused(3, 255)), "{length}");
        }
        assert_eq!(refusal(&head(channels, enough)), Some(refused(4, 0)));
    }
    assert_eq!(refusal(&head(17, 40)), Some(refused(3, 255)));
    assert_eq!(refusal(&head(0, 7)), Some(refused(4, 0)));
}

#[test]
fn the_bands_are_read_and_written() {
    let bytes = banded(3, &[1, 0, 3]);
    assert_eq!(
        (bytes.len(), bytes[0], &bytes[7..10]),
        (106, 2, &[1, 0, 3][..])
    );
    let table = read(&bytes).unwrap();
    assert_eq!((table.version, table.bands.as_slice()), (2, &[1, 0, 3][..]));
    assert_eq!([0, 1, 2].map(|channel| table.band(channel)), [1, 0, 3]);
    assert_eq!(write_table(&table), bytes);
    let first = read(&probe_and_hub()).unwrap();
    assert_eq!((first.version, first.bands.len(), first.band(0)), (1, 0, 0));
    let entries = check_only(&bytes).unwrap().entries;
    assert_eq!([entries[0].first_location, entries[1].first_edge], [17, 64]);
}

#[test]
fn check_4_the_fit_of_components() {
    let head = [1, 0, 7, 1, 0, 0, 5];
    assert_eq!(refusal(&head), Some(refused(4, 0)));
    assert_eq!(refusal(&resized(&head, 8)), Some(refused(4, 0)));
    assert_eq!(refusal(&resized(&head, 9)), Some(refused(4, 0)));
    for length in [0, 1, 2, 6, 37, 39, 255] {
        assert_eq!(refusal(&with(8, length)), Some(refused(4, 0)), "{length}");
    }
    for length in [0, 1, 2, 6, 57, 59] {
        assert_eq!(refusal(&with(46, length)), Some(refused(4, 1)), "{length}");
    }
    assert_eq!(refusal(&with(3, 1)), Some(refused(4, 0)));
    assert_eq!(refusal(&with(3, 3)), Some(refused(4, 2)));
}

#[test]
fn check_4_every_cut_of_the_last_component() {
    let whole = probe_and_hub();
    for length in 45..103 {
        let mut bytes = resized(&whole, length);
        if length >= 47 {
            bytes[46] = (length - 45) as u8;
        }
        assert_eq!(refusal(&bytes), Some(refused(4, 1)), "{length}");
    }
}

#[test]
fn check_5_the_first_bytes_of_a_component() {
    let cases = [
        (9, [0, 17]),
        (10, [2, 255]),
        (11, [0, 5]),
        (12, [5, 255]),
        (13, [0, 33]),
    ];
    for (at, bytes) in cases {
        for byte in bytes {
            assert_eq!(refusal(&with(at, byte)), Some(refused(5, 0)), "{at} {byte}");
        }
    }
    assert_eq!(
        changed(|t| t.components[1].initial = 3),
        Some(refused(5, 1))
    );
    assert_eq!(changed(|t| t.components[1].initial = 2), None);
}

#[test]
fn check_5_locations_and_edges() {
    let five = Some(refused(5, 0));
    assert_eq!(changed(|t| t.components[0].locations[0].clock = 1), five);
    assert_eq!(
        changed(|t| t.components[0].locations[0].bound = 60_001),
        five
    );
    assert_eq!(
        changed(|t| t.components[0].locations[0].bound = 60_000),
        None
    );
    assert_eq!(changed(|t| t.components[0].edges[0].source = 2), five);
    assert_eq!(changed(|t| t.components[0].edges[0].destination = 2), five);
    assert_eq!(changed(|t| t.components[0].edges[0].mask = 2), five);
    assert_eq!(changed(|t| t.components[0].edges[0].mask = 128), five);
    assert_eq!(changed(|t| t.components[0].edges[0].mask = 1), None);
    assert_eq!(refusal(&with(20, 3)), five, "kind");
    assert_eq!(refusal(&with(24, 5)), five, "clock bounds");
    assert_eq!(refusal(&with(25, 5)), five, "data bounds");
    assert_eq!(refusal(&with(26, 0)), five, "items of a send");
    assert_eq!(refusal(&with(26, 2)), five, "items of a send");
    assert_eq!(refusal(&with(39, 5)), five, "items of an internal edge");
    assert_eq!(refusal(&with(66, 1)), Some(refused(5, 1)), "receive, data");
    assert_eq!(refusal(&with(67, 0)), Some(refused(5, 1)), "no pairs");
    assert_eq!(refusal(&with(67, 9)), Some(refused(5, 1)), "nine pairs");
}

#[test]
fn check_5_bounds() {
    let clock = |bound: ClockBound| {
        changed(move |t| t.components[0].edges[0].clock_bounds = [bound].into_iter().collect())
    };
    let five = Some(refused(5, 0));
    assert_eq!(
        clock(ClockBound {
            clock: 1,
            low: 0,
            high: None
        }),
        five
    );
    assert_eq!(clock(clock_bound(60_001, None)), five);
    assert_eq!(clock(clock_bound(65_535, None)), five);
    assert_eq!(clock(clock_bound(0, Some(60_001))), five);
    assert_eq!(clock(clock_bound(0, Some(65_534))), five);
    assert_eq!(clock(clock_bound(60_000, Some(60_000))), None);
    assert_eq!(clock(clock_bound(9, Some(3))), None);
    let data = |variable| {
        changed(move |t| {
            let bound = DataBound {
                variable,
                low: 1,
                high: -1,
            };
            t.components[1].edges[1].data_bounds.push(bound);
        })
    };
    assert_eq!(data(0), None);
    assert_eq!(data(1), Some(refused(5, 1)));
}

#[test]
fn check_5_items() {
    let five = Some(refused(5, 1));
    assert_eq!(
        changed(|t| t.components[0].edges[0].action = Action::Send(1)),
        Some(refused(5, 0))
    );
    let pairs = |pairs: &'static [(u8, u8)]| {
        changed(move |t| t.components[1].edges[0].action = receive(pairs))
    };
    assert_eq!(pairs(&[(1, 0)]), five);
    assert_eq!(pairs(&[(0, 3)]), five);
    let at = 61 + 14 + 7 + 5;
    assert_eq!(probe_and_hub()[at..at + 4], [0, 1, 0, 1]);
    assert_eq!(refusal(&with(at, 1)), five, "variable");
    assert_eq!(refusal(&with(at + 1, 2)), five, "neither set nor add");
}

#[test]
fn check_6_a_channel_twice() {
    let pairs = |pairs: &'static [(u8, u8)]| {
        changed(move |t| {
            t.channels = 16;
            t.components[1].edges[0].action = receive(pairs);
        })
    };
    assert_eq!(pairs(&[(0, 1), (15, 1), (1, 0)]), None);
    assert_eq!(pairs(&[(0, 1), (0, 1)]), Some(refused(6, 1)));
    assert_eq!(pairs(&[(15, 1), (2, 0), (15, 2)]), Some(refused(6, 1)));
    assert_eq!(pairs(&[(0, 1), (0, 1), (0, 9)]), Some(refused(6, 1)));
    assert_eq!(pairs(&[(0, 1), (0, 9), (0, 1)]), Some(refused(5, 1)));
    assert_eq!(pairs(&[(0, 1), (16, 1), (0, 1)]), Some(refused(5, 1)));
}

#[test]
fn the_first_fault_counts() {
    let mut bytes = with(13, 0);
    bytes[46] = 59;
    assert_eq!(refusal(&bytes), Some(refused(5, 0)));
    let mut hidden = with(8, 255);
    hidden[9] = 0;
    assert_eq!(refusal(&hidden), Some(refused(4, 0)));
    let mut trailing = resized(&with(47, 0), 104);
    assert_eq!(refusal(&trailing), Some(refused(5, 1)));
    trailing[47] = 3;
    assert_eq!(refusal(&trailing), Some(refused(4, 1)));
}

/// Bytes changed at random: both readers agree, and an accepted table is
/// written back as it was.
#[test]
fn both_readers_agree_on_damaged_tables() {
    let mut numbers = Numbers(2463534242);
    let tables: Vec<Vec<u8>> = tables_of_vectors();
    for round in 0..200_000 {
        let mut bytes = tables[round % tables.len()].clone();
        for _ in 0..numbers.below(4) {
            let at = 3 + numbers.below(bytes.len().max(4) - 3);
            if let Some(byte) = bytes.get_mut(at) {
                *byte = [numbers.below(256), numbers.below(20)][numbers.below(2)] as u8;
            }
        }
        if let Ok(table) = read(&bytes) {
            assert_eq!(write_table(&table), bytes);
        }
    }
}

fn tables_of_vectors() -> Vec<Vec<u8>> {
    let checks = vectors().into_iter().filter(|v| v.request[0] == "check");
    checks.map(|v| unhex(&v.request[1])).collect()
}

/// Every table of the vectors: refused by 1 to 6 exactly as the answer says,
/// else read and written back.
#[test]
fn vectors_of_checks_1_to_6() {
    let mut counts = (0, 0);
    let of_tables = |v: &&Vector| !["part", "plan"].contains(&v.request[0].as_str());
    for vector in vectors().iter().filter(of_tables) {
        let bytes = unhex(&vector.request[1]);
        let expected = refusal_of(&vector.answer).filter(|refusal| refusal.number <= 6);
        match read(&bytes) {
            Ok(table) => {
                assert_eq!(expected, None, "{}", vector.name);
                assert_eq!(write_table(&table), bytes, "{}", vector.name);
                counts.0 += 1;
            }
            Err(refusal) => {
                assert_eq!(Some(refusal), expected, "{}", vector.name);
                counts.1 += 1;
            }
        }
    }
    println!("read {}, refused {}", counts.0, counts.1);
    assert!(counts.0 > 0 && counts.1 > 0);
}
