//! The line that each byte comes from.

use table_text::{
    decode, encode, encode_with_lines, location_start, statement, update_start, Encoded,
};

mod common;

/// The worked example without its comments: `horizon` is line 1.
const CELLAR: &str = "\
horizon 20
channels 1

component  # 0, the probe
  clocks 1
  variables 0
  initial 0
  location x0 <= 5
  location x0 <= 10
  send 0 -> 1 on 0
    when x0 from 3
  internal 1 -> 0
    when x0 from 8
    reset x0

component  # 1, the hub
  clocks 1
  variables 1
  initial 0
  location x0 <= 6
  location x0 <= 10
  location x0 <= 10
  receive 0 -> 2
    when x0 from 2
    on 0 -> 1
  internal 1 -> 0
    when x0 from 9
    reset x0
    add v0 1
  internal 2 -> 0
    when x0 from 9
    reset x0
";

/// The line of each byte.
fn lines(encoded: &Encoded) -> Vec<usize> {
    let of_byte = |byte| encoded.line_of(byte).unwrap();
    (0..encoded.bytes.len()).map(of_byte).collect()
}

/// So many bytes of each line.
fn runs(counted: &[(usize, usize)]) -> Vec<usize> {
    let run = |(line, count): &(usize, usize)| vec![*line; *count];
    counted.iter().flat_map(run).collect()
}

fn lines_of(text: &str) -> Vec<usize> {
    lines(&encode_with_lines(text).unwrap())
}

#[test]
fn all_bytes_of_the_worked_example() {
    let header = [(1, 4), (2, 1), (1, 2)];
    let probe = [(4, 3), (7, 1), (5, 1), (6, 1), (4, 1), (8, 3), (9, 3)];
    let probe_edges = [
        (10, 7),
        (11, 5),
        (10, 1),
        (12, 3),
        (14, 1),
        (12, 3),
        (13, 5),
    ];
    let hub = [(16, 3), (19, 1), (17, 1), (18, 1), (16, 1)];
    let locations = [(20, 3), (21, 3), (22, 3)];
    let listen = [(23, 7), (24, 5), (25, 2)];
    let count = [(26, 3), (28, 1), (26, 3), (27, 5), (29, 4)];
    let rest = [(30, 3), (32, 1), (30, 3), (31, 5)];
    let all = [
        &header[..],
        &probe,
        &probe_edges,
        &hub,
        &locations,
        &listen,
        &count,
        &rest,
    ];
    let encoded = encode_with_lines(CELLAR).unwrap();
    assert_eq!(lines(&encoded), runs(&all.concat()));
    assert_eq!(encoded.bytes, encode(CELLAR).unwrap());
    assert_eq!(encoded.line_of(103), None);
}

#[test]
fn stated_numbers_come_from_their_lines() {
    let header = "version 1\nlength 7\ncomponents 0\nchannels 3\nhorizon 9\n";
    let stated = runs(&[(1, 1), (2, 2), (3, 1), (4, 1), (5, 2)]);
    assert_eq!(lines_of(header), stated);
    let banded = runs(&[(1, 4), (2, 1), (3, 2), (1, 2)]);
    assert_eq!(lines_of("bands 0 1\nchannels 2\nhorizon 9\n"), banded);
    let counts = "  length 9\n  locations 2\n  edges 3\n";
    let component = format!("component\n  clocks 1\n  variables 0\n  initial 0\n{counts}");
    let text = format!("horizon 9\nchannels 0\n{component}");
    let stated = runs(&[(7, 2), (8, 1), (6, 1), (4, 1), (5, 1), (9, 1)]);
    assert_eq!(lines_of(&text)[7..], stated);
    let counts = "    items 4\n    kind 7\n    mask 9\n    clock bounds 2\n    data bounds 3\n";
    let text = format!("{text}  internal 0 -> 0\n{counts}");
    let stated = runs(&[(12, 1), (10, 2), (13, 1), (14, 1), (15, 1), (11, 1)]);
    assert_eq!(lines_of(&text)[14..], stated);
}

/// The text of a component whose one edge stands on line 7.
fn with_edge(lines: &str) -> String {
    format!("horizon 9\nchannels 0\ncomponent\n  clocks 1\n  variables 0\n  initial 0\n{lines}")
}

#[test]
fn a_mask_comes_from_the_line_of_its_highest_clock() {
    for (resets, line) in [
        ("", 7),
        ("    reset x0\n", 8),
        ("    reset x0\n    reset x3 x1\n    reset x2\n", 9),
        ("    reset x0 x4\n    reset x2\n", 8),
        ("    reset x5\n    mask 1\n", 9),
    ] {
        let text = with_edge(&format!("  internal 0 -> 0\n{resets}"));
        assert_eq!(lines_of(&text)[17], line, "{resets}");
    }
}

#[test]
fn bounds_items_and_raw_bytes() {
    let parts = "    when x0 from 1\n    data v0 from 1 to 2\n    bytes 0a 0b times 2\n";
    let text = with_edge(&format!(
        "  send 0 -> 0 on 0\n{parts}  bytes 0c\nbytes 0d\n"
    ));
    let expected = runs(&[(7, 7), (8, 5), (9, 5), (7, 1), (10, 4), (11, 1), (12, 1)]);
    assert_eq!(lines_of(&text)[14..], expected);
    let cut = encode_with_lines(&format!("{text}cut 2\n")).unwrap();
    assert_eq!(lines(&cut)[14..], expected[..22]);
    assert_eq!(cut.line_of(36), None);
    assert_eq!(lines_of("horizon 1\nchannels 1\ncut 7\n"), []);
}

#[test]
fn what_a_line_says() {
    let text = "horizon 20\n\n    when  x0\u{a0}from 3 # low\n# alone\n";
    assert_eq!(statement(text, 1), "horizon 20");
    assert_eq!(statement(text, 3), "when x0 from 3");
    for empty in [0, 2, 4, 5, usize::MAX] {
        assert_eq!(statement(text, empty), "", "{empty}");
    }
}

#[test]
fn places_of_the_worked_example() {
    let table = encode(CELLAR).unwrap();
    let locations = [(0, 0, 14), (0, 1, 17), (1, 0, 52), (1, 1, 55), (1, 2, 58)];
    for (component, location, place) in locations {
        assert_eq!(location_start(&table, component, location), Some(place));
    }
    assert_eq!(update_start(&table, 1, 1, 0), Some(87));
    let banded = encode(&format!("bands 0\n{CELLAR}")).unwrap();
    assert_eq!(location_start(&banded, 1, 2), Some(59));
    assert_eq!(update_start(&banded, 1, 1, 0), Some(88));
    let budgeted = CELLAR.replace("    when x0 from 2\n", "    budget 4\n    when x0 from 2\n");
    let budgeted = encode_with_lines(&budgeted).unwrap();
    let table = &budgeted.bytes;
    // One band, then two budgets of the probe and two of the hub.
    assert_eq!((table.len(), location_start(table, 1, 2)), (114, Some(63)));
    assert_eq!(update_start(table, 1, 1, 0), Some(96));
    // The band, the budget that is stated and one that is not.
    let lines = [7, 73, 74, 89, 90].map(|place| budgeted.line_of(place));
    assert_eq!(lines, [2, 24, 24, 27, 27].map(Some));
    let table = encode(CELLAR).unwrap();
    for short in [0, 4, 7, 46, 75] {
        assert_eq!(update_start(&table[..short], 1, 1, 0), None, "{short}");
    }
}

/// In the corpus, as decoded, each location stands on a line of its own, whose
/// comment has its number.
#[test]
fn places_of_the_corpus() {
    let mut tried = 0;
    for entry in std::fs::read_dir(common::corpus_folder()).unwrap() {
        let path = entry.unwrap().path();
        if path.extension().is_none_or(|end| end != "bin") {
            continue;
        }
        let table = std::fs::read(&path).unwrap();
        let Ok(text) = decode(&table) else { continue };
        let encoded = encode_with_lines(&text).unwrap();
        let (mut component, mut location) = (0, 0);
        for (index, line) in text.lines().enumerate() {
            if let Some(number) = line.strip_prefix("component  # ") {
                (component, location) = (number.parse().unwrap(), 0);
            } else if line.starts_with("  location ") {
                let place = location_start(&table, component, location).unwrap();
                assert_eq!(encoded.line_of(place), Some(index + 1), "{path:?}: {line}");
                location += 1;
                tried += 1;
            }
        }
    }
    assert!(tried > 500, "{tried}");
}
