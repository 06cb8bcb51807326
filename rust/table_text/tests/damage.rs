//! Stated numbers, raw bytes and the cut.

use table_text::encode;

const COMPONENT: &str = "
component
  clocks 1
  variables 0
  initial 0
  location x0 <= 258
  internal 0 -> 0
";

fn header_of(lines: &str) -> Vec<u8> {
    encode(&format!("horizon 258\nchannels 3\n{lines}")).unwrap()
}

/// The bytes of one component after the header.
fn component_of(inside: &str) -> Vec<u8> {
    let head = "horizon 1\nchannels 1\ncomponent\n  clocks 4\n  variables 3\n  initial 2\n";
    encode(&format!("{head}{inside}")).unwrap().split_off(7)
}

/// The bytes of one edge.
fn edge_of(lines: &str) -> Vec<u8> {
    component_of(lines).split_off(7)
}

#[test]
fn the_header_states_what_is_computed() {
    assert_eq!(header_of(""), [1, 0, 7, 0, 3, 1, 2]);
    assert_eq!(header_of(COMPONENT)[..7], [1, 0, 24, 1, 3, 1, 2]);
}

#[test]
fn the_header_states_what_is_said() {
    let stated = header_of("version 9\nlength 65535\ncomponents 7\n");
    assert_eq!(stated, [9, 255, 255, 7, 3, 1, 2]);
}

#[test]
fn bands_stand_behind_the_header_and_make_version_2() {
    assert_eq!(header_of("bands 0 1 3\n"), [2, 0, 10, 0, 3, 1, 2, 0, 1, 3]);
    assert_eq!(header_of("bands\n"), [2, 0, 7, 0, 3, 1, 2]);
    assert_eq!(header_of("bands 255\n"), [2, 0, 8, 0, 3, 1, 2, 255]);
    let raw = header_of("bytes 0a\nbands 2\n");
    assert_eq!(raw, [2, 0, 9, 0, 3, 1, 2, 2, 10], "raw bytes come after");
    let stated = header_of("version 1\nbands 2\n");
    assert_eq!(stated, [1, 0, 8, 0, 3, 1, 2, 2], "the first byte alone");
    assert_eq!(header_of("version 2\n"), [2, 0, 7, 0, 3, 1, 2]);
    assert_eq!(header_of("bands 0 1 3\ncut 2\n"), [2, 0, 10, 0, 3, 1, 2, 0]);
    let bytes = header_of(&format!("{COMPONENT}bands 3 3 3\n"));
    assert_eq!(bytes[..10], [2, 0, 27, 1, 3, 1, 2, 3, 3, 3]);
    assert_eq!(bytes[10..], header_of(COMPONENT)[7..]);
}

#[test]
fn a_budget_makes_version_3_with_one_for_each_edge() {
    let edges = "  internal 0 -> 1\n    budget 258\n    when x0 from 1\n  send 0 -> 0 on 0\n";
    let first = [0, 0, 1, 0, 1, 0, 0, 1, 2, 0, 0, 1, 255, 255];
    let second = [1, 0, 0, 0, 0, 0, 1, 0, 0, 0];
    let head = "horizon 1\nchannels 1\ncomponent\n  clocks 4\n  variables 3\n  initial 2\n";
    let bytes = encode(&format!("{head}{edges}")).unwrap();
    assert_eq!(
        bytes[..8],
        [3, 0, 39, 1, 1, 0, 1, 0],
        "all channels on band 0"
    );
    assert_eq!(bytes[15..], [&first[..], &second].concat());
    let banded = encode(&format!("bands 2\n{head}{edges}")).unwrap();
    assert_eq!((banded[7], &banded[8..]), (2, &bytes[8..]));
    let fewer = encode(&format!("bands\n{head}{edges}")).unwrap();
    assert_eq!(
        fewer[..8],
        [3, 0, 38, 1, 1, 0, 1, 0],
        "as many as are listed"
    );
    assert_eq!(fewer[7..], bytes[8..]);
    let stated = encode(&format!("version 1\n{head}{edges}")).unwrap();
    assert_eq!((stated[0], &stated[1..]), (1, &bytes[1..]));
    let zero = encode(&format!("{head}  internal 0 -> 1\n    budget 0\n")).unwrap();
    assert_eq!(zero[15..], [0, 0, 1, 0, 0, 0, 0, 0, 0]);
}

#[test]
fn version_3_stated_alone_writes_no_band_and_no_budget() {
    let edge = "  internal 0 -> 1\n    when x0 from 1\n";
    let head = "horizon 1\nchannels 1\ncomponent\n  clocks 4\n  variables 3\n  initial 2\n";
    let plain = encode(&format!("{head}{edge}")).unwrap();
    let stated = encode(&format!("version 3\n{head}{edge}")).unwrap();
    assert_eq!((stated[0], &stated[1..]), (3, &plain[1..]));
}

#[test]
fn the_channel_of_a_send_follows_its_budget() {
    let component = "component\n  clocks 1\n  variables 0\n  initial 0\n";
    let edge = "  send 0 -> 1 on 9\n    bytes aa\n    budget 5\n    bytes bb\n";
    let text = format!("horizon 1\nchannels 0\n{component}{edge}");
    let bytes = [1, 0, 1, 0, 0, 0, 1, 0xaa, 0, 5, 9, 0xbb];
    assert_eq!(encode(&text).unwrap()[14..], bytes);
}

#[test]
fn bytes_of_the_table_count_in_its_length_alone() {
    let bytes = header_of("bytes 0a ff\n");
    assert_eq!(bytes, [1, 0, 9, 0, 3, 1, 2, 10, 255]);
    let bytes = header_of(&format!("bytes 11\n{COMPONENT}bytes 22 33 times 2\n"));
    assert_eq!(bytes[..8], [1, 0, 29, 1, 3, 1, 2, 0x11]);
    assert_eq!(bytes[25..], [0x22, 0x33, 0x22, 0x33]);
}

#[test]
fn the_cut_changes_no_number() {
    assert_eq!(header_of("cut 2\n"), [1, 0, 7, 0, 3]);
    assert_eq!(header_of("cut 2\nlength 5\n"), [1, 0, 5, 0, 3]);
    assert_eq!(header_of("cut 7\n"), []);
    let whole = header_of(COMPONENT);
    let cut = header_of(&format!("{COMPONENT}cut 1\n"));
    assert_eq!(cut, whole[..whole.len() - 1]);
}

#[test]
fn a_component_states_what_is_computed_or_said() {
    let locations = "  location x0 <= 1\n  location x3 <= 60000\n";
    let two = [0, 13, 2, 2, 4, 3, 0, 0, 0, 1, 3, 0xea, 0x60];
    assert_eq!(component_of(locations), two);
    let stated = component_of("  length 50\n  locations 17\n  edges 33\n");
    assert_eq!(stated, [0, 50, 17, 2, 4, 3, 33]);
}

#[test]
fn bytes_of_a_component_stand_in_their_place() {
    let lines = "  bytes 0a\n  location x0 <= 1\n  bytes 0b\n  internal 0 -> 1\n  bytes 0c\n";
    let rest = [10, 0, 0, 1, 11, 0, 0, 1, 0, 0, 0, 0, 12];
    let bytes = component_of(lines);
    assert_eq!(bytes[..7], [0, 20, 1, 2, 4, 3, 1]);
    assert_eq!(bytes[7..], rest);
}

#[test]
fn an_edge_states_what_is_computed() {
    let lines = "  internal 0 -> 1
    when x0 from 1
    when x1 from 2 to 3
    data v0 from -1 to 258
    reset x1 x0
    reset x3
    set v0 -32768
    add v1 32767
    op 7 v2 0
";
    #[rustfmt::skip]
    let bytes = [
        0, 0, 1, 11, 2, 1, 3,
        0, 0, 1, 255, 255,
        1, 0, 2, 0, 3,
        0, 255, 255, 1, 2,
        0, 0, 128, 0,
        1, 1, 127, 255,
        2, 7, 0, 0,
    ];
    assert_eq!(edge_of(lines), bytes);
}

#[test]
fn an_edge_states_what_is_said() {
    let lines = "  receive 200 -> 255
    kind 3
    mask 16
    clock bounds 5
    data bounds 6
    items 9
    reset x0
    on 77 -> 88
";
    assert_eq!(edge_of(lines), [3, 200, 255, 16, 5, 6, 9, 77, 88]);
}

#[test]
fn the_channel_of_a_send_follows_its_last_bound() {
    let lines = "  send 0 -> 1 on 9\n    bytes aa\n    when x0 from 1\n    bytes bb\n";
    let bytes = [1, 0, 1, 0, 1, 0, 1, 0xaa, 0, 0, 1, 255, 255, 9, 0xbb];
    assert_eq!(edge_of(lines), bytes);
    let without_bounds = edge_of("  send 0 -> 1 on 9\n    bytes aa\n");
    assert_eq!(without_bounds, [1, 0, 1, 0, 0, 0, 1, 9, 0xaa]);
    let without_channel = edge_of("  send 0 -> 1\n    bytes aa\n");
    assert_eq!(without_channel, [1, 0, 1, 0, 0, 0, 0, 0xaa]);
}

#[test]
fn the_order_of_number_lines_is_free() {
    let first = "horizon 5\nchannels 0\ncomponent\n  clocks 1\n  variables 0\n  initial 0\n";
    let last = "component\n  initial 0\n  variables 0\n  clocks 1\nchannels 0\nhorizon 5\n";
    assert_eq!(encode(first), encode(last));
}
