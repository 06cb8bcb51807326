//! Faults in a text are told with their line.

use table_text::encode;

fn say(text: &str) -> String {
    encode(text).unwrap_err().to_string()
}

const HEAD: &str = "horizon 20\nchannels 1\ncomponent\n  clocks 1\n  variables 1\n  initial 0\n";

/// The message for lines that stand from line 7 on, inside a component.
fn inside(lines: &str) -> String {
    say(&format!("{HEAD}{lines}"))
}

/// The message for lines that stand from line 8 on, inside an edge.
fn in_edge(edge: &str, lines: &str) -> String {
    inside(&format!("  {edge}\n{lines}"))
}

#[test]
fn missing_lines() {
    assert_eq!(say(""), "line 1: a line is missing: horizon N");
    assert_eq!(say("horizon 5\n"), "line 1: a line is missing: channels N");
    let component = "horizon 5\nchannels 0\n\ncomponent\n  clocks 1\n  variables 0\n";
    assert_eq!(say(component), "line 4: a line is missing: initial N");
}

#[test]
fn words_that_begin_no_line() {
    assert_eq!(
        say("# a\n\nhorison 5\n"),
        "line 3: 'horison' begins no line of this text form"
    );
    let place = "line 1: 'clocks' stands inside a component, with 2 spaces before it";
    assert_eq!(say("clocks 1\n"), place);
    let place = "line 7: 'when' stands inside an edge, with 4 spaces before it";
    assert_eq!(inside("  when x0 from 3\n"), place);
    let place = "line 7: 'horizon' stands at the table's level, without indentation";
    assert_eq!(inside("  horizon 3\n"), place);
}

#[test]
fn lines_of_another_form() {
    assert_eq!(say("horizon\n"), "line 1: write: horizon N");
    assert_eq!(say("component 3\n  clocks 1\n"), "line 1: write: component");
    let twice = "line 2: the bands are stated a second time";
    assert_eq!(say("bands 0\nbands 0\n"), twice);
    let large = "line 1: 256 does not fit a field of 1 byte (0 to 255)";
    assert_eq!(say("bands 0 256\n"), large);
    assert_eq!(say("bands x\n"), "line 1: 'x' is no number");
    assert_eq!(
        inside("  location x0 < 5\n"),
        "line 7: write: location x0 <= N"
    );
    assert_eq!(inside("  send 0 1\n"), "line 7: write: send N -> N on N");
    assert_eq!(
        inside("  receive 0 -> 1 on 0\n"),
        "line 7: write: receive N -> N"
    );
    let place = "line 7: 'budget' stands inside an edge, with 4 spaces before it";
    assert_eq!(inside("  budget 3\n"), place);
    let write = "line 8: write: budget N";
    assert_eq!(in_edge("internal 0 -> 0", "    budget\n"), write);
    let large = "line 8: 65536 does not fit a field of 2 bytes (0 to 65535)";
    assert_eq!(in_edge("internal 0 -> 0", "    budget 65536\n"), large);
    let reset = "line 8: write: reset x0, or: reset x0 x1";
    assert_eq!(in_edge("internal 0 -> 0", "    reset\n"), reset);
}

#[test]
fn indentation() {
    let depth = "line 1: indent by 0, 2 (inside a component) or 4 spaces (inside an edge)";
    assert_eq!(say(" horizon 5\n"), depth);
    let tab = "line 7: a tab; use spaces, two for each step inwards";
    assert_eq!(inside("\tlocation x0 <= 5\n"), tab);
    let lost = "indented too far: there is no component or edge above it to belong to";
    assert_eq!(say("  clocks 1\n"), format!("line 1: {lost}"));
    assert_eq!(say("component\n    reset x0\n"), format!("line 2: {lost}"));
    let under = "line 8: nothing can be indented under 'location'";
    assert_eq!(inside("  location x0 <= 5\n    reset x0\n"), under);
}

#[test]
fn numbers() {
    assert_eq!(say("horizon five\n"), "line 1: 'five' is no number");
    assert_eq!(say("horizon +5\n"), "line 1: '+5' is no number");
    let wide = "line 1: 65536 does not fit a field of 2 bytes (0 to 65535)";
    assert_eq!(say("horizon 65536\n"), wide);
    let byte = "line 1: 256 does not fit a field of 1 byte (0 to 255)";
    assert_eq!(say("channels 256\n"), byte);
    let signed = "line 8: 32768 does not fit a signed field of 2 bytes (-32768 to 32767)";
    assert_eq!(in_edge("internal 0 -> 0", "    set v0 32768\n"), signed);
    let negative = "line 8: -1 does not fit a field of 2 bytes (0 to 65535)";
    assert_eq!(
        in_edge("internal 0 -> 0", "    when x0 from -1\n"),
        negative
    );
    let long = "99999999999999999999";
    assert!(say(&format!("horizon {long}\n")).starts_with(&format!("line 1: {long} does not")));
}

#[test]
fn names() {
    let name = "line 7: 'y0' should be x and a number";
    assert_eq!(inside("  location y0 <= 5\n"), name);
    let bit = "line 8: x8 has no bit in the mask (x0 to x7)";
    assert_eq!(in_edge("internal 0 -> 0", "    reset x8\n"), bit);
}

#[test]
fn said_twice() {
    let twice = "this number is stated a second time";
    assert_eq!(say("horizon 5\nhorizon 5\n"), format!("line 2: {twice}"));
    assert_eq!(say("cut 1\ncut 1\n"), format!("line 2: {twice}"));
    assert_eq!(inside("  clocks 2\n"), format!("line 7: {twice}"));
    let budget = "line 9: the budget is stated a second time";
    let lines = "    budget 1\n    budget 1\n";
    assert_eq!(in_edge("internal 0 -> 0", lines), budget);
    let reset = "line 8: x0 is reset a second time";
    assert_eq!(in_edge("internal 0 -> 0", "    reset x0 x0\n"), reset);
}

#[test]
fn order_and_kind() {
    let location = "line 8: a location after an edge; the table has all locations first";
    assert_eq!(in_edge("internal 0 -> 0", "  location x0 <= 5\n"), location);
    let order = "line 9: out of order: first 'budget', then 'when', then 'data', then the items";
    let lines = "    data v0 from 0 to 1\n    when x0 from 2\n";
    assert_eq!(in_edge("internal 0 -> 0", lines), order);
    let lines = "    set v0 1\n    data v0 from 0 to 1\n";
    assert_eq!(in_edge("internal 0 -> 0", lines), order);
    let lines = "    when x0 from 2\n    budget 1\n";
    assert_eq!(in_edge("internal 0 -> 0", lines), order);
    let update = "line 8: updates belong to internal edges";
    assert_eq!(in_edge("send 0 -> 0 on 0", "    set v0 1\n"), update);
    let pair = "line 8: 'on N -> N' belongs to receive edges";
    assert_eq!(in_edge("internal 0 -> 0", "    on 0 -> 0\n"), pair);
}

#[test]
fn raw_bytes() {
    let hex = "is no byte of two hexadecimal digits";
    assert_eq!(say("bytes 0\n"), format!("line 1: '0' {hex}"));
    assert_eq!(say("bytes +f\n"), format!("line 1: '+f' {hex}"));
    assert_eq!(say("bytes times 3\n"), format!("line 1: 'times' {hex}"));
    let none = "line 1: no bytes; write: bytes 00 ff, or: bytes 00 times 20";
    assert_eq!(say("bytes\n"), none);
}

#[test]
fn what_does_not_fit_the_table() {
    let cut = "line 3: the whole table has 7 bytes";
    assert_eq!(say("horizon 5\nchannels 0\ncut 8\n"), cut);
    let long = "length would be 65543, too large for its field; state it: length N";
    let text = "horizon 5\nchannels 0\nbytes 00 times 65535\nbytes 00\n";
    assert_eq!(say(text), format!("line 1: {long}"));
    assert_eq!(encode(&format!("length 7\n{text}")).unwrap().len(), 65_543);
    let edges = "  internal 0 -> 0\n".repeat(256);
    let many = "line 3: edges would be 256, too large for its field; state it: edges N";
    assert_eq!(inside(&edges), many);
}
