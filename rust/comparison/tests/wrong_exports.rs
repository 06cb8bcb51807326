//! Texts for UPPAAL that are wrong in one point are found out.

mod finding;

use comparison::readers::{refused, second_uppaal, Reader, Readers, Writes};
use finding::{classes, difference, finder, tried};
use reference::table::read_table;
use timed_network::{Call, Verdict, UPPAAL_ENOUGH};

fn with(uppaal: Writes) -> Reader {
    Reader {
        uppaal,
        ..Reader::second()
    }
}

/// The classes of texts of tables that are made at random.
fn drawn(class: &str) -> bool {
    class.starts_with("texts ") && class != "texts of stored tables"
}

/// The classes of stored tables and requests.
fn stored(class: &str) -> bool {
    class == "texts of stored tables" || class == "programs, parts and runs of the vectors"
}

#[test]
fn the_yardstick_agrees_with_the_second() {
    let readers = Readers {
        library: Reader::yardstick(),
        second: Reader::second(),
    };
    for class in classes(drawn).chain(classes(stored)) {
        assert_eq!(tried(&readers, class), Ok(()), "{}", class.name);
    }
}

/// The text of a table, changed, with the room asked for that it takes.
fn changed(table: &[u8], text: &mut [u8], change: impl FnOnce(String) -> String) -> Call {
    let mut ample = vec![0; UPPAAL_ENOUGH];
    let call = second_uppaal(table, &mut ample);
    if call.verdict != Verdict::Accepted {
        return second_uppaal(table, text);
    }
    ample.truncate(call.size);
    let written = change(String::from_utf8(ample).unwrap()).into_bytes();
    match text.get_mut(..written.len()) {
        Some(front) => {
            front.copy_from_slice(&written);
            Call {
                size: written.len(),
                ..call
            }
        }
        None => short(),
    }
}

fn short() -> Call {
    Call {
        verdict: refused(13, 255),
        size: 0,
    }
}

/// Texts with another spelling or meaning, each by a replacement.
macro_rules! replaced {
    ($($name:literal: $from:expr => $to:expr),* $(,)?) => {
        [$(($name, with(|table, text| {
            changed(table, text, |text| text.replace($from, $to))
        }))),*]
    };
}

#[test]
fn each_wrong_text_is_found() {
    let wrong = replaced![
        "low 0 is left out": " && x0 >= 0" => "",
        "processes from 1": "P0" => "P8",
        "no waiting location of a timeout": "W0 " => "W0_c0 ",
        "the end is not exact": " == " => " >= ",
        "before the end": " == " => " < ",
        "bounds before it may be reached": " < " => " <= ",
        "channels are urgent": "chan" => "urgent chan",
        "sends are receives": "!;" => "?;",
        "no sums": " && v0 + 1 >= -32768 && v0 + 1 <= 32767" => "",
        "only from above": ">= -32768 && " => ">= -32769 && ",
        "sets are adds": "v0 := -" => "v0 := v0 - ",
        "no reset": "x0 := 0" => "x0 := x0",
        "ranges of 32 bits": "int[-32768,32767]" => "int[-32768,32768]",
        "another start": "init L0" => "init L1",
        "no empty line": "\nprocess" => "process",
        "two blanks": ", " => ",  ",
        "carriage returns": "\n" => "\r\n",
    ];
    let mut missed = Vec::new();
    for (name, reader) in wrong {
        let by_drawn = finder(drawn, reader, Reader::second());
        let by_stored = finder(stored, reader, Reader::second());
        println!("{name}: {by_drawn:?}, {by_stored:?}");
        if by_drawn.is_none() || by_stored.is_none() {
            missed.push(name);
        }
    }
    assert_eq!(missed, [""; 0]);
}

/// 25 only where the edge with a budget is the component's first, which is taken.
fn budgets_of_first_edges(table: &[u8], text: &mut [u8]) -> Call {
    let call = second_uppaal(table, text);
    let Ok(read) = read_table(table) else {
        return call;
    };
    let first = read.components.iter().any(|own| own.edges[0].budget > 0);
    if call.verdict != refused(25, 255) || first {
        return call;
    }
    write(&reference::uppaal::text(&read), text)
}

fn write(written: &str, text: &mut [u8]) -> Call {
    match text.get_mut(..written.len()) {
        Some(front) => {
            front.copy_from_slice(written.as_bytes());
            Call {
                verdict: Verdict::Accepted,
                size: written.len(),
            }
        }
        None => short(),
    }
}

/// Tables with budgets are exported without them.
fn budgets_left_out(table: &[u8], text: &mut [u8]) -> Call {
    let call = second_uppaal(table, text);
    match read_table(table) {
        Ok(read) if call.verdict == refused(25, 255) => {
            write(&reference::uppaal::text(&read), text)
        }
        _ => call,
    }
}

/// The low byte of a budget alone is looked at.
fn budgets_of_8_bits(table: &[u8], text: &mut [u8]) -> Call {
    let call = second_uppaal(table, text);
    match read_table(table) {
        Ok(read) if call.verdict == refused(25, 255) => {
            let mut edges = read.components.iter().flat_map(|own| &own.edges);
            match edges.any(|edge| edge.budget & 255 > 0) {
                true => call,
                false => write(&reference::uppaal::text(&read), text),
            }
        }
        _ => call,
    }
}

/// Every table of version 3 is refused.
fn version_3_refused(table: &[u8], text: &mut [u8]) -> Call {
    match (
        table.first(),
        second_uppaal(table, &mut vec![0; UPPAAL_ENOUGH]),
    ) {
        (Some(3), call) if call.verdict == Verdict::Accepted => Call {
            verdict: refused(25, 255),
            size: 0,
        },
        _ => second_uppaal(table, text),
    }
}

/// 13 before 25.
fn room_before_budgets(table: &[u8], text: &mut [u8]) -> Call {
    match second_uppaal(table, text) {
        call if call.verdict == refused(25, 255) && text.is_empty() => short(),
        call => call,
    }
}

/// 25 before the checks of the table.
fn budgets_before_the_table(table: &[u8], text: &mut [u8]) -> Call {
    let call = second_uppaal(table, text);
    match read_table(table) {
        Ok(read) if reference::uppaal::has_budgets(&read) => Call {
            verdict: refused(25, 255),
            size: 0,
        },
        _ => call,
    }
}

/// Tables that are read are written, whatever checks 7 to 12 say.
fn refused_tables_written(table: &[u8], text: &mut [u8]) -> Call {
    match (second_uppaal(table, text), read_table(table)) {
        (call, Ok(read))
            if !matches!(
                call.verdict.refusal().map(|r| r.number()),
                None | Some(13 | 25)
            ) =>
        {
            write(&reference::uppaal::text(&read), text)
        }
        (call, _) => call,
    }
}

/// The text is written as far as there is room before 13 is said.
fn written_before_13(table: &[u8], text: &mut [u8]) -> Call {
    let call = second_uppaal(table, text);
    if let (Ok(read), true) = (read_table(table), call.verdict == refused(13, 255)) {
        let written = reference::uppaal::text(&read);
        let room = text.len();
        text.copy_from_slice(&written.as_bytes()[..room]);
    }
    call
}

/// A zero byte behind the text, where there is room for it.
fn zero_behind(table: &[u8], text: &mut [u8]) -> Call {
    let call = second_uppaal(table, text);
    if call.verdict == Verdict::Accepted {
        if let Some(byte) = text.get_mut(call.size) {
            *byte = 0;
        }
    }
    call
}

/// One byte more than needed is asked for.
fn wants_one_more(table: &[u8], text: &mut [u8]) -> Call {
    let call = second_uppaal(table, &mut text.to_vec());
    match call.verdict == Verdict::Accepted && call.size == text.len() {
        true => short(),
        false => second_uppaal(table, text),
    }
}

/// The last line feed is left out of the count.
fn one_less_told(table: &[u8], text: &mut [u8]) -> Call {
    let call = second_uppaal(table, text);
    Call {
        size: call.size.saturating_sub(1),
        ..call
    }
}

/// The size is told of what is refused.
fn size_of_what_is_refused(table: &[u8], text: &mut [u8]) -> Call {
    let call = second_uppaal(table, text);
    match call.verdict {
        Verdict::Accepted => call,
        _ => Call { size: 1, ..call },
    }
}

/// 25 names a component.
fn names_a_component(table: &[u8], text: &mut [u8]) -> Call {
    let call = second_uppaal(table, text);
    match call.verdict == refused(25, 255) {
        true => Call {
            verdict: refused(25, 0),
            ..call
        },
        false => call,
    }
}

const CALLS: [(&str, Writes); 13] = [
    ("budgets_of_first_edges", budgets_of_first_edges),
    ("budgets_left_out", budgets_left_out),
    ("budgets_of_8_bits", budgets_of_8_bits),
    ("version_3_refused", version_3_refused),
    ("room_before_budgets", room_before_budgets),
    ("budgets_before_the_table", budgets_before_the_table),
    ("refused_tables_written", refused_tables_written),
    ("written_before_13", written_before_13),
    ("zero_behind", zero_behind),
    ("wants_one_more", wants_one_more),
    ("one_less_told", one_less_told),
    ("size_of_what_is_refused", size_of_what_is_refused),
    ("names_a_component", names_a_component),
];

#[test]
fn each_wrong_call_is_found() {
    let mut missed = Vec::new();
    for (name, uppaal) in CALLS {
        let by_drawn = finder(drawn, with(uppaal), Reader::second());
        let by_stored = finder(stored, with(uppaal), Reader::second());
        println!("{name}: {by_drawn:?}, {by_stored:?}");
        let only_drawn = name == "budgets_of_8_bits";
        if by_drawn.is_none() || by_stored.is_none() && !only_drawn {
            missed.push(name);
        }
    }
    assert_eq!(missed, [""; 0]);
}

/// Where both are wrong in the same way, the network that is read back tells it.
#[test]
fn texts_that_are_wrong_in_the_same_way_are_found_by_their_paths() {
    let wrong = replaced![
        "the end is not exact": " == " => " <= ",
        "bounds before it may be reached": " < " => " <= ",
        "no reset": "x0 := 0" => "x0 := 1",
        "sends are receives": "!;" => "?;",
        "another target": "-> L1" => "-> L0",
        "a text that is none": "system" => "systems",
    ];
    for (name, reader) in wrong {
        let found = difference(drawn, reader, reader).expect(name);
        assert_eq!(found.library, found.second);
        let expected = "a text with the paths of the table's network";
        assert_eq!(found.expected.as_deref(), Some(expected), "{name}");
    }
}
