//! Texts for UPPAAL: of the worked example, of a table with many internal edges, and of
//! receive edges with as many bounds and pairs as there may be, up to the largest text.

use crate::clock::{in_turns, Effort};
use crate::report::line;
use crate::sides;
use crate::tables::{longest, worked_example};
use comparison::readers::Reader;
use reference::table::*;
use std::hint::black_box;
use timed_network::UPPAAL_ENOUGH;

/// A table, and the bytes of its text.
pub type Written = (&'static str, Table, usize);

/// The tables whose texts are timed. From one of the last three to the next there are
/// four times as many edges: the time of a byte should stay the same.
pub fn written() -> [Written; 5] {
    [
        ("the worked example", worked_example(1), 932),
        ("a long table", longest(), 42_180),
        ("a component with 5 receive edges", listeners(1, 5), 46_720),
        (
            "a component with 21 receive edges",
            listeners(1, 21),
            194_996,
        ),
        (
            "8 components with 22 receive edges each",
            listeners(8, 22),
            1_633_659,
        ),
    ]
}

/// So many components at rest, each with so many receive edges of eight pairs and four
/// highs, and the longest numbers.
fn listeners(components: usize, edges: usize) -> Table {
    let rest = Edge {
        source: 15,
        destination: 15,
        ..Edge::default()
    };
    let bound = ClockBound {
        clock: 0,
        low: MAX_TICKS,
        high: Some(MAX_TICKS),
    };
    let pair = |channel| Pair {
        channel,
        location: 15,
    };
    let listener = Edge {
        mask: 15,
        clock_bounds: [bound; 4].into_iter().collect(),
        action: Action::Receive((8..16).map(pair).collect()),
        ..rest
    };
    let (clock, bound) = (0, MAX_TICKS);
    let mut own = Component {
        initial: 15,
        clocks: 4,
        variables: 4,
        locations: vec![Location { clock, bound }; 16],
        edges: vec![listener; edges + 1],
    };
    own.edges[0] = rest;
    Table {
        version: 1,
        bands: Vec::new(),
        channels: MAX_CHANNELS,
        horizon: 20,
        components: vec![own; components],
    }
}

/// Times texts, after all sides have written the same. A byte's time is that of the text
/// without its checks.
pub fn time(effort: Effort) -> Result<(), String> {
    println!("texts for UPPAAL");
    for (name, table, length) in written() {
        demand_agreement(name, &table, length)?;
        let bytes = write_table(&table);
        println!("{name}: {} bytes, a text of {length}", bytes.len());
        let bytes = &bytes[..];
        let check = |reader: Reader| move || (reader.check)(black_box(bytes));
        let uppaal = |reader: Reader| {
            let mut text = vec![0; UPPAAL_ENOUGH];
            move || (reader.uppaal)(black_box(bytes), &mut text)
        };
        let checked = in_turns(effort, sides().map(check));
        let whole = in_turns(effort, sides().map(uppaal));
        line("uppaal", whole);
        let mut each = whole;
        for (side, without) in each.iter_mut().zip(checked) {
            *side = side.each(without, length);
        }
        line("  a byte of it", each);
    }
    Ok(())
}

/// All sides write the same text of this length.
pub fn demand_agreement(name: &str, table: &Table, length: usize) -> Result<(), String> {
    let bytes = write_table(table);
    let written = |side: Reader| {
        let mut text = vec![0; UPPAAL_ENOUGH];
        let call = (side.uppaal)(&bytes, &mut text);
        text.truncate(call.size);
        (call.verdict.to_string(), text)
    };
    let [library, second, yardstick] = sides().map(written);
    if library != second || library != yardstick {
        return Err(format!("the text of {name}: the answers differ"));
    }
    let (verdict, text) = library;
    match (&verdict[..], text.len()) {
        ("accepted", found) if found == length => Ok(()),
        (_, found) => Err(format!(
            "the text of {name}: {verdict}, {found} bytes, not {length}"
        )),
    }
}
