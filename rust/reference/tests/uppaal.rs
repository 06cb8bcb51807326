//! The text for UPPAAL: the vectors, the worked example, each form of a guard written
//! out by hand, refusals.

mod common;

use common::*;
use reference::calls;
use reference::table::*;
use reference::uppaal::text;
use xta::{Process, System};

/// More bytes than any text has.
const AMPLE_TEXT: usize = 4_194_304;

/// The text that the call writes; what stands past it must stay.
fn written(table: &[u8], lent: usize) -> Result<Vec<u8>, Refusal> {
    let mut bytes = vec![7; lent];
    let size = calls::uppaal(table, &mut bytes);
    let past = size.unwrap_or(0);
    assert!(bytes[past..].iter().all(|byte| *byte == 7));
    bytes.truncate(past);
    size.map(|_| bytes)
}

/// How many of each thing a text has, as the vectors write it.
fn counted(system: &System) -> String {
    let mut words = system.channels.len().to_string();
    for process in &system.processes {
        let kind = |wanted| kinds(process).filter(|kind| *kind == wanted).count();
        let (clocks, variables) = (process.clocks.len(), process.variables.len());
        words += &format!("|{clocks} {variables} {} ", process.locations.len());
        words += &format!("{} {} {}", kind(None), kind(Some(true)), kind(Some(false)));
    }
    words
}

/// Of each transition whether it sends or receives, if it does.
fn kinds(process: &Process) -> impl Iterator<Item = Option<bool>> + '_ {
    let transitions = process.transitions.iter();
    transitions.map(|own| own.sync.map(|sync| sync.sends))
}

fn answer(request: &[String]) -> Result<String, Refusal> {
    let number = request[2].parse().unwrap();
    let table = unhex(&request[1]);
    if request[0] == "uppaal" {
        let text = written(&table, number)?;
        return Ok(counted(&xta::read(&text).unwrap()));
    }
    assert_eq!(request[0], "explore");
    let system = xta::read(&written(&table, AMPLE_TEXT)?).unwrap();
    let found = xta::explore(&system, number as u32).unwrap();
    let (states, delays, alone, joint) = (found.states, found.delays, found.alone, found.joint);
    Ok(format!("{states} {delays} {alone} {joint}"))
}

#[test]
fn all_vectors() {
    let vectors = vectors_of_uppaal();
    assert_eq!(vectors.len(), 210);
    for vector in vectors {
        assert_eq!(
            told(answer(&vector.request)),
            vector.answer,
            "{}",
            vector.name
        );
    }
}

#[test]
fn probe_and_hub_line_by_line() {
    let expected = "\
chan c0;

process P0() {
clock x0;
state
  L0 { x0 <= 5 },
  L1 { x0 <= 10 },
  W0_c0 { x0 <= 5 },
  W1 { x0 <= 10 };
init L0;
trans
  L0 -> W0_c0 { guard x0 <= 5 && x0 >= 3; sync c0!; },
  W0_c0 -> L1 { guard x0 == 5; },
  L1 -> W1 { guard x0 <= 10 && x0 >= 8; },
  W1 -> L0 { guard x0 == 10; assign x0 := 0; };
}

process P1() {
clock x0;
int[-32768,32767] v0;
state
  L0 { x0 <= 6 },
  L1 { x0 <= 10 },
  L2 { x0 <= 10 },
  W0_c0 { x0 <= 6 },
  W0 { x0 <= 6 },
  W1 { x0 <= 10 },
  W2 { x0 <= 10 };
init L0;
trans
  L0 -> W0_c0 { guard x0 <= 6 && x0 >= 2; sync c0?; },
  W0_c0 -> L1 { guard x0 == 6; },
  L0 -> W0 { guard x0 == 6 && x0 >= 2; },
  W0 -> L2 { guard x0 == 6; },
  L1 -> W1 { guard x0 <= 10 && x0 >= 9 && v0 + 1 >= -32768 && v0 + 1 <= 32767; },
  W1 -> L0 { guard x0 == 10; assign v0 := v0 + 1, x0 := 0; },
  L2 -> W2 { guard x0 <= 10 && x0 >= 9; },
  W2 -> L0 { guard x0 == 10; assign x0 := 0; };
}

system P0, P1;
";
    let bytes = written(&probe_and_hub(), AMPLE_TEXT).unwrap();
    assert_eq!(String::from_utf8(bytes).unwrap(), expected);
    assert_eq!(text(&probe_and_hub_table()), expected);
    assert_eq!(stored("probe_and_hub.xta"), expected.as_bytes());
}

fn stored(name: &str) -> Vec<u8> {
    let folder = concat!(env!("CARGO_MANIFEST_DIR"), "/../../corpus");
    std::fs::read(format!("{folder}/{name}")).unwrap()
}

/// The texts that are stored beside tables of the corpus.
#[test]
fn stored_texts() {
    for name in [
        "accepted_export_two_bounds_at_once",
        "accepted_export_stuck_between_ticks",
        "accepted_export_sums_out_of_range",
        "accepted_export_enters_broken",
        "accepted_export_eight_pairs",
        "probe_and_hub",
    ] {
        let text = written(&stored(&format!("{name}.bin")), AMPLE_TEXT).unwrap();
        assert!(text == stored(&format!("{name}.xta")), "{name}");
    }
}

/// A component of one location, with two clocks and two variables, and its transitions.
fn transitions(edge: Edge) -> Vec<String> {
    let own = Component {
        initial: 0,
        clocks: 2,
        variables: 2,
        locations: vec![location(9)],
        edges: vec![edge],
    };
    let mut table = table(20, vec![own]);
    table.channels = 3;
    let text = text(&table);
    xta::read(text.as_bytes()).unwrap();
    let lines = text.lines().skip_while(|line| *line != "trans").skip(1);
    lines
        .take_while(|line| *line != "}")
        .map(|line| line.trim_matches([' ', ',', ';']).to_string())
        .collect()
}

fn high(clock: u8, low: u16, high: Option<u16>) -> ClockBound {
    ClockBound { clock, low, high }
}

/// The first of several upper bounds that is reached.
#[test]
fn an_end_with_several_bounds() {
    let edge = Edge {
        clock_bounds: [high(1, 0, Some(7)), high(0, 4, None), high(0, 6, Some(2))]
            .into_iter()
            .collect(),
        mask: 2,
        ..Edge::default()
    };
    let expected = [
        "L0 -> W0 { guard x0 <= 9 && x1 <= 7 && x0 <= 2 && x1 >= 0 && x0 >= 4 && x0 >= 6; }",
        "W0 -> L0 { guard x0 == 9 && x1 <= 7 && x0 <= 2; assign x1 := 0; }",
        "W0 -> L0 { guard x0 < 9 && x1 == 7 && x0 <= 2; assign x1 := 0; }",
        "W0 -> L0 { guard x0 < 9 && x1 < 7 && x0 == 2; assign x1 := 0; }",
    ];
    assert_eq!(transitions(edge), expected);
}

/// Each pair, then the timeout, which is taken at an end alone.
#[test]
fn a_receive_with_two_pairs() {
    let edge = Edge {
        clock_bounds: [high(1, 3, Some(60_000))].into_iter().collect(),
        action: receive(&[(2, 0), (0, 0)]),
        ..Edge::default()
    };
    let expected = [
        "L0 -> W0_c2 { guard x0 <= 9 && x1 <= 60000 && x1 >= 3; sync c2?; }",
        "W0_c2 -> L0 { guard x0 == 9 && x1 <= 60000; }",
        "W0_c2 -> L0 { guard x0 < 9 && x1 == 60000; }",
        "L0 -> W0_c0 { guard x0 <= 9 && x1 <= 60000 && x1 >= 3; sync c0?; }",
        "W0_c0 -> L0 { guard x0 == 9 && x1 <= 60000; }",
        "W0_c0 -> L0 { guard x0 < 9 && x1 == 60000; }",
        "L0 -> W0 { guard x0 == 9 && x1 <= 60000 && x1 >= 3; }",
        "L0 -> W0 { guard x0 < 9 && x1 == 60000 && x1 >= 3; }",
        "W0 -> L0 { guard x0 == 9 && x1 <= 60000; }",
        "W0 -> L0 { guard x0 < 9 && x1 == 60000; }",
    ];
    assert_eq!(transitions(edge), expected);
}

fn update(variable: u8, operation: Operation, number: i16) -> Update {
    Update {
        variable,
        operation,
        number,
    }
}

/// The guard and the assignments of an edge with these updates alone.
fn updated(updates: &[Update]) -> [String; 2] {
    let edge = Edge {
        action: Action::Internal(updates.iter().copied().collect()),
        ..Edge::default()
    };
    transitions(edge).try_into().unwrap()
}

/// Each add is asked for with all before it, until the variable is set.
#[test]
fn updates_stay_in_range() {
    use Operation::{Add, Set};
    let [into, out] = updated(&[
        update(0, Add, 32_767),
        update(1, Add, -3),
        update(0, Add, -1),
        update(0, Add, i16::MIN),
    ]);
    let guard = "x0 <= 9 && v0 + 32767 >= -32768 && v0 + 32767 <= 32767 \
                 && v1 - 3 >= -32768 && v1 - 3 <= 32767 \
                 && v0 + 32766 >= -32768 && v0 + 32766 <= 32767 \
                 && v0 - 2 >= -32768 && v0 - 2 <= 32767";
    assert_eq!(into, format!("L0 -> W0 {{ guard {guard}; }}"));
    let assign = "v0 := v0 + 32767, v1 := v1 - 3, v0 := v0 - 1, v0 := v0 - 32768";
    assert_eq!(
        out,
        format!("W0 -> L0 {{ guard x0 == 9; assign {assign}; }}")
    );
    let guard = |updates: &[Update]| {
        let [into, _] = updated(updates);
        let guard = into.strip_prefix("L0 -> W0 { guard x0 <= 9").unwrap();
        guard.strip_suffix("; }").unwrap().to_string()
    };
    assert_eq!(guard(&[update(0, Set, -4)]), "");
    assert_eq!(guard(&[update(0, Set, 32_766), update(0, Add, 1)]), "");
    let [over, back] = [update(0, Add, 1), update(0, Add, -1)];
    let most = update(0, Set, i16::MAX);
    assert_eq!(guard(&[most, over]), " && false");
    assert_eq!(guard(&[most, over, back]), " && false");
    assert_eq!(guard(&[most, over, over]), " && false && false");
    assert_eq!(
        guard(&[most, over, most, update(1, Add, 0)])
            .matches("false")
            .count(),
        1
    );
    let nothing = " && v0 + 0 >= -32768 && v0 + 0 <= 32767";
    assert_eq!(guard(&[update(0, Add, 0), most]), nothing);
}

#[test]
fn data_bounds_of_a_send() {
    let bound = |variable, low, high| DataBound {
        variable,
        low,
        high,
    };
    let edge = Edge {
        data_bounds: [bound(1, -4, 9), bound(0, 3, i16::MIN)]
            .into_iter()
            .collect(),
        mask: 3,
        action: Action::Send(1),
        ..Edge::default()
    };
    let expected = [
        "L0 -> W0_c1 { guard x0 <= 9 && v1 >= -4 && v1 <= 9 && v0 >= 3 && v0 <= -32768; \
         sync c1!; }",
        "W0_c1 -> L0 { guard x0 == 9; assign x0 := 0, x1 := 0; }",
    ];
    assert_eq!(transitions(edge), expected);
}

/// So many of an edge that takes part in nothing short: the longest numbers and names.
fn length_with(edge: Edge, count: usize) -> usize {
    let own = Component {
        initial: 15,
        clocks: 4,
        variables: 4,
        locations: vec![location(60_000); 16],
        edges: vec![edge; count],
    };
    let mut table = table(60_000, vec![own]);
    table.channels = 16;
    text(&table).len()
}

/// The figures behind the bytes that are always enough: 9,500 for an edge, 500 for a
/// component besides.
#[test]
fn the_longest_edges() {
    let data = DataBound {
        variable: 3,
        low: i16::MIN,
        high: i16::MIN,
    };
    let internal = Edge {
        source: 15,
        destination: 15,
        mask: 15,
        clock_bounds: [high(3, 60_000, Some(60_000)); 4].into_iter().collect(),
        data_bounds: [data; 4].into_iter().collect(),
        action: Action::Internal(
            [update(3, Operation::Add, i16::MIN); 4]
                .into_iter()
                .collect(),
        ),
        ..Edge::default()
    };
    let pairs: Vec<(u8, u8)> = (8..16).map(|channel| (channel, 15)).collect();
    let receive = Edge {
        data_bounds: List::new(),
        action: receive(&pairs),
        ..internal
    };
    let send = Edge {
        action: Action::Send(15),
        ..internal
    };
    for (edge, longest) in [(internal, 1608), (send, 1097), (receive, 9284)] {
        let ten = length_with(edge, 32) - length_with(edge, 22);
        assert_eq!(ten, 10 * longest);
        assert!(length_with(edge, 32) < 500 + 32 * 9500 + 116);
    }
    assert!(length_with(Edge::default(), 1) < 500 + 9500);
}

/// "Bands and H aren't exported."
#[test]
fn versions_bands_horizon_and_budgets_of_0_leave_no_trace() {
    let of = |table: &Table| written(&write_table(table), AMPLE_TEXT).unwrap();
    let plain = of(&probe_and_hub_table());
    let mut second = probe_and_hub_table();
    (second.version, second.bands) = (2, vec![3]);
    assert_eq!(of(&second), plain);
    assert_eq!(of(&budgeted([0; 5])), plain);
    second.horizon = 40;
    assert_eq!(of(&second), plain);
}

/// 1 to 12, then 25, then 13.
#[test]
fn the_order_of_the_refusals() {
    let needed = written(&probe_and_hub(), AMPLE_TEXT).unwrap().len();
    assert_eq!(
        written(&probe_and_hub(), needed).map(|text| text.len()),
        Ok(needed)
    );
    let refused_with = |table: &[u8], lent| written(table, lent).unwrap_err();
    for lent in [0, 1, needed - 1] {
        assert_eq!(refused_with(&probe_and_hub(), lent), refused(13, 255));
    }
    for edge in 0..5 {
        let mut budgets = [0; 5];
        budgets[edge] = 1;
        let table = write_table(&budgeted(budgets));
        for lent in [0, needed] {
            assert_eq!(refused_with(&table, lent), refused(25, 255));
        }
        let mut late = budgeted(budgets);
        late.components[1].edges[0].clock_bounds = [clock_bound(3, None)].into_iter().collect();
        assert_eq!(refused_with(&write_table(&late), 0), refused(16, 0));
    }
    let short = write_table(&budgeted([3, 0, 0, 0, 0]));
    assert_eq!(refused_with(&short, needed), refused(8, 0));
    assert_eq!(refused_with(&[], 0), refused(1, 255));
}
