//! Queries about the network of a table, in the form of the tool's query files: each
//! behind a comment that says what is asked, and what the schedule does.

#[cfg(test)]
mod answers;

use reference::table::{Action, Component, Edge, Operation, Table};
use timed_network::{FIELDS, NO_MESSAGE};

/// A passage of the schedule: component, edge, location, entry, ready, end, message.
type Row = [u32; FIELDS];

/// All queries: whether each location and each outcome of an edge is reached; where a
/// clock tells the tick, whether the network is stuck before the horizon, and whether time
/// goes on up to it; and whether a step is always to come.
pub(super) fn queries(table: &Table, rows: &[Row]) -> String {
    let mut text = String::new();
    for (number, component) in (0..).zip(&table.components) {
        for location in 0..component.locations.len() as u32 {
            text += &reached(number, location, rows);
        }
        for (edge, own) in (0..).zip(&component.edges) {
            for message in messages(own) {
                text += &taken(number, edge, own, message, rows);
            }
        }
    }
    text += &up_to_the_horizon(table);
    text + &always_a_step(table)
}

/// A comment and a query behind it.
fn query(words: &str, asked: &str) -> String {
    format!("/*\n{words}\n*/\n{asked}\n\n")
}

fn reached(component: u32, location: u32, rows: &[Row]) -> String {
    let entry = rows
        .iter()
        .find(|row| [row[0], row[2]] == [component, location]);
    let schedule = match entry {
        Some(row) => format!("The schedule enters it at tick {}.", row[3]),
        None => "The schedule does not enter it before the horizon.".to_string(),
    };
    let words = format!("Component {component} is in location {location}. {schedule}");
    query(&words, &format!("E<> P{component}.L{location}"))
}

/// The messages of an edge's outcomes: none of an internal edge, the channel of a send;
/// of a receive each of its pairs, and none for the timeout.
fn messages(edge: &Edge) -> Vec<Option<u8>> {
    match &edge.action {
        Action::Internal(_) => vec![None],
        Action::Send(channel) => vec![Some(*channel)],
        Action::Receive(pairs) => {
            let heard = pairs.iter().map(|pair| Some(pair.channel));
            heard.chain([None]).collect()
        }
    }
}

/// Whether an edge is taken with a message or without.
fn taken(component: u32, edge: u32, own: &Edge, message: Option<u8>, rows: &[Row]) -> String {
    let told = message.map_or(NO_MESSAGE, u32::from);
    let first = rows
        .iter()
        .find(|row| [row[0], row[1], row[6]] == [component, edge, told]);
    let schedule = match first {
        Some(row) => format!("The schedule has it from tick {} to {}.", row[4], row[5]),
        None => "The schedule does not have it before the horizon.".to_string(),
    };
    let work = match (&own.action, message) {
        (Action::Internal(_), _) => "works".to_string(),
        (Action::Send(channel), _) => format!("sends on channel {channel}"),
        (Action::Receive(_), Some(channel)) => format!("receives on channel {channel}"),
        (Action::Receive(_), None) => "receives nothing".to_string(),
    };
    let name = message.map_or(format!("W{edge}"), |channel| format!("W{edge}_c{channel}"));
    let words = format!("Component {component} {work} on edge {edge}. {schedule}");
    query(&words, &format!("E<> P{component}.{name}"))
}

/// A clock that no edge resets tells the tick: whether the network is stuck before the
/// horizon, and whether time comes to it.
fn up_to_the_horizon(table: &Table) -> String {
    let mut components = table.components.iter().enumerate();
    let found = components.find_map(|(number, own)| Some((number, never_reset(own)?)));
    let Some((number, clock)) = found else {
        return String::new();
    };
    let horizon = table.horizon;
    // The tool's time is dense: where a window ends a tick before the horizon, the
    // network may be stuck from then on, which is at whole ticks from the horizon on.
    let before = horizon - 1;
    let not_stuck = format!(
        "The network is not stuck before the horizon, tick {horizon}: no edge resets clock \
         x{clock} of P{number}, so that it tells the tick."
    );
    let goes_on = format!(
        "Time goes on up to the horizon: on every path that clock comes past tick {before}."
    );
    query(
        &not_stuck,
        &format!("A[] (deadlock imply P{number}.x{clock} > {before})"),
    ) + &query(&goes_on, &format!("A<> P{number}.x{clock} > {before}"))
}

/// Whether behind each state there is a step. It may be one of many at one tick.
fn always_a_step(table: &Table) -> String {
    let mut words = "Behind each state a step other than a delay can be made, now or later, also \
                     behind the horizon, which is not exported. That time goes on is not asked: \
                     steps may follow one another at one tick for ever."
        .to_string();
    for (number, own) in table.components.iter().enumerate() {
        for variable in (0..own.variables).filter(|variable| only_counts(own, *variable)) {
            words += &format!(
                "\nVariable v{variable} of P{number} only counts one way: once it can no more, no \
                 edge that adds to it is taken, and where no other goes on the answer is no."
            );
        }
    }
    query(&words, "A[] not deadlock")
}

/// Whether all that a component does to a variable is to add numbers of one sign to it.
fn only_counts(own: &Component, variable: u8) -> bool {
    let actions = own.edges.iter().map(|edge| &edge.action);
    let updates = actions.filter_map(|action| match action {
        Action::Internal(updates) => Some(updates),
        _ => None,
    });
    let on_it = updates
        .flat_map(|updates| updates.iter())
        .filter(|update| update.variable == variable);
    let signs: Vec<Option<i16>> = on_it
        .map(|update| match update.operation {
            Operation::Add => Some(update.number.signum()),
            Operation::Set => None,
        })
        .filter(|sign| *sign != Some(0))
        .collect();
    let one_way = |sign: i16| signs.iter().all(|own| *own == Some(sign));
    !signs.is_empty() && (one_way(1) || one_way(-1))
}

/// The first clock of a component that no edge resets.
fn never_reset(own: &Component) -> Option<u8> {
    let kept = |clock: &u8| own.edges.iter().all(|edge| !edge.resets((*clock).into()));
    (0..own.clocks).find(kept)
}

#[cfg(test)]
mod tests {
    use super::*;
    use reference::table::{read_table, Update};

    /// A table of the corpus, and its schedule.
    fn stored(name: &str) -> (Table, Vec<Row>) {
        let folder = concat!(env!("CARGO_MANIFEST_DIR"), "/../../corpus");
        let bytes = std::fs::read(format!("{folder}/{name}.bin")).unwrap();
        let rows = timed_network::passages(&bytes).unwrap();
        (read_table(&bytes).unwrap(), rows)
    }

    /// The queries alone.
    fn asked(text: &str) -> Vec<&str> {
        let is_query = |line: &&str| {
            let kinds = ["E<> ", "A[] ", "A<> "];
            kinds.iter().any(|kind| line.starts_with(kind))
        };
        text.lines().filter(is_query).collect()
    }

    #[test]
    fn probe_and_hub() {
        let (table, rows) = stored("probe_and_hub");
        let text = queries(&table, &rows);
        let first = "/*\nComponent 0 is in location 0. The schedule enters it at tick 0.\n*/\n\
                     E<> P0.L0\n\n";
        assert!(text.starts_with(first));
        let expected = "P0.L0 P0.L1 P0.W0_c0 P0.W1 P1.L0 P1.L1 P1.L2 P1.W0_c0 P1.W0 P1.W1 P1.W2";
        let mut lines: Vec<String> = expected
            .split(' ')
            .map(|name| format!("E<> {name}"))
            .collect();
        lines.push("A[] not deadlock".to_string());
        assert_eq!(asked(&text), lines);
        for words in [
            "Component 1 is in location 2. The schedule does not enter it before the horizon.",
            "Component 0 sends on channel 0 on edge 0. The schedule has it from tick 3 to 5.",
            "Component 1 receives on channel 0 on edge 0. The schedule has it from tick 2 to 6.",
            "Component 1 receives nothing on edge 0. The schedule does not have it before the horizon.",
            "Component 1 works on edge 1. The schedule has it from tick 9 to 10.",
            "Variable v0 of P1 only counts one way: ",
        ] {
            assert!(text.contains(words), "{words}");
        }
    }

    /// Each location and each waiting location of the text is asked for, and no other.
    #[test]
    fn names_are_those_of_the_text() {
        for name in [
            "probe_and_hub",
            "accepted_export_eight_pairs",
            "accepted_hub_and_three_probes",
        ] {
            let (table, rows) = stored(name);
            let text = queries(&table, &rows);
            let written = reference::uppaal::text(&table);
            let system = xta::read(written.as_bytes()).unwrap();
            let locations = system.processes.iter().flat_map(|process| {
                let names = process.locations.iter();
                names.map(|own| format!("E<> {}.{}", process.name, own.name))
            });
            let mut wanted: Vec<String> = locations.collect();
            let mut found: Vec<&str> = asked(&text);
            found.retain(|line| line.starts_with("E<> "));
            wanted.sort();
            found.sort();
            assert_eq!(found, wanted, "{name}");
        }
    }

    #[test]
    fn a_clock_that_tells_the_tick() {
        let (table, rows) = stored("accepted_dead_end_at_horizon");
        let text = queries(&table, &rows);
        let last = &asked(&text)[asked(&text).len() - 3..];
        let expected = [
            "A[] (deadlock imply P0.x0 > 4)",
            "A<> P0.x0 > 4",
            "A[] not deadlock",
        ];
        assert_eq!(last, expected);
        assert!(!text.contains("only counts"));
    }

    /// Numbers of one sign are added, and nothing is set; a number of 0 does not count.
    #[test]
    fn variables_that_only_count() {
        let add = |number| (Operation::Add, number);
        let counted = |updates: &[(Operation, i16)]| {
            let (mut table, rows) = stored("probe_and_hub");
            let updates = updates.iter().map(|&(operation, number)| Update {
                variable: 0,
                operation,
                number,
            });
            table.components[1].edges[1].action = Action::Internal(updates.collect());
            queries(&table, &rows).contains("Variable v0 of P1 only counts one way: ")
        };
        assert!(counted(&[add(3), add(0), add(1)]));
        assert!(counted(&[add(-1)]));
        assert!(!counted(&[]));
        assert!(!counted(&[add(0)]));
        assert!(!counted(&[add(3), add(-1)]));
        assert!(!counted(&[add(3), (Operation::Set, 0)]));
    }
}
