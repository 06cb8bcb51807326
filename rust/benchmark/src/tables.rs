//! The tables that are timed. Each one is made by code with fixed numbers,
//! and has the length and the passages that its row says.

use crate::apart::SPREAD;
use comparison::random::Random;
use comparison::tables::budgets::window_lengths;
use comparison::tables::planned::{table, Lane, Plan, Step, Style};
use comparison::tables::WORKED_EXAMPLE;
use reference::calls::largest_spread;
use reference::checks::verdict;
use reference::schedule::schedule;
use reference::table::*;

/// A table that is accepted.
pub struct Row {
    /// What it is.
    pub name: String,
    /// Its bytes.
    pub table: Vec<u8>,
    /// Its nodes.
    pub nodes: usize,
    /// Its passages.
    pub passages: usize,
}

impl Row {
    fn new(name: &str, table: &Table, passages: usize) -> Row {
        let bytes = write_table(table);
        let (_, list) = verdict(&bytes).expect("the table is accepted");
        assert_eq!(list.len(), passages, "the passages of: {name}");
        Row {
            name: name.to_string(),
            table: bytes,
            nodes: table.components.len(),
            passages,
        }
    }

    /// The same row, whose table has to have so many bytes.
    fn of_length(self, length: usize) -> Row {
        assert_eq!(self.table.len(), length, "the bytes of: {}", self.name);
        self
    }
}

/// The rows with all calls.
pub fn rows() -> Vec<Row> {
    let mut rows = vec![
        Row::new("the worked example", &worked_example(1), 8).of_length(103),
        Row::new("four pairs", &with_passages(pairs(10), 1012), 1012),
        Row::new(
            "four pairs at once on four bands",
            &with_passages(at_once(), 1012),
            1012,
        ),
        Row::new(
            "four pairs, each edge with a budget",
            &with_passages(budgeted(), 1012),
            1012,
        ),
        Row::new("a long table", &with_passages(longest(), 1024), 1024).of_length(8192),
        Row::new(
            "the same to an early tick",
            &with_passages(longest(), 22),
            22,
        )
        .of_length(8192),
        Row::new("a hub and 7 probes", &with_passages(hub(1), 1024), 1024),
        Row::new(
            "32 edges from each location, the first taken at once",
            &with_passages(crowds(0), 1024),
            1024,
        ),
        Row::new(
            "32 edges from each location, none ready at once",
            &with_passages(crowds(1), 1024),
            1024,
        ),
    ];
    for passages in [128, 256, 512, 1024] {
        let table = with_passages(listeners(1), passages);
        rows.push(Row::new("six long listeners", &table, passages));
    }
    rows
}

/// The rows for ticks alone: whole runs of them are mostly ticks.
pub fn slow_rows() -> Vec<Row> {
    let mut slow = hub(50);
    slow.horizon = MAX_TICKS;
    let passages = schedule(&slow).expect("the table has a schedule").len();
    vec![
        Row::new("the worked example, slow", &worked_example(2000), 8),
        Row::new("a hub and 7 probes, slow", &slow, passages),
    ]
}

/// The rows for nodes that wake apart: tables with so many times as many ticks that
/// they are accepted at a spread of three.
pub fn apart_rows() -> Vec<Row> {
    let rows = vec![
        Row::new(
            "the worked example, four times as slow",
            &worked_example(4),
            8,
        ),
        Row::new(
            "a hub and 7 probes, twice as slow",
            &with_passages(hub(2), 1024),
            1024,
        ),
        Row::new(
            "six long listeners, four times as slow",
            &with_passages(listeners(4), 1024),
            1024,
        ),
    ];
    for row in &rows {
        assert_eq!(largest_spread(&row.table), Ok(SPREAD), "{}", row.name);
    }
    rows
}

/// "Probe and hub" with all ticks so many times as long.
pub fn worked_example(times: u16) -> Table {
    let mut table = read_table(&WORKED_EXAMPLE).expect("the worked example is accepted");
    table.horizon *= times;
    for component in &mut table.components {
        for location in &mut component.locations {
            location.bound *= times;
        }
        for edge in &mut component.edges {
            let longer = |bound: &ClockBound| ClockBound {
                low: bound.low * times,
                ..*bound
            };
            edge.clock_bounds = edge.clock_bounds.iter().map(longer).collect();
        }
    }
    table
}

/// The table of these lanes, in version 1.
fn plain(lanes: &[Lane], channels: u8) -> Table {
    let mut random = Random::new(Random::SEED);
    let mut table = table(&mut random, lanes, channels, 1, &Style::PLAIN);
    table.version = 1;
    table.bands.clear();
    table
}

/// A hub that hears 7 probes in each round, with all ticks so many times as
/// long.
pub fn hub(times: u32) -> Table {
    let plan = Plan::regular(7, 4 * times, 2 * times, 100 * times);
    plain(&plan.plain_lanes(), plan.channels)
}

/// Four pairs at the same ticks, each on a band of its own.
fn at_once() -> Table {
    let mut table = pairs(0);
    table.version = 2;
    table.bands = (0..table.channels).collect();
    table
}

/// Four pairs in version 3, each edge with a budget as long as its shortest window.
fn budgeted() -> Table {
    let mut table = with_passages(pairs(10), 1012);
    let passages = schedule(&table).expect("the table is accepted");
    let lengths = window_lengths(&table, &passages);
    (table.version, table.bands) = (3, vec![0; table.channels.into()]);
    for (own, lengths) in table.components.iter_mut().zip(lengths) {
        for (edge, lengths) in own.edges.iter_mut().zip(lengths) {
            edge.budget = lengths.map_or(0, |(shortest, _)| shortest as u16);
        }
    }
    table
}

/// Four senders, each with a hub of its own. Each pair begins so many ticks
/// after the one before.
fn pairs(apart: u32) -> Table {
    let sender = |pair: u32| {
        let start = apart * pair;
        let send = Step::send(start + 2, start + 5, pair as u8);
        Lane::new(vec![send, Step::internal(50, 60)])
    };
    let hub = |pair: u32| {
        let start = apart * pair;
        let listen = Step::listen(start + 1, start + 7, &[pair as u8]);
        let steps = vec![listen, Step::internal(45, 48), Step::internal(50, 60)];
        Lane::new(steps)
    };
    let lanes: Vec<Lane> = (0..4).map(sender).chain((0..4).map(hub)).collect();
    plain(&lanes, 4)
}

/// A sender and its hub, with all ticks so many times as long, and six nodes that
/// listen all the time to what nobody sends.
fn listeners(times: u32) -> Table {
    let rest = Step::internal(8 * times, 10 * times);
    let sender = Lane::new(vec![Step::send(2 * times, 4 * times, 0), rest.clone()]);
    let hub = Lane::new(vec![Step::listen(times, 6 * times, &[0]), rest]);
    let listener = Lane::once(vec![Step::listen(0, MAX_TICKS.into(), &[1])]);
    let mut lanes = vec![sender, hub];
    lanes.extend(vec![listener; 6]);
    plain(&lanes, 2)
}

/// The hub and its probes with as many edges as there may be, 8,192 bytes in
/// all. None of the edges put in is ever taken, but they leave the locations
/// that are passed. The last one is a receive with two pairs.
pub fn longest() -> Table {
    let mut table = hub(1);
    for component in &mut table.components {
        component.variables = 1;
    }
    let last = never_received();
    let mut left = LENGTHS.end() - write_table(&table).len() - edge_length(&last);
    let most = usize::from(MAX_EDGES);
    let mut slots: usize = table.components.iter().map(|c| most - c.edges.len()).sum();
    slots -= 1;
    for (number, component) in table.components.iter_mut().enumerate() {
        let room = if number == 7 { most - 1 } else { most };
        while component.edges.len() < room && left > 0 {
            let edge = never_taken(left.div_ceil(slots));
            left -= edge_length(&edge);
            slots -= 1;
            push(component, edge);
        }
    }
    push(&mut table.components[7], last);
    table
}

/// Eight nodes with one location and 32 edges from there, which are ready so
/// many ticks after the entry, one more and so on. The first is always taken.
fn crowds(first: u16) -> Table {
    let edge = |number: u16| {
        let bound = ClockBound {
            clock: 0,
            low: first + number,
            high: None,
        };
        Edge {
            mask: 1,
            clock_bounds: [bound].into_iter().collect(),
            ..Edge::default()
        }
    };
    let bound = first + 2 * u16::from(MAX_EDGES);
    let component = Component {
        initial: 0,
        clocks: 1,
        variables: 0,
        locations: vec![Location { clock: 0, bound }],
        edges: (0..MAX_EDGES.into()).map(edge).collect(),
    };
    Table {
        version: 1,
        bands: Vec::new(),
        channels: 0,
        horizon: 1,
        components: vec![component; MAX_COMPONENTS],
    }
}

/// Puts an edge into a component, from one of its locations by turns.
fn push(component: &mut Component, mut edge: Edge) {
    edge.source = (component.edges.len() % component.locations.len()) as u8;
    component.edges.push(edge);
}

/// A bound that no clock meets before the invariants of these tables end.
const NEVER: ClockBound = ClockBound {
    clock: 0,
    low: MAX_TICKS,
    high: None,
};

/// A receive edge with two pairs that is never taken.
fn never_received() -> Edge {
    let pair = |channel| Pair {
        channel,
        location: 0,
    };
    Edge {
        clock_bounds: [NEVER].into_iter().collect(),
        action: Action::Receive([pair(0), pair(1)].into_iter().collect()),
        ..Edge::default()
    }
}

/// An internal edge of so many bytes, 24 to 47, that is never taken.
fn never_taken(length: usize) -> Edge {
    let fits = |&(bounds, updates): &(usize, usize)| 7 + 5 * bounds + 4 * updates == length;
    let mut forms = (1..=8).flat_map(|bounds| (0..=4).map(move |updates| (bounds, updates)));
    let (bounds, updates) = forms.find(fits).expect("an edge has so many bytes");
    let clock_bounds = bounds.min(4);
    let data = DataBound {
        variable: 0,
        low: i16::MIN,
        high: i16::MAX,
    };
    let update = Update {
        variable: 0,
        operation: Operation::Set,
        number: 0,
    };
    Edge {
        clock_bounds: std::iter::repeat_n(NEVER, clock_bounds).collect(),
        data_bounds: std::iter::repeat_n(data, bounds - clock_bounds).collect(),
        action: Action::Internal(std::iter::repeat_n(update, updates).collect()),
        ..Edge::default()
    }
}

/// The bytes of an edge.
fn edge_length(edge: &Edge) -> usize {
    let items = match &edge.action {
        Action::Internal(updates) => 4 * updates.len(),
        Action::Send(_) => 1,
        Action::Receive(pairs) => 2 * pairs.len(),
    };
    7 + 5 * (edge.clock_bounds.len() + edge.data_bounds.len()) + items
}

/// The table with the least horizon that gives it so many passages or more.
pub fn with_passages(mut table: Table, passages: usize) -> Table {
    let (mut least, mut most) = (1, MAX_TICKS);
    while least < most {
        let middle = least + (most - least) / 2;
        table.horizon = middle;
        match schedule(&table) {
            Ok(list) if list.len() < passages => least = middle + 1,
            _ => most = middle,
        }
    }
    table.horizon = least;
    table
}

#[cfg(test)]
mod tests {
    use super::*;

    /// Each one is asserted to be what it is said to be.
    #[test]
    fn all_tables_can_be_made() {
        assert_eq!(rows().len(), 13);
        assert_eq!(slow_rows().len(), 2);
        assert_eq!(apart_rows().len(), 3);
    }

    #[test]
    fn eight_nodes_where_eight_are_said() {
        assert!(rows()[1..].iter().all(|row| row.nodes == 8));
    }
}
