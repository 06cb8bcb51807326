//! Tables made from plans keep what the plans promise, and they are as
//! manifold as they have to be.

use comparison::random::Random;
use comparison::tables::planned::*;
use reference::checks::verdict;
use reference::schedule::Passage;
use reference::table::*;
use std::collections::BTreeSet;

/// The passages of a table that has to be accepted.
fn accepted(table: &Table) -> Vec<Passage> {
    let bytes = write_table(table);
    assert_eq!(read_table(&bytes).as_ref(), Ok(table));
    let (_, passages) = verdict(&bytes).expect("the table is accepted");
    passages
}

/// Many tables from plans of any size, each with its passages.
fn many(style: fn(&mut Random) -> Style) -> Vec<(Table, Vec<Passage>)> {
    let mut random = Random::new(11);
    let mut tables = Vec::new();
    for _ in 0..300 {
        let size = Size::any(&mut random);
        let plan = Plan::draw(&mut random, &size);
        let lanes = plan.lanes(&mut random);
        let style = style(&mut random);
        let horizon = (2 * plan.round).min(MAX_TICKS.into()) as u16;
        let table = table(&mut random, &lanes, plan.channels, horizon, &style);
        let passages = accepted(&table);
        tables.push((table, passages));
    }
    tables
}

#[test]
fn windows_are_those_of_the_plan() {
    let mut random = Random::new(12);
    for _ in 0..200 {
        let size = Size::any(&mut random);
        let plan = Plan::draw(&mut random, &size);
        let lanes = plan.lanes(&mut random);
        let style = Style::crowded(&mut random);
        let horizon = plan.round as u16;
        let table = table(&mut random, &lanes, plan.channels, horizon, &style);
        let passages = accepted(&table);
        for (component, lane) in lanes.iter().enumerate() {
            let own = passages
                .iter()
                .filter(|p| usize::from(p.component) == component);
            let windows: Vec<[u32; 2]> = own.map(|p| [p.ready, p.end]).collect();
            let planned: Vec<[u32; 2]> = lane.steps.iter().map(|s| [s.ready, s.end]).collect();
            assert_eq!(windows, planned);
        }
    }
}

/// Whether a receive passage has these properties.
fn receives(table: &Table, passage: &Passage, message: bool) -> bool {
    let receive = matches!(passage.edge_in(table).action, Action::Receive(_));
    receive && passage.message.is_some() == message
}

#[test]
fn messages_timeouts_and_horizons_occur() {
    let tables = many(Style::sparse);
    let count = |message| {
        let of = |(table, list): &(Table, Vec<Passage>)| {
            list.iter().filter(|p| receives(table, p, message)).count()
        };
        tables.iter().map(of).sum::<usize>()
    };
    assert!(count(true) > 1000);
    assert!(count(false) > 1000);
    let horizons: BTreeSet<u16> = tables.iter().map(|(table, _)| table.horizon).collect();
    assert!(horizons.first() < Some(&30));
    assert!(horizons.last() > Some(&50_000));
    let channels: BTreeSet<u8> = tables
        .iter()
        .flat_map(|(_, list)| list.iter().filter_map(|p| p.message))
        .collect();
    assert!(channels.len() > 8);
}

#[test]
fn windows_touch_each_other_and_the_horizon() {
    let tables = many(Style::sparse);
    let touching = |list: &[Passage]| {
        let at_entry = |p: &&Passage| p.ready == p.entry && p.entry > 0;
        list.iter().filter(at_entry).count()
    };
    assert!(tables.iter().map(|(_, list)| touching(list)).sum::<usize>() > 1000);
    let mut random = Random::new(13);
    let mut seen = BTreeSet::new();
    for (mut table, _) in tables {
        table.horizon = near_passages(&mut random, &table);
        let horizon = u32::from(table.horizon);
        for passage in accepted(&table) {
            seen.insert((passage.ready.cmp(&horizon), passage.end.cmp(&horizon)));
        }
    }
    // Both below it, one at it, it between them, both behind it.
    assert_eq!(seen.len(), 5);
}

#[test]
fn many_edges_leave_a_location_and_some_are_ready_together() {
    let tables = many(Style::crowded);
    let most = |table: &Table| {
        let edges = table.components.iter().map(|own| own.edges.len());
        edges.max().unwrap_or(0)
    };
    assert_eq!(tables.iter().map(|(table, _)| most(table)).max(), Some(32));
    let at_once = |component: &Component| {
        let sources: Vec<u8> = component.edges.iter().map(|edge| edge.source).collect();
        let count = |source: &u8| sources.iter().filter(|other| *other == source).count();
        sources.iter().map(count).max().unwrap_or(0)
    };
    let components = tables.iter().flat_map(|(table, _)| &table.components);
    assert!(components.map(at_once).max() > Some(15));
}

#[test]
fn resets_are_partial_and_highs_lie_below_the_location_s() {
    let tables = many(Style::sparse);
    let components = || tables.iter().flat_map(|(table, _)| &table.components);
    let partial = |own: &&Component| {
        let all = (1 << own.clocks) - 1;
        own.edges
            .iter()
            .any(|edge| edge.mask != 0 && edge.mask != all)
    };
    assert!(components().filter(partial).count() > 100);
    let high = |own: &&Component| {
        own.edges.iter().any(|edge| {
            let location = own.locations[usize::from(edge.source)];
            let below = |bound: &ClockBound| {
                bound.clock == location.clock
                    && bound.high.is_some_and(|high| high < location.bound)
            };
            edge.clock_bounds.iter().any(below)
        })
    };
    assert!(components().filter(high).count() > 100);
}

#[test]
fn a_regular_plan_is_the_slot_plan() {
    let plan = Plan::regular(2, 3, 1, 20);
    let lanes = plan.plain_lanes();
    let mut random = Random::new(1);
    let table = table(&mut random, &lanes, plan.channels, 20, &Style::PLAIN);
    let printed = reference::schedule::print(&accepted(&table));
    let expected = "c e l entry ready end msg\n\
                    0 0 0 0 1 4 0\n1 0 0 0 6 9 1\n2 0 0 0 0 5 0\n\
                    0 1 1 4 19 20 -\n2 1 1 5 5 10 1\n1 1 1 9 19 20 -\n2 2 2 10 19 20 -\n";
    assert_eq!(printed, expected);
}

#[test]
fn the_greatest_horizon_is_the_last_one_with_room() {
    let plan = Plan::regular(7, 1, 1, 30);
    let mut random = Random::new(1);
    let mut table = table(&mut random, &plan.plain_lanes(), 7, 1, &Style::PLAIN);
    table.horizon = greatest_horizon(&table);
    let count = accepted(&table).len();
    assert!((1000..=1024).contains(&count), "{count}");
    table.horizon += 1;
    let refusal = verdict(&write_table(&table)).unwrap_err();
    assert_eq!(refusal.number, 7);
    let shorter = shortened(table, 50);
    assert!((1..=50).contains(&accepted(&shorter).len()));
}

#[test]
fn workers_are_always_accepted() {
    let mut random = Random::new(14);
    let mut edges = 0;
    for number in 0..200 {
        let work = WorkerSize {
            ticks: random.pick(&[2, 9, 60]),
            locations: 1 + number % 16,
            edges: 32,
            silent: 0..3,
        };
        let components = vec![worker(&mut random, &work)];
        let table = Table {
            version: 1,
            bands: Vec::new(),
            channels: 3,
            horizon: 900,
            components,
        };
        let passages = accepted(&table);
        let taken: BTreeSet<u8> = passages.iter().map(|passage| passage.edge).collect();
        edges = edges.max(taken.len());
    }
    assert!(edges > 5, "{edges}");
}
