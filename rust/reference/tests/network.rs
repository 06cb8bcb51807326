//! The network's steps, one rule at a time, on the worked example.

mod common;

use common::*;
use reference::network::*;
use reference::table::*;

const SEND: Step = Step::Joint {
    sender: 0,
    send: 0,
    receiver: 1,
    receive: 0,
};

fn alone(component: u8, edge: u8) -> Step {
    Step::Alone { component, edge }
}

fn out(component: u8) -> Step {
    Step::Out { component }
}

fn ticks(count: usize) -> Vec<Step> {
    vec![Step::Tick; count]
}

/// Follows steps on the worked example.
fn example(steps: &[Step]) -> Result<State, usize> {
    let table = probe_and_hub_table();
    let answer = follow(&table, steps);
    assert_eq!(trace(&table, steps).map(|t| t.state), answer);
    answer
}

fn after(count: usize, steps: &[Step]) -> Result<State, usize> {
    example(&[&ticks(count), steps].concat())
}

#[test]
fn the_start() {
    let state = example(&[]).unwrap();
    assert_eq!(state.tick, 0);
    let place = Place {
        location: 0,
        entry: 0,
        clocks: [0; 4],
        variables: [0; 4],
        waiting: None,
    };
    assert_eq!(state.places, [place; 2]);
}

#[test]
fn an_invariant_stops_the_tick() {
    assert_eq!(after(5, &[]).unwrap().places[0].clocks, [5, 0, 0, 0]);
    assert_eq!(after(6, &[]), Err(5));
    // Once the probe waits, its own end stops it, then the hub's.
    assert_eq!(after(5, &[SEND, Step::Tick]), Err(6));
    assert_eq!(after(5, &[SEND, out(0), Step::Tick]).unwrap().tick, 6);
    assert_eq!(after(5, &[SEND, out(0), Step::Tick, Step::Tick]), Err(8));
}

#[test]
fn a_send_needs_both_windows() {
    assert_eq!(after(2, &[SEND]), Err(2));
    for tick in 3..=5 {
        let state = after(tick, &[SEND]).unwrap();
        let waiting = Waiting {
            edge: 0,
            message: Some(0),
        };
        assert_eq!(state.places.map_waiting(), [Some(waiting); 2]);
    }
    assert_eq!(after(3, &[alone(0, 0)]), Err(3), "not alone");
    assert_eq!(after(3, &[SEND, SEND]), Err(4), "not twice");
    let itself = Step::Joint {
        sender: 0,
        send: 0,
        receiver: 0,
        receive: 0,
    };
    assert_eq!(after(3, &[itself]), Err(3));
    let reversed = Step::Joint {
        sender: 1,
        send: 0,
        receiver: 0,
        receive: 0,
    };
    assert_eq!(after(3, &[reversed]), Err(3));
}

trait MapWaiting {
    fn map_waiting(&self) -> Vec<Option<Waiting>>;
}

impl MapWaiting for Vec<Place> {
    fn map_waiting(&self) -> Vec<Option<Waiting>> {
        self.iter().map(|place| place.waiting).collect()
    }
}

#[test]
fn a_send_needs_its_channel() {
    let mut table = probe_and_hub_table();
    table.channels = 2;
    table.components[1].edges[0].action = receive(&[(1, 1)]);
    let steps = [ticks(3), vec![SEND]].concat();
    assert_eq!(follow(&table, &steps), Err(3));
}

#[test]
fn a_receive_alone_only_at_its_end() {
    let mut table = probe_and_hub_table();
    table.components[0].locations[0].bound = 50;
    for tick in [2, 5] {
        let steps = [ticks(tick), vec![alone(1, 0)]].concat();
        assert_eq!(follow(&table, &steps), Err(tick));
    }
    let steps = [ticks(6), vec![alone(1, 0), out(1)]].concat();
    let state = follow(&table, &steps).unwrap();
    assert_eq!((state.places[1].location, state.places[1].entry), (2, 6));
}

#[test]
fn stepping_out_exactly_at_the_end() {
    assert_eq!(after(3, &[SEND, out(0)]), Err(4));
    assert_eq!(after(5, &[out(0)]), Err(5), "not waiting");
    let state = after(3, &[SEND, Step::Tick, Step::Tick, out(0)]).unwrap();
    let place = state.places[0];
    assert_eq!((place.location, place.entry), (1, 5));
    assert_eq!((place.clocks[0], place.waiting), (5, None));
}

/// Both components around their first cycle.
fn first_cycle() -> Vec<Step> {
    let mut steps = [ticks(3), vec![SEND], ticks(2), vec![out(0)]].concat();
    steps.extend([ticks(1), vec![out(1)], ticks(3)].concat());
    steps.extend([alone(0, 1), alone(1, 1)]);
    steps.extend([ticks(1), vec![out(1), out(0)]].concat());
    steps
}

#[test]
fn updates_and_resets() {
    let state = example(&first_cycle()).unwrap();
    assert_eq!(state.tick, 10);
    for place in &state.places {
        assert_eq!((place.location, place.entry), (0, 10));
        assert_eq!(place.clocks, [0; 4]);
    }
    assert_eq!(state.places[1].variables, [1, 0, 0, 0]);
}

#[test]
fn edges_that_cannot_be_stepped_in_on() {
    let steps = [ticks(3), vec![SEND], ticks(2), vec![out(0)]].concat();
    let then = |step| {
        let steps = [&steps[..], &[step]].concat();
        example(&steps)
    };
    assert_eq!(then(alone(0, 1)), Err(steps.len()), "before its ready");
    assert_eq!(then(alone(0, 0)), Err(steps.len()), "not from here");
    assert_eq!(then(alone(0, 9)), Err(steps.len()), "no such edge");
    assert_eq!(then(alone(7, 0)), Err(steps.len()), "no such component");
    assert_eq!(then(out(7)), Err(steps.len()), "no such component");
    assert_eq!(then(out(0)), Err(steps.len()), "not waiting");
}

/// A component with one edge from and to its only location.
fn single(bound: u16, low: u16, action: Action, data: Option<DataBound>) -> Table {
    let mut edge = edge(0, 0, 0, low, action);
    edge.data_bounds = data.into_iter().collect();
    Table {
        version: 1,
        bands: Vec::new(),
        channels: 0,
        horizon: 9,
        components: vec![Component {
            initial: 0,
            clocks: 1,
            variables: 1,
            locations: vec![location(bound)],
            edges: vec![edge],
        }],
    }
}

#[test]
fn the_network_needs_no_candidate() {
    let table = single(4, 4, internal(&[]), None);
    let steps = [ticks(4), vec![alone(0, 0), out(0)]].concat();
    let state = follow(&table, &steps).unwrap();
    assert_eq!((state.tick, state.places[0].entry), (4, 4));
    // The clock was not reset: the invariant is at its border.
    assert_eq!(step(&table, &state, Step::Tick), None);
    let table = single(4, 5, internal(&[]), None);
    assert_eq!(follow(&table, &steps), Err(4), "no window at all");
}

#[test]
fn data_bounds_and_updates_are_tried() {
    let bound = |low, high| {
        Some(DataBound {
            variable: 0,
            low,
            high,
        })
    };
    let may = |table: &Table| follow(table, &[alone(0, 0)]).is_ok();
    assert!(may(&single(4, 0, internal(&[]), bound(0, 0))));
    assert!(!may(&single(4, 0, internal(&[]), bound(1, 5))));
    assert!(!may(&single(4, 0, internal(&[]), bound(-5, -1))));
    assert!(may(&single(
        4,
        0,
        internal(&[(Operation::Add, -32_768)]),
        None
    )));
    let twice = internal(&[(Operation::Add, -32_768), (Operation::Add, -1)]);
    assert!(!may(&single(4, 0, twice, None)));
}

/// A step that is not allowed leaves the state as it was.
#[test]
fn a_refused_step_changes_nothing() {
    let table = probe_and_hub_table();
    let mut state = follow(&table, &ticks(5)).unwrap();
    let before = state.clone();
    for step in [Step::Tick, alone(0, 0), alone(1, 0), out(0), out(1)] {
        assert!(!advance(&table, &mut state, step));
        assert_eq!(state, before);
    }
    assert!(advance(&table, &mut state, SEND));
    assert_ne!(state, before);
}
