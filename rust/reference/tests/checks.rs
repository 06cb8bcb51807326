//! Checks 10 to 12, by hand-made cases and against the definitions.

mod common;

use common::*;
use reference::checks::{check_messages, verdict};
use reference::schedule::{schedule, Passage};
use reference::table::*;

/// A component that passes once with the given window and then rests.
fn once(window: (u16, u16), action: Action) -> Component {
    resting(
        vec![location(window.1)],
        vec![edge(0, 1, 0, window.0, action)],
    )
}

/// A component that passes twice, the second window after the first, and then
/// rests. The clock is not reset, so the windows are ticks.
fn twice(first: (u16, u16), second: (u16, u16), actions: [Action; 2]) -> Component {
    let [one, two] = actions;
    let edges = vec![edge(0, 1, 0, first.0, one), edge(1, 2, 0, second.0, two)];
    resting(vec![location(first.1), location(second.1)], edges)
}

/// Puts a last location behind the others, with an edge that comes late.
fn resting(mut locations: Vec<Location>, mut edges: Vec<Edge>) -> Component {
    let last = locations.len() as u8;
    locations.push(location(1000));
    edges.push(edge(last, last, 0, 999, internal(&[])));
    Component {
        initial: 0,
        clocks: 1,
        variables: 0,
        locations,
        edges,
    }
}

fn sends(channel: u8) -> Action {
    Action::Send(channel)
}

fn hears(channels: &[u8]) -> Action {
    receive(&channels.iter().map(|c| (*c, 1)).collect::<Vec<_>>())
}

/// The verdict on components with four channels, in version 1.
fn refusal(horizon: u16, components: Vec<Component>) -> Option<Refusal> {
    answered(Table {
        version: 1,
        bands: Vec::new(),
        channels: 4,
        horizon,
        components,
    })
}

/// The verdict on components with four channels on these bands.
fn on_bands(horizon: u16, bands: [u8; 4], components: Vec<Component>) -> Option<Refusal> {
    answered(Table {
        version: 2,
        bands: bands.to_vec(),
        channels: 4,
        horizon,
        components,
    })
}

/// The verdict on a table, which all pairs of passages must give too.
fn answered(table: Table) -> Option<Refusal> {
    let answer = verdict(&write_table(&table)).err();
    let passages = schedule(&table).unwrap();
    assert_eq!(answer, by_definition(&table, &passages));
    answer
}

#[test]
fn one_send_and_its_listener() {
    let pair = |send, receive| {
        refusal(
            20,
            vec![once(send, sends(0)), once(receive, hears(&[1, 0]))],
        )
    };
    assert_eq!(pair((3, 5), (2, 6)), None);
    let [nobody, late, early] = [11, 16, 17].map(|number| Some(refused(number, 0)));
    assert_eq!(pair((3, 5), (3, 6)), late, "starts together");
    assert_eq!(pair((3, 5), (4, 6)), late, "starts later");
    assert_eq!(pair((3, 5), (5, 8)), late, "shares the last tick");
    assert_eq!(pair((3, 5), (3, 5)), late, "starts and ends together");
    assert_eq!(pair((3, 6), (4, 5)), late, "starts later, ends earlier");
    assert_eq!(pair((3, 5), (2, 5)), early, "ends together");
    assert_eq!(pair((3, 5), (2, 4)), early, "ends earlier");
    assert_eq!(pair((3, 5), (1, 3)), early, "shares the first tick");
    assert_eq!(pair((3, 5), (6, 8)), nobody, "after it");
    assert_eq!(pair((3, 5), (1, 2)), nobody, "before it");
    assert_eq!(pair((30, 35), (2, 6)), None, "after the horizon");
    assert_eq!(pair((20, 25), (2, 6)), None, "at the horizon");
    assert_eq!(pair((19, 25), (2, 6)), nobody, "before the horizon");
    assert_eq!(pair((19, 25), (20, 26)), late, "a listener from it on");
    assert_eq!(
        pair((19, 25), (18, 26)),
        None,
        "windows past it count whole"
    );
}

#[test]
fn check_10_sends_of_two_components() {
    let two = |horizon, first, second| {
        let components = vec![
            once(first, sends(0)),
            once((1, 99), hears(&[0])),
            once(second, sends(1)),
            once((1, 98), hears(&[1])),
        ];
        refusal(horizon, components)
    };
    assert_eq!(two(20, (3, 5), (6, 8)), None);
    assert_eq!(two(20, (3, 5), (5, 8)), Some(refused(10, 0)));
    assert_eq!(
        two(20, (5, 8), (3, 5)),
        Some(refused(10, 0)),
        "first listed"
    );
    assert_eq!(
        two(20, (5, 30), (20, 40)),
        None,
        "the second is not counted"
    );
    assert_eq!(two(21, (5, 30), (20, 40)), Some(refused(10, 0)));
}

/// "Check 10 now concerns sends on one band only."
#[test]
fn check_10_sends_on_two_bands() {
    let two = |bands, first, second| {
        let components = vec![
            once(first, sends(0)),
            once((1, 99), hears(&[0])),
            once(second, sends(1)),
            once((1, 98), hears(&[1])),
        ];
        on_bands(20, bands, components)
    };
    let ten = Some(refused(10, 0));
    for one in 0..4 {
        for other in 0..4 {
            let expected = if one == other { ten } else { None };
            assert_eq!(two([one, other, 0, 0], (3, 5), (4, 8)), expected);
            assert_eq!(two([one, other, 0, 0], (4, 8), (3, 5)), expected);
            assert_eq!(two([one, other, 0, 0], (3, 5), (6, 8)), None);
        }
    }
}

/// The first send on whose band another one is, and 11 and 12 as before.
#[test]
fn only_check_10_asks_for_bands() {
    let four = |bands| {
        let send = |number: u8| once((3, 5), sends(number));
        let listener = |number: u8| once((2, 6), hears(&[number]));
        let components = (0..4).map(send).chain((0..4).map(listener));
        on_bands(20, bands, components.collect())
    };
    assert_eq!(four([3, 1, 0, 2]), None);
    assert_eq!(four([3, 1, 0, 1]), Some(refused(10, 1)));
    assert_eq!(four([3, 1, 3, 1]), Some(refused(10, 0)));
    let one = |bands, channel| {
        let components = vec![once((3, 5), sends(0)), once((2, 6), hears(&[channel]))];
        on_bands(20, bands, components)
    };
    assert_eq!(one([2, 2, 2, 2], 1), Some(refused(11, 0)), "one band");
    assert_eq!(one([2, 0, 0, 0], 0), None);
    let crowded = |bands| {
        let components = vec![
            once((3, 5), sends(0)),
            once((4, 6), sends(1)),
            once((2, 20), hears(&[0, 1])),
        ];
        on_bands(20, bands, components)
    };
    assert_eq!(crowded([0, 1, 0, 0]), Some(refused(12, 2)));
    assert_eq!(crowded([1, 1, 0, 0]), Some(refused(10, 0)));
}

/// A passage that is entered at a window's end, ready at once, shares it.
#[test]
fn windows_that_touch_at_an_entry() {
    let second = |action| twice((2, 5), (5, 9), [internal(&[]), action]);
    let sender = || once((3, 5), sends(0));
    let listener = || once((2, 6), hears(&[0]));
    let ten = vec![sender(), second(sends(1)), listener()];
    assert_eq!(refusal(20, ten), Some(refused(10, 0)));
    let fifteen = vec![sender(), second(hears(&[0])), listener()];
    assert_eq!(refusal(20, fifteen), Some(refused(15, 0)));
    let twelve = vec![
        once((3, 5), hears(&[0, 1])),
        twice((2, 5), (5, 9), [sends(0), sends(1)]),
    ];
    assert_eq!(refusal(20, twelve), Some(refused(16, 1)));
}

#[test]
fn check_10_one_component_may_touch_itself() {
    let both = twice((3, 5), (5, 7), [sends(0), sends(1)]);
    let listeners =
        |send: Component| vec![send, once((2, 6), hears(&[0])), once((4, 8), hears(&[1]))];
    assert_eq!(refusal(20, listeners(both)), None);
}

#[test]
fn check_10_comes_before_11_over_the_whole_schedule() {
    let components = vec![
        twice((3, 5), (10, 12), [sends(0), sends(1)]),
        once((11, 13), sends(2)),
    ];
    // The send of component 1 opened at tick 0, the other one at tick 5.
    assert_eq!(refusal(20, components), Some(refused(10, 1)));
}

#[test]
fn several_windows_are_15() {
    let others = |first: Component, second: Component| {
        refusal(20, vec![once((3, 5), sends(0)), first, second])
    };
    let listener = || once((2, 6), hears(&[0]));
    let fifteen = Some(refused(15, 0));
    assert_eq!(others(listener(), once((5, 9), hears(&[0]))), fifteen);
    assert_eq!(others(listener(), once((1, 3), hears(&[0]))), fifteen);
    assert_eq!(others(listener(), once((6, 9), hears(&[0]))), None);
    assert_eq!(others(listener(), once((1, 2), hears(&[0]))), None);
    assert_eq!(others(listener(), once((3, 5), hears(&[1]))), None);
    let same = |second| {
        let actions = [hears(&[0]), hears(&[0])];
        let hub = twice((2, 6), second, actions);
        refusal(20, vec![once((3, 6), sends(0)), hub])
    };
    assert_eq!(same((6, 9)), fifteen, "two windows of one component");
    assert_eq!(same((7, 9)), Some(refused(17, 0)), "the second is past it");
}

/// One send after the other, each with a fault of its own: the first one's
/// number, whatever the other's.
#[test]
fn the_first_send_at_fault_has_its_own_number() {
    let two = |first, second| {
        let hubs = [first, second].map(|listen| once(listen, hears(&[0])));
        let mut components = vec![twice((3, 5), (10, 12), [sends(0), sends(0)])];
        components.extend(hubs);
        refusal(20, components)
    };
    assert_eq!(two((2, 6), (9, 13)), None);
    assert_eq!(two((3, 6), (9, 12)), Some(refused(16, 0)));
    assert_eq!(two((2, 5), (10, 13)), Some(refused(17, 0)));
    assert_eq!(two((2, 6), (10, 13)), Some(refused(16, 0)));
    assert_eq!(two((2, 6), (9, 12)), Some(refused(17, 0)));
    assert_eq!(two((2, 6), (13, 14)), Some(refused(11, 0)));
}

#[test]
fn check_11_a_component_does_not_hear_itself() {
    let alone = twice((2, 6), (6, 9), [hears(&[0]), sends(0)]);
    assert_eq!(refusal(20, vec![alone]), Some(refused(11, 0)));
    let heard = vec![
        twice((2, 6), (6, 9), [hears(&[0]), sends(0)]),
        once((5, 10), hears(&[0])),
    ];
    assert_eq!(refusal(20, heard), None);
}

#[test]
fn check_11_names_the_first_send_at_fault() {
    let components = vec![
        twice((3, 5), (20, 22), [sends(0), sends(1)]),
        once((2, 6), hears(&[0])),
        once((9, 12), sends(3)),
    ];
    assert_eq!(refusal(40, components), Some(refused(11, 2)));
}

#[test]
fn check_12_two_sends_in_one_window() {
    let two = |first: (u16, u16), second: (u16, u16), channels: &[u8]| {
        let sender = twice(first, second, [sends(0), sends(1)]);
        refusal(40, vec![sender, once((2, 20), hears(channels))])
    };
    assert_eq!(two((3, 5), (7, 9), &[0, 1]), Some(refused(12, 1)));
    assert_eq!(two((3, 5), (7, 9), &[0]), Some(refused(11, 0)));
    let apart = vec![
        once((3, 5), sends(0)),
        once((7, 9), sends(1)),
        once((2, 20), hears(&[0, 1])),
    ];
    assert_eq!(refusal(40, apart), Some(refused(12, 2)));
    let past = vec![
        once((3, 5), sends(0)),
        once((40, 42), sends(1)),
        once((2, 50), hears(&[0, 1])),
    ];
    assert_eq!(refusal(40, past), None, "a send at H is not counted");
}

/// Checks 10 to 12 over all pairs, as the document words them.
fn by_definition(table: &Table, passages: &[Passage]) -> Option<Refusal> {
    let channel = |p: &Passage| match p.edge_in(table).action {
        Action::Send(channel) if p.ready < table.horizon.into() => Some(channel),
        _ => None,
    };
    let meets = |p: &Passage, q: &Passage| {
        p.component != q.component && p.ready <= q.end && q.ready <= p.end
    };
    let hears = |q: &Passage, p: &Passage| {
        channel(p).is_some_and(|c| meets(p, q) && q.edge_in(table).listens_to(c))
    };
    let band = |p: &Passage| channel(p).map(|c| table.bands.get(c as usize).map_or(0, |b| *b));
    let collides = |p: &&Passage| {
        let other = |q: &Passage| band(q) == band(p) && meets(p, q);
        channel(p).is_some() && passages.iter().any(other)
    };
    let unheard = |p: &Passage| {
        channel(p)?;
        let windows: Vec<_> = passages.iter().filter(|q| hears(q, p)).collect();
        let number = match &windows[..] {
            [] => 11,
            [q] if p.ready <= q.ready => 16,
            [q] if q.end <= p.end => 17,
            [_] => return None,
            _ => 15,
        };
        Some(refused(number, p.component))
    };
    let twice = |q: &&Passage| passages.iter().filter(|p| hears(q, p)).count() > 1;
    let at_fault =
        |number, passage: Option<&Passage>| passage.map(|p| refused(number, p.component));
    at_fault(10, passages.iter().find(collides))
        .or(passages.iter().find_map(unheard))
        .or(at_fault(12, passages.iter().find(twice)))
}

#[test]
fn many_schedules_by_definition() {
    let numbers = [0, 10, 11, 15, 16, 17, 12];
    let mut counts = numbers.map(|_| 0);
    for_each_schedule(30_000, |table, passages| {
        if passages.len() > 200 {
            return;
        }
        let answer = check_messages(table, passages).err();
        assert_eq!(answer, by_definition(table, passages));
        let number = answer.map_or(0, |refusal| refusal.number);
        counts[numbers.iter().position(|own| *own == number).unwrap()] += 1;
    });
    println!("accepted (0) or refused with {numbers:?}: {counts:?}");
    assert!(counts.iter().all(|count| *count > 20));
}
