//! Accepted plans with one thing changed, by one tick where ticks are meant.
//! What is changed decides the number of the refusal.

use super::Extent;
use crate::difference::Outcome;
use crate::random::Random;
use crate::readers::refused;
use crate::tables::bands;
use crate::tables::planned::{
    near_passages, passages, table, Lane, Plan, Size, Slot, Step, Style, Work,
};
use crate::trial::Trial;
use reference::schedule::Passage;
use reference::table::{write_table, Action, Operation, Table, Update, MAX_TICKS};
use std::collections::BTreeSet;
use timed_network::Verdict;

/// Small plans mostly, any plan sometimes.
fn drawn(random: &mut Random) -> Plan {
    let size = match random.once_in(4) {
        true => Size::any(random),
        false => Size::small(random),
    };
    Plan::draw(random, &size)
}

/// The table of a plan's lanes, up to two rounds long.
fn written(random: &mut Random, plan: &Plan, lanes: &[Lane]) -> Table {
    let style = Style::sparse(random);
    let rounds = random.within(1..=2) as u32;
    let horizon = (plan.round * rounds).min(MAX_TICKS.into()) as u16;
    table(random, lanes, plan.channels, horizon, &style)
}

/// Tries a plan and what one change of it gives, as often as the extent says;
/// then with horizons about which the change may begin to count. A plan that
/// leaves no room for the change is left out.
fn try_changes(
    trial: &mut Trial,
    random: &mut Random,
    extent: &Extent,
    number: u8,
    change: fn(&mut Random, &Plan) -> Option<Plan>,
) -> Outcome {
    for _ in 0..2 * extent.rounds {
        let plan = drawn(random);
        let Some(changed) = change(random, &plan) else {
            continue;
        };
        let right = written(random, &plan, &plan.plain_lanes());
        trial.expect(&write_table(&right), Verdict::Accepted)?;
        let mut wrong = written(random, &changed, &changed.plain_lanes());
        if number == 10 {
            bands::on_one_band(random, &mut wrong);
        }
        trial.expect_number(&write_table(&wrong), number)?;
        let horizon = wrong.horizon;
        for _ in 0..3 {
            wrong.horizon = horizon;
            wrong.horizon = near_passages(random, &wrong);
            trial.compare(&write_table(&wrong))?;
        }
    }
    Ok(())
}

/// Two senders on one tick: the second one starts when the first one ends.
pub(super) fn senders(trial: &mut Trial, random: &mut Random, extent: &Extent) -> Outcome {
    try_changes(trial, random, extent, 10, collide)
}

/// The same in version 2: past 10 if the two are on two bands.
pub(super) fn senders_on_bands(trial: &mut Trial, random: &mut Random, extent: &Extent) -> Outcome {
    for _ in 0..4 * extent.rounds {
        let plan = drawn(random);
        let Some(changed) = collide(random, &plan) else {
            continue;
        };
        let mut table = written(random, &changed, &changed.plain_lanes());
        bands::apart(random, &mut table, 0);
        bands::on_one_band(random, &mut table);
        trial.expect_number(&write_table(&table), 10)?;
        let collided = collisions(&table);
        for _ in 0..3 {
            table.bands = bands::of_each(random, table.channels);
            let bytes = write_table(&table);
            let disturbed = collided
                .iter()
                .any(|[one, other]| table.band(*one) == table.band(*other));
            match disturbed {
                true => trial.expect_number(&bytes, 10)?,
                false => trial.expect_past(&bytes, 10)?,
            }
        }
    }
    Ok(())
}

/// The channels of the sends of two components that share a tick, in the
/// schedule of a table.
fn collisions(table: &Table) -> Vec<[u8; 2]> {
    let horizon = u32::from(table.horizon);
    let sends: Vec<(Passage, u8)> = passages(table)
        .into_iter()
        .filter_map(|passage| match passage.edge_in(table).action {
            Action::Send(channel) if passage.ready < horizon => Some((passage, channel)),
            _ => None,
        })
        .collect();
    let mut pairs = Vec::new();
    for (number, (one, channel)) in sends.iter().enumerate() {
        for (other, second) in &sends[..number] {
            if one.component != other.component && one.shares_a_tick(other) {
                pairs.push([*channel, *second]);
            }
        }
    }
    pairs
}

fn collide(random: &mut Random, plan: &Plan) -> Option<Plan> {
    let at = random.below(plan.slots.len());
    let (first, second) = (plan.slots.get(at)?, plan.slots.get(at + 1)?);
    let gap = [first.send[1], second.send[0]];
    if first.sender == second.sender {
        return None;
    }
    let mut changed = plan.clone();
    if plan.is_free(second.sender, gap) {
        changed.slots[at + 1].send[0] = gap[0];
    } else if plan.is_free(first.sender, gap) {
        changed.slots[at].send[1] = gap[1];
    } else {
        return None;
    }
    Some(changed)
}

/// A listener that starts or ends with the sender or a tick to either side, at
/// the send's other end, or past it; none, or two windows, of one component or
/// of two. Document 02, wish 3, has a number for each.
pub(super) fn listeners(trial: &mut Trial, random: &mut Random, extent: &Extent) -> Outcome {
    let changes: [(u8, fn(&mut Random, &Plan) -> Option<Plan>); 13] = [
        (16, |random, plan| {
            moved(random, plan, |[from, _], [_, end]| [from, end])
        }),
        (16, |random, plan| {
            moved(random, plan, |[from, _], [_, end]| [from + 1, end])
        }),
        (16, |random, plan| {
            moved(random, plan, |[_, to], [_, end]| [to, end])
        }),
        (11, |random, plan| {
            moved(random, plan, |[_, to], [_, end]| [to + 1, end])
        }),
        (17, |random, plan| {
            moved(random, plan, |[_, to], [start, _]| [start, to])
        }),
        (17, |random, plan| {
            moved(random, plan, |[_, to], [start, _]| [start, to - 1])
        }),
        (17, |random, plan| {
            moved(random, plan, |[from, _], [start, _]| [start, from])
        }),
        (11, |random, plan| {
            moved(random, plan, |[from, _], [start, _]| [start, from - 1])
        }),
        (16, |random, plan| moved(random, plan, |send, _| send)),
        (16, |random, plan| {
            moved(random, plan, |[from, to], _| [from + 1, to - 1])
        }),
        (11, unheard),
        (15, heard_twice),
        (15, heard_twice_by_one),
    ];
    for (number, change) in changes {
        try_changes(trial, random, extent, number, change)?;
    }
    Ok(())
}

/// Gives the listener of one slot another window inside its own, if that has
/// one tick's length.
fn moved(
    random: &mut Random,
    plan: &Plan,
    window: fn([u32; 2], [u32; 2]) -> [u32; 2],
) -> Option<Plan> {
    let mut changed = plan.clone();
    let at = random.below(plan.slots.len());
    let slot = changed.slots.get_mut(at)?;
    let [from, to] = window(slot.send, slot.listen?);
    slot.listen = Some([from, to]);
    (from < to).then_some(changed)
}

/// Nobody listens, or to another channel only.
fn unheard(random: &mut Random, plan: &Plan) -> Option<Plan> {
    let mut changed = plan.clone();
    let at = random.below(plan.slots.len());
    let slot = changed.slots.get_mut(at)?;
    let channel = slot.channel;
    slot.names.retain(|name| *name != channel);
    if slot.names.is_empty() {
        slot.listen = None;
    }
    Some(changed)
}

/// A third component listens, and shares the first or the last tick with the
/// send.
fn heard_twice(random: &mut Random, plan: &Plan) -> Option<Plan> {
    let at = random.below(plan.slots.len());
    let slot = plan.slots.get(at)?;
    let [first, last] = slot.send;
    let longer = 1 + random.below(3) as u32;
    let window = match random.once_in(2) {
        true => [first.saturating_sub(longer), first],
        false => [last, last + longer],
    };
    let third = random.below(plan.components);
    let apart = third != slot.sender && third != slot.hub;
    let fits = window[1] < plan.round && plan.is_free(third, window);
    if !apart || !fits {
        return None;
    }
    let mut changed = plan.clone();
    let step = Step::listen(window[0], window[1], &[slot.channel]);
    changed.beside.push((third, step));
    Some(changed)
}

/// The listener's window becomes two, which both share a tick with the send:
/// the first ends before the second starts, or when it does.
fn heard_twice_by_one(random: &mut Random, plan: &Plan) -> Option<Plan> {
    let mut changed = plan.clone();
    let at = random.below(plan.slots.len());
    let slot = changed.slots.get_mut(at)?;
    let ([from, to], [start, end]) = (slot.send, slot.listen?);
    let middle = random.within(from as usize..=to as usize) as u32;
    let second = random.within(middle as usize..=to as usize) as u32;
    slot.listen = Some([start, middle]);
    let step = Step::listen(second, end, &slot.names);
    changed.beside.push((slot.hub, step));
    Some(changed)
}

/// One listener with two senders: two windows of a hub become one.
pub(super) fn one_for_two(trial: &mut Trial, random: &mut Random, extent: &Extent) -> Outcome {
    try_changes(trial, random, extent, 12, merged)
}

fn merged(random: &mut Random, plan: &Plan) -> Option<Plan> {
    let at = random.below(plan.slots.len());
    let first = plan.slots.get(at)?;
    let same_hub = |slot: &Slot| slot.hub == first.hub;
    let offset = plan.slots[at + 1..].iter().position(same_hub)?;
    let second = &plan.slots[at + 1 + offset];
    let gap = [first.listen?[1], second.listen?[0]];
    let window = [first.listen?[0], second.listen?[1]];
    let mut changed = plan.clone();
    changed.slots[at].listen = Some(window);
    changed.slots[at].names = both_names(first.channel, second.channel);
    changed.slots[at + 1 + offset].listen = None;
    let alone = |channel| sends_in(plan, window, channel, first.hub);
    let heard = match first.channel == second.channel {
        true => alone(first.channel) == 2,
        false => alone(first.channel) == 1 && alone(second.channel) == 1,
    };
    (heard && plan.is_free(first.hub, gap)).then_some(changed)
}

fn both_names(first: u8, second: u8) -> Vec<u8> {
    let mut names = vec![first, second];
    names.dedup();
    names
}

/// How many sends of others on a channel a window meets.
fn sends_in(plan: &Plan, window: [u32; 2], channel: u8, hub: usize) -> usize {
    let meets = |send: [u32; 2]| send[0] <= window[1] && window[0] <= send[1];
    let slots = plan.slots.iter();
    let own = slots.filter(|s| s.channel == channel && s.sender != hub && meets(s.send));
    own.count()
}

/// No candidate: a window of one tick.
pub(super) fn no_candidate(trial: &mut Trial, random: &mut Random, extent: &Extent) -> Outcome {
    for _ in 0..2 * extent.rounds {
        let plan = drawn(random);
        let mut lanes = plan.plain_lanes();
        let component = random.below(lanes.len());
        let step = random.below(lanes[component].steps.len());
        let entry = lanes[component].entry(step) as u16;
        let end = lanes[component].steps[step].end;
        lanes[component].steps[step].ready = end - 1;
        let mut table = written(random, &plan, &lanes);
        table.horizon = entry + 1;
        trial.expect_past(&write_table(&table), 9)?;
        lanes[component].steps[step].ready = end;
        let mut table = written(random, &plan, &lanes);
        table.horizon = entry + 1;
        trial.expect(&write_table(&table), refused(8, component as u8))?;
        if entry > 0 {
            table.horizon = entry;
            trial.expect(&write_table(&table), Verdict::Accepted)?;
        }
    }
    Ok(())
}

/// A counter that leaves its range in one of the rounds.
pub(super) fn overflow(trial: &mut Trial, random: &mut Random, extent: &Extent) -> Outcome {
    for _ in 0..2 * extent.rounds {
        let size = Size::small(random);
        let plan = Plan::draw(random, &size);
        let mut lanes = plan.plain_lanes();
        let component = random.below(lanes.len());
        let rounds = random.within(1..=6) as u32;
        let last = lanes[component].steps.len() - 1;
        lanes[component].steps[last].work = Work::Internal(vec![counting(random, rounds)]);
        // The round after these is the first one that goes too far.
        let opening = plan.round * rounds + lanes[component].entry(last);
        let style = Style::sparse(random);
        let mut table = table(random, &lanes, plan.channels, opening as u16, &style);
        trial.expect(&write_table(&table), Verdict::Accepted)?;
        table.horizon += 1;
        trial.expect(&write_table(&table), refused(9, component as u8))?;
    }
    Ok(())
}

/// An addition that stays in range so many times and not once more.
fn counting(random: &mut Random, times: u32) -> Update {
    let most = match random.once_in(2) {
        true => i32::from(i16::MAX),
        false => i32::from(i16::MIN),
    };
    Update {
        variable: 0,
        operation: Operation::Add,
        number: (most / times as i32) as i16,
    }
}

/// Each bound of a small plan that the schedule meets, one more and one less.
pub(super) fn moved_bounds(trial: &mut Trial, random: &mut Random, extent: &Extent) -> Outcome {
    for _ in 0..extent.rounds.div_ceil(2) {
        let size = Size::small(random);
        let plan = Plan::draw(random, &size);
        let lanes = plan.lanes(random);
        let table = written(random, &plan, &lanes);
        for other in neighbours(&table) {
            trial.compare(&write_table(&other))?;
        }
    }
    Ok(())
}

/// The tables that differ from one in one bound of a location or of an edge
/// that the schedule takes, or in the horizon, by 1.
fn neighbours(table: &Table) -> Vec<Table> {
    let taken = |passage: &Passage| [passage.component, passage.edge].map(usize::from);
    let taken: BTreeSet<[usize; 2]> = passages(table).iter().map(taken).collect();
    let mut tables = Vec::new();
    for by in [1, u16::MAX] {
        let mut other = table.clone();
        other.horizon = table.horizon.wrapping_add(by).max(1);
        tables.push(other);
        for component in 0..table.components.len() {
            tables.extend(moved_locations(table, component, by));
        }
        for [component, edge] in &taken {
            tables.extend(moved_edge(table, *component, *edge, by));
        }
    }
    tables
}

/// The tables with the bound of one location of this component moved.
fn moved_locations(table: &Table, component: usize, by: u16) -> Vec<Table> {
    let moved = |location: usize| {
        let mut other = table.clone();
        let bound = &mut other.components[component].locations[location].bound;
        *bound = bound.wrapping_add(by);
        other
    };
    let locations = table.components[component].locations.len();
    (0..locations).map(moved).collect()
}

/// The tables with one bound of this edge moved.
fn moved_edge(table: &Table, component: usize, edge: usize, by: u16) -> Vec<Table> {
    let bounds = table.components[component].edges[edge].clock_bounds;
    let moved = |number: usize, high: bool| {
        let mut bounds: Vec<_> = bounds.iter().copied().collect();
        let bound = &mut bounds[number];
        match (high, &mut bound.high) {
            (true, Some(high)) => *high = high.wrapping_add(by),
            _ => bound.low = bound.low.wrapping_add(by),
        }
        let mut other = table.clone();
        other.components[component].edges[edge].clock_bounds = bounds.into_iter().collect();
        other
    };
    let numbers = 0..bounds.len();
    numbers
        .flat_map(|number| [moved(number, false), moved(number, true)])
        .collect()
}
