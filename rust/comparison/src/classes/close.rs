//! Windows so close together that many of them touch, and plans whose windows
//! are moved a little. Nothing is promised of them.

use super::Extent;
use crate::difference::Outcome;
use crate::random::Random;
use crate::tables::planned::{table, Lane, Plan, Size, Step, Style, Target, Work};
use crate::trial::Trial;
use reference::table::{write_table, Table};

/// Windows of up to four components within 20 ticks.
pub(super) fn windows(trial: &mut Trial, random: &mut Random, extent: &Extent) -> Outcome {
    for _ in 0..50 * extent.rounds {
        let table = close_windows(random);
        trial.compare(&write_table(&table))?;
    }
    Ok(())
}

/// A table of such windows.
pub(super) fn close_windows(random: &mut Random) -> Table {
    let channels = random.count(&(1..=3));
    let lanes: Vec<Lane> = (0..random.within(2..=4))
        .map(|_| lane(random, channels))
        .collect();
    let horizon = random.within(1..=20) as u16;
    let style = match random.once_in(3) {
        true => Style::sparse(random),
        false => Style::PLAIN,
    };
    table(random, &lanes, channels, horizon, &style)
}

/// Plans with some windows longer or shorter by a tick at either end.
pub(super) fn moved_windows(trial: &mut Trial, random: &mut Random, extent: &Extent) -> Outcome {
    for _ in 0..10 * extent.rounds {
        let table = moved_plan(random);
        trial.compare(&write_table(&table))?;
    }
    Ok(())
}

/// A table of such a plan.
pub(super) fn moved_plan(random: &mut Random) -> Table {
    let size = Size::small(random);
    let plan = Plan::draw(random, &size);
    let mut lanes = plan.lanes(random);
    let times = random.pick(&[2, 4, 9]);
    lanes.iter_mut().for_each(|lane| moved(random, lane, times));
    let rounds = random.within(1..=2) as u32;
    let horizon = (plan.round * rounds) as u16;
    let style = Style::sparse(random);
    table(random, &lanes, plan.channels, horizon, &style)
}

/// Moves some of a lane's windows, one in so many. They stay in their order,
/// each with a tick at least, and the round stays as long as it is.
fn moved(random: &mut Random, lane: &mut Lane, times: usize) {
    let last = lane.steps.len() - 1;
    for number in 0..=last {
        let entry = lane.entry(number);
        let next = lane.steps.get(number + 1).map(|step| step.ready);
        let step = &mut lane.steps[number];
        if random.once_in(times) {
            let ready = step.ready + random.below(3) as u32;
            step.ready = ready.saturating_sub(1).clamp(entry, step.end - 1);
        }
        if let (Some(next), true) = (next, random.once_in(times)) {
            let end = step.end + random.below(3) as u32;
            step.end = (end - 1).clamp(step.ready + 1, next.max(step.end));
        }
    }
}

/// Up to three windows, then a wait past any horizon.
fn lane(random: &mut Random, channels: u8) -> Lane {
    let listens = random.once_in(2);
    let mut steps = Vec::new();
    let mut entry = 0;
    for _ in 0..random.within(1..=3) {
        let ready = entry + random.pick(&[0, 0, 1, 2, 3]);
        let longest = if listens { 12 } else { 2 };
        let end = ready + 1 + random.below(longest) as u32;
        let work = work(random, channels, listens);
        steps.push(Step { ready, end, work });
        entry = end;
    }
    steps.push(Step::internal(entry, entry + 30));
    Lane::once(steps)
}

fn work(random: &mut Random, channels: u8, listens: bool) -> Work {
    let usual = !random.once_in(4);
    match (usual, listens) {
        (true, true) => listen(random, channels),
        (true, false) => Work::Send(random.count(&(0..=channels - 1))),
        (false, _) => Work::Internal(Vec::new()),
    }
}

/// A receive on some of the channels; some outcomes lead nowhere.
fn listen(random: &mut Random, channels: u8) -> Work {
    let mut names: Vec<u8> = (0..channels).collect();
    random.shuffle(&mut names);
    names.truncate(random.within(1..=channels.into()));
    let targets = [Target::Next, Target::Next, Target::Twin, Target::Dead];
    let mut pair = |channel| (channel, random.pick(&targets));
    let pairs = names.into_iter().map(&mut pair).collect();
    let (_, timeout) = pair(0);
    Work::Listen(pairs, timeout)
}
