//! Plans that are accepted at a spread.

use super::planned::{near_passages, table, Plan, Size, Style};
use crate::random::Random;
use reference::plan::{plan, Slots};
use reference::table::{Table, MAX_TICKS};

/// A plan with so many ticks for each one that its margins are one more than the
/// spread, or a plan with a guard of that many ticks or a little more.
pub fn planned(random: &mut Random, spread: u32) -> Table {
    match random.once_in(2) {
        true => stretched(random, spread),
        false => guarded(random, spread),
    }
}

fn stretched(random: &mut Random, spread: u32) -> Table {
    let size = Size::small(random);
    let plan = Plan::draw(random, &size).stretched(spread + 1);
    let lanes = plan.lanes(random);
    let style = Style::sparse(random);
    let horizon = plan.round * random.within(1..=2) as u32;
    let horizon = horizon.clamp(1, MAX_TICKS.into()) as u16;
    let mut table = table(random, &lanes, plan.channels, horizon, &style);
    if random.once_in(2) {
        table.horizon = near_passages(random, &table);
    }
    table
}

fn guarded(random: &mut Random, spread: u32) -> Table {
    let mut few = |least: u32| least + random.below(3) as u32;
    let [probes, slot, guard] = [few(1), few(1), few(spread + 1)];
    let slots = Slots {
        probes,
        slot,
        guard,
        period: few(probes * (slot + 2 * guard) + 1),
    };
    plan(&slots).expect("the numbers are in their ranges")
}
