//! Plans from four numbers (document 02, wish 4): at, inside and outside their
//! ranges, with the least period that there is and one less.

use super::running;
use super::Extent;
use crate::difference::Outcome;
use crate::programs;
use crate::random::Random;
use crate::trial::Trial;
use timed_network::{Slots, FIELDS, NO_MESSAGE};

/// The greatest period.
const MAX_PERIOD: usize = 30_000;

/// The ticks of a slot with its guards.
fn width(slots: &Slots) -> u32 {
    slots.slot + 2 * slots.guard
}

/// Numbers that can be planned, the period often one of the least or the
/// greatest.
fn drawn(random: &mut Random, longest: usize) -> Slots {
    let probes = random.within(1..=7) as u32;
    let [slot, guard] = [0, 0].map(|_| {
        let any = random.within(1..=longest);
        random.pick(&[1, any, any, longest]) as u32
    });
    let mut slots = Slots {
        probes,
        slot,
        guard,
        period: 0,
    };
    let least = (probes * width(&slots)) as usize + 1;
    let any = random.within(least..=MAX_PERIOD);
    let near = random.within(least..=(least + 3).min(MAX_PERIOD));
    slots.period = random.pick(&[least, near, any, any, 2 * least - 2, MAX_PERIOD]) as u32;
    slots.period = slots.period.clamp(least as u32, MAX_PERIOD as u32);
    slots
}

/// The schedule in closed form: in each of two periods all open at its start;
/// then, slot by slot, the probe rests and the hub goes on.
fn passages(slots: &Slots) -> Vec<[u32; FIELDS]> {
    let Slots {
        probes,
        slot,
        guard,
        period,
    } = *slots;
    let begins = |i: u32| i * width(slots);
    let sends = |i: u32| begins(i) + guard;
    let mut passages = Vec::new();
    for start in [0, period] {
        let hub = |i: u32| {
            let [ready, end, message] = match i < probes {
                true => [begins(i), begins(i + 1), i],
                false => [period - 1, period, NO_MESSAGE],
            };
            [
                probes,
                i,
                i,
                start + begins(i),
                start + ready,
                start + end,
                message,
            ]
        };
        for i in 0..probes {
            let (from, to) = (start + sends(i), start + sends(i) + slot);
            passages.push([i, 0, 0, start, from, to, i]);
        }
        passages.push(hub(0));
        for i in 0..probes {
            let (entry, end) = (start + sends(i) + slot, start + period);
            passages.push([i, 1, 1, entry, end - 1, end, NO_MESSAGE]);
            passages.push(hub(i + 1));
        }
    }
    passages
}

/// Lends bytes of the lengths that matter. The table is accepted, and its
/// schedule is the closed form.
fn accept(trial: &mut Trial, slots: Slots, turn: usize) -> Outcome {
    let size = 29 + 55 * slots.probes as usize;
    let [enough, few, other] = programs::lengths(size, turn as u64);
    let written = trial.plan(slots, enough)?;
    trial.plan(slots, few)?;
    trial.plan(slots, other)?;
    match written {
        Some(table) => trial.expect_passages(&table, &passages(&slots)),
        None => trial.expect_plan(slots, enough, "a plan"),
    }
}

/// Numbers that can be planned; then the same with the greatest period that
/// cannot.
pub(super) fn planned(trial: &mut Trial, random: &mut Random, extent: &Extent) -> Outcome {
    for turn in 0..3 * extent.rounds {
        let longest = random.pick(&[1, 3, 20, 255, 1000, 1000]);
        let slots = drawn(random, longest);
        accept(trial, slots, turn)?;
        let period = slots.probes * width(&slots);
        let lent = random.pick(&[0, 83, 414]);
        trial.expect_plan(Slots { period, ..slots }, lent, "refused 18 255")?;
    }
    Ok(())
}

/// A number outside a range that ends here: next to it, far away, or one that
/// comes back into the range where bits are lost.
fn outside(random: &mut Random, most: u32) -> u32 {
    let bits = random.pick(&[1 << 8, 1 << 16, 1 << 31, u32::MAX]);
    let low = random.within(1..=most as usize) as u32;
    let far = (random.number() >> 32) as u32;
    let drawn = random.pick(&[0, most + 1, far, bits, bits.wrapping_add(low), bits - low]);
    match (1..=most).contains(&drawn) {
        true => most + 1,
        false => drawn,
    }
}

/// One number, or all of them, outside its range: 18, whatever is lent.
pub(super) fn out_of_range(trial: &mut Trial, random: &mut Random, extent: &Extent) -> Outcome {
    for turn in 0..6 * extent.rounds {
        let mut slots = drawn(random, 1000);
        let all = turn % 8 == 0;
        if all || turn % 4 == 0 {
            slots.probes = outside(random, 7);
        }
        if all || turn % 4 == 1 {
            slots.slot = outside(random, 1000);
        }
        if all || turn % 4 == 2 {
            slots.guard = outside(random, 1000);
        }
        if all || turn % 4 == 3 {
            slots.period = outside(random, MAX_PERIOD as u32);
        }
        let lent = random.pick(&[0, 7, 139, 414, 500]);
        trial.expect_plan(slots, lent, "refused 18 255")?;
    }
    Ok(())
}

/// Runs of plans under choices of all manners, to the horizon or not.
pub(super) fn run(trial: &mut Trial, random: &mut Random, extent: &Extent) -> Outcome {
    for turn in 0..extent.rounds {
        let longest = random.pick(&[1, 3, 20]);
        let mut slots = drawn(random, longest);
        let least = slots.probes * width(&slots) + 1;
        slots.period = slots.period.min(least + random.below(20) as u32);
        accept(trial, slots, turn)?;
        let Some(table) = trial.plan(slots, 414)? else {
            continue;
        };
        running::run(trial, random, &table, 5, 3000)?;
    }
    Ok(())
}
