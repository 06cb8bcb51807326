//! What comes again, and runs to horizons below, at and far beyond a table's own: rings,
//! slot plans, plans with messages, and the largest horizon.

use super::planned::{drawn, hub_and_probes, workers_alone};
use super::running::short_ticks;
use super::{tried, Extent};
use crate::difference::Outcome;
use crate::periods::{Far, Handed};
use crate::random::Random;
use crate::runs::choices::{draw, spoil, Manner};
use crate::runs::{self, Subject};
use crate::tables::planned::{shortened, Style};
use crate::tables::rings;
use crate::trial::Trial;
use reference::plan;
use reference::table::write_table;
use timed_network::{Pair, MAX_CHOICES, OBSERVATION, TICK};

/// The most passages of a schedule whose runs are drawn.
const PASSAGES: usize = 3000;
/// The most choices of a list that is drawn, about.
const CHOICES: usize = 2500;

/// Horizons about a table's own and about those at which a period ends.
fn horizon(random: &mut Random, own: u32, pair: Option<Pair>) -> u32 {
    let about = |random: &mut Random, tick: u32| (tick + random.below(3) as u32).saturating_sub(1);
    match (random.below(6), pair) {
        (0, _) => random.within(1..=own as usize) as u32,
        (1, _) => about(random, own).max(1),
        (2, _) | (_, None) => own,
        (_, Some(pair)) => {
            let turns = random.pick(&[1, 1, 2, 3, 10]);
            about(random, pair.to + turns * pair.ticks())
        }
    }
}

/// Asks for the pair of a table, and runs it to some horizons, each run held to demand 3
/// with the schedule to that horizon; now and then to one that is refused.
fn repeat(trial: &mut Trial, random: &mut Random, table: &[u8], times: usize) -> Outcome {
    let pair = trial.pair(table)?;
    let Some(subject) = Subject::new(table) else {
        return Ok(());
    };
    let own = u32::from(subject.table.horizon);
    for _ in 0..times {
        let horizon = horizon(random, own, pair);
        match Far::new(&subject, horizon, PASSAGES) {
            Some(far) => run_far(trial, random, &subject, &far, horizon)?,
            None => refused(trial, random, &subject, horizon)?,
        }
    }
    if random.once_in(4) {
        let horizon = random.pick(&[0, own + 1, u32::MAX]);
        refused(trial, random, &subject, horizon)?;
    }
    Ok(())
}

/// A run in one of the manners, with bytes of the lengths that matter.
fn run_far(
    trial: &mut Trial,
    random: &mut Random,
    subject: &Subject,
    far: &Far,
    horizon: u32,
) -> Outcome {
    let demand = far.demand();
    let own = subject.table.horizon;
    let stops = horizon > own.into() && random.once_in(2);
    let manner = match stops {
        true => random.pick(&[Manner::Early, Manner::Late]),
        false => random.pick(&Manner::ALL),
    };
    let mut choices = draw(random, &demand, manner, CHOICES);
    if stops {
        stop_beyond(random, own.into(), &mut choices);
    } else if random.once_in(3) {
        spoil(random, subject.table.components.len(), &mut choices);
    }
    let handed = Handed {
        choices: &choices,
        horizon,
        lent: runs::length(far.needed(), random.below(64) as u64),
    };
    trial
        .run_to(&subject.bytes, Some(&demand), &handed)
        .map(|_| ())
}

/// Cuts a list somewhere beyond so many ticks, if it goes so far, and lets ticks alone
/// follow: they make a node late, or are not allowed.
fn stop_beyond(random: &mut Random, ticks: usize, choices: &mut Vec<u8>) {
    let mut passed = choices.iter().enumerate().filter(|(_, c)| **c == TICK);
    if let Some((place, _)) = passed.nth(ticks) {
        let left = choices.len() - place;
        choices.truncate(place + random.below(left) + 1);
        choices.extend([TICK; 20]);
    }
}

/// A run that is refused, or has few choices: to horizon 0, to one without a pair, or to
/// one with more passages than there are bytes for.
fn refused(trial: &mut Trial, random: &mut Random, subject: &Subject, horizon: u32) -> Outcome {
    let choices = draw(random, &subject.demand(), Manner::Early, 40);
    let handed = Handed {
        choices: &choices,
        horizon,
        lent: random.pick(&[0, OBSERVATION, runs::AMPLE]),
    };
    trial.run_to(&subject.bytes, None, &handed).map(|_| ())
}

/// All tables of the vectors and the corpus.
pub(super) fn stored(trial: &mut Trial, random: &mut Random, extent: &Extent) -> Outcome {
    tried::stored(trial, random, extent, repeat)
}

/// Rings.
pub(super) fn rings(trial: &mut Trial, random: &mut Random, extent: &Extent) -> Outcome {
    for _ in 0..3 * extent.rounds {
        let most = random.pick(&[1, 2, 3]);
        let table = rings::rings(random, most);
        repeat(trial, random, &write_table(&table), 4)?;
    }
    Ok(())
}

/// Slot plans: each has the pair 0 and its period, also where its horizon is cut to a
/// tick of the first slot of its second period, whose message is not found then.
pub(super) fn plans(trial: &mut Trial, random: &mut Random, extent: &Extent) -> Outcome {
    for _ in 0..extent.rounds {
        let (probes, longest) = (random.within(1..=7), random.pick(&[1, 2, 5]));
        let [slot, guard] = [0, 0].map(|_| random.within(1..=longest) as u32);
        let least = probes as u32 * (slot + 2 * guard) + 1;
        let slots = plan::Slots {
            probes: probes as u32,
            slot,
            guard,
            period: least + random.below(20) as u32,
        };
        let mut table = plan::plan(&slots).expect("the numbers are in range");
        if random.once_in(2) {
            let ticks = 1 + random.below((slot + 2 * guard) as usize);
            table.horizon = slots.period as u16 + ticks as u16;
        }
        let table = write_table(&table);
        let expected = format!("0 {}", slots.period);
        trial.expect_pair(&table, &expected)?;
        repeat(trial, random, &table, 3)?;
    }
    Ok(())
}

/// A hub and its probes, and plans of any kind: messages and timeouts.
pub(super) fn planned(trial: &mut Trial, random: &mut Random, extent: &Extent) -> Outcome {
    for _ in 0..extent.rounds {
        let longest = random.pick(&[1, 2, 3]);
        let size = short_ticks(random);
        for table in [
            hub_and_probes(random, longest),
            drawn(random, &size, &Style::PLAIN),
            shortened(workers_alone(random), 60),
        ] {
            tried::any_horizon(trial, random, table, repeat)?;
        }
    }
    Ok(())
}

/// The largest horizon, of tables with few passages to it; and more than 1,000,000
/// choices.
pub(super) fn largest(trial: &mut Trial, random: &mut Random, extent: &Extent) -> Outcome {
    for _ in 0..extent.rounds.div_ceil(50) {
        let table = write_table(&rings::slow(random));
        trial.pair(&table)?;
        let Some(subject) = Subject::new(&table) else {
            continue;
        };
        let choices = draw(random, &subject.demand(), Manner::Any, 300);
        for horizon in [u32::MAX, u32::MAX - random.below(100_000) as u32] {
            for lent in [30 << 20, OBSERVATION] {
                let handed = Handed {
                    choices: &choices,
                    horizon,
                    lent,
                };
                trial.run_to(&table, None, &handed)?;
            }
        }
    }
    let table = write_table(&rings::rings(random, 1));
    let handed = Handed {
        choices: &vec![0; MAX_CHOICES + 1],
        horizon: 1,
        lent: runs::AMPLE,
    };
    trial.run_to(&table, None, &handed).map(|_| ())
}
