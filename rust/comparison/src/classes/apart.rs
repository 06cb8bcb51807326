//! Nodes that wake apart (document 02, wish 6): verdicts at spreads, with margins
//! and gaps at them and next to them, and runs with offsets.

use super::Extent;
use crate::difference::{Outcome, Stop};
use crate::random::Random;
use crate::runs::apart::Handed;
use crate::runs::choices::{draw_apart, spoil, Manner};
use crate::runs::offsets::{not_permitted, permitted};
use crate::runs::Subject;
use crate::stored;
use crate::tables::{apart, chains};
use crate::trial::Trial;
use demand::TICK;
use reference::calls::largest_spread;
use reference::table::{write_table, Table};
use timed_network::{MAX_CHOICES, MAX_SPREAD};

/// The most choices of a list, about.
const MOST: usize = 3000;

/// A spread, mostly a small one.
fn any_spread(random: &mut Random) -> u32 {
    let some = random.below(MAX_SPREAD as usize + 1) as u32;
    random.pick(&[0, 1, 1, 2, 2, 3, 3, 7, some, 999, MAX_SPREAD])
}

/// A spread that there is not.
fn too_wide(random: &mut Random) -> u32 {
    random.pick(&[MAX_SPREAD + 1, MAX_SPREAD + 1, 65_536, u32::MAX])
}

/// Chains of windows: what has to be said follows from the windows.
pub(super) fn chains(trial: &mut Trial, random: &mut Random, extent: &Extent) -> Outcome {
    for _ in 0..6 * extent.rounds {
        let spread = any_spread(random);
        let chain = chains::drawn(random, spread);
        let bytes = write_table(&chain.table());
        let next = spread + random.pick(&[1, 1, 2, 5]);
        for tried in [spread, next, any_spread(random)] {
            trial.expect_spread(&bytes, tried, chain.answer(tried))?;
        }
        if random.once_in(4) {
            trial.largest(&bytes)?;
        }
    }
    Ok(())
}

/// One message with margins and gaps that are the spread, one tick less or more.
pub(super) fn margins(trial: &mut Trial, random: &mut Random, extent: &Extent) -> Outcome {
    for _ in 0..8 * extent.rounds {
        let spread = any_spread(random);
        let chain = chains::near(random, spread);
        let bytes = write_table(&chain.table());
        let before = spread.saturating_sub(1);
        for tried in [before, spread, spread + 1] {
            trial.expect_spread(&bytes, tried, chain.answer(tried))?;
        }
        if random.once_in(8) {
            let tried = too_wide(random);
            trial.expect_spread(&bytes, tried, chain.answer(tried))?;
        }
        if spread < 10 && random.once_in(2) {
            trial.largest(&bytes)?;
        }
    }
    Ok(())
}

/// Plans that are accepted at a spread, at that one and at greater ones.
pub(super) fn plans(trial: &mut Trial, random: &mut Random, extent: &Extent) -> Outcome {
    for _ in 0..2 * extent.rounds {
        let spread = random.pick(&[0, 1, 1, 2, 3, 7, 40]);
        let bytes = write_table(&apart::planned(random, spread));
        for tried in [spread, spread + 1, any_spread(random)] {
            trial.spread(&bytes, tried)?;
        }
        if random.once_in(4) {
            trial.largest(&bytes)?;
        }
    }
    Ok(())
}

/// Runs a table at a spread, where it is accepted at it: a list of each manner, half
/// of them spoilt, each with other offsets.
fn run(trial: &mut Trial, random: &mut Random, table: &[u8], spread: u32) -> Outcome {
    let Some(subject) = Subject::within(table, spread) else {
        return Ok(());
    };
    let demand = subject.demand();
    let nodes = subject.table.components.len();
    for manner in Manner::ALL {
        let offsets = permitted(random, spread, nodes);
        let mut choices = draw_apart(random, &demand, &offsets, manner, MOST);
        if random.once_in(2) {
            spoil(random, nodes, &mut choices);
        }
        let handed = Handed {
            choices: &choices,
            spread,
            offsets: &offsets,
        };
        trial.run_apart_accepted(&subject, &demand, &handed)?;
    }
    Ok(())
}

fn run_drawn(
    trial: &mut Trial,
    random: &mut Random,
    tables: usize,
    drawn: fn(&mut Random, u32) -> Table,
) -> Outcome {
    for _ in 0..tables {
        let spread = random.pick(&[0, 1, 1, 2, 2, 3, 3, 7]);
        let table = drawn(random, spread);
        run(trial, random, &write_table(&table), spread)?;
    }
    Ok(())
}

/// Runs of chains of windows.
pub(super) fn run_chains(trial: &mut Trial, random: &mut Random, extent: &Extent) -> Outcome {
    let drawn = |random: &mut Random, spread| chains::drawn(random, spread).table();
    run_drawn(trial, random, 8 * extent.rounds, drawn)
}

/// Runs of plans.
pub(super) fn run_plans(trial: &mut Trial, random: &mut Random, extent: &Extent) -> Outcome {
    run_drawn(trial, random, 2 * extent.rounds, apart::planned)
}

/// Runs of the tables of the corpus and the vectors that are accepted at a spread.
pub(super) fn run_stored(trial: &mut Trial, random: &mut Random, extent: &Extent) -> Outcome {
    let corpus = stored::corpus().map_err(Stop::Unreadable)?;
    let vectors = stored::vectors().map_err(Stop::Unreadable)?;
    for table in corpus.iter().chain(&vectors).step_by(extent.step) {
        let Ok(largest) = largest_spread(&table.bytes) else {
            continue;
        };
        for _ in 0..extent.rounds.div_ceil(500) {
            let spread = largest.min(random.pick(&[1, 3, 20, MAX_SPREAD]));
            run(trial, random, &table.bytes, spread)?;
        }
    }
    Ok(())
}

/// Runs that are refused: by 20, and by what comes before it.
pub(super) fn refused(trial: &mut Trial, random: &mut Random, extent: &Extent) -> Outcome {
    for _ in 0..2 * extent.rounds {
        let spread = random.pick(&[0, 1, 2, 3, 7, 999, MAX_SPREAD]);
        let wide = too_wide(random);
        let tried = random.pick(&[spread, spread, spread, spread + 1, wide]);
        let bytes = write_table(&chains::drawn(random, spread).table());
        let length = random.below(20);
        try_refused(trial, random, &bytes, tried, length)?;
    }
    for _ in 0..extent.rounds.div_ceil(200) {
        let bytes = write_table(&apart::planned(random, 3));
        for length in [MAX_CHOICES, MAX_CHOICES + 1] {
            try_refused(trial, random, &bytes, 3, length)?;
        }
    }
    Ok(())
}

/// Runs a table under so many choices, mostly with an offset above the spread, with
/// enough bytes and with one more or too few.
fn try_refused(
    trial: &mut Trial,
    random: &mut Random,
    table: &[u8],
    spread: u32,
    length: usize,
) -> Outcome {
    let subject = Subject::within(table, spread);
    let needed = subject.as_ref().map_or(64, Subject::needed);
    let nodes = table[3].into();
    let offsets = match random.below(8) {
        0 => vec![spread; nodes],
        1 | 2 => permitted(random, spread, nodes),
        _ => not_permitted(random, spread, nodes),
    };
    let choices = vec![random.pick(&[0, 9, TICK]); length];
    let handed = Handed {
        choices: &choices,
        spread,
        offsets: &offsets,
    };
    let demand = subject.as_ref().map(Subject::demand);
    for lent in [needed, random.pick(&[needed + 1, needed - 1])] {
        trial.run_apart(table, demand.as_ref(), &handed, lent)?;
    }
    Ok(())
}
