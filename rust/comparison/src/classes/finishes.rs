//! Finish ticks in the observations (document 02, wish 9): works of several statements
//! that are finished at several ticks of their windows, messages, timeouts, and nodes
//! that wake apart.

use super::Extent;
use crate::difference::{Outcome, Stop};
use crate::random::Random;
use crate::runs::apart::Handed;
use crate::runs::choices::spoil;
use crate::runs::offsets::permitted;
use crate::runs::scattered::scattered;
use crate::runs::Subject;
use crate::stored;
use crate::tables::{apart, finishes};
use crate::trial::Trial;
use reference::calls::largest_spread;
use reference::table::{write_table, Table};
use timed_network::MAX_SPREAD;

/// The most choices of a list, about.
const MOST: usize = 3000;

/// Runs a table whose nodes start together under so many lists, where it is accepted.
/// Every fourth list is spoilt.
fn run(trial: &mut Trial, random: &mut Random, table: &[u8], lists: usize) -> Outcome {
    let Some(subject) = Subject::new(table) else {
        return Ok(());
    };
    let demand = subject.demand();
    for _ in 0..lists {
        let mut choices = scattered(random, &demand, &[], MOST);
        if random.once_in(4) {
            spoil(random, subject.table.components.len(), &mut choices);
        }
        trial.run_accepted(&subject, &demand, &choices)?;
    }
    Ok(())
}

/// The same at a spread, each list with offsets of its own.
fn run_apart(
    trial: &mut Trial,
    random: &mut Random,
    table: &[u8],
    spread: u32,
    lists: usize,
) -> Outcome {
    let Some(subject) = Subject::within(table, spread) else {
        return Ok(());
    };
    let demand = subject.demand();
    let nodes = subject.table.components.len();
    for _ in 0..lists {
        let offsets = permitted(random, spread, nodes);
        let mut choices = scattered(random, &demand, &offsets, MOST);
        if random.once_in(4) {
            spoil(random, nodes, &mut choices);
        }
        let handed = Handed {
            choices: &choices,
            spread,
            offsets: &offsets,
        };
        trial.run_apart_accepted(&subject, &demand, &handed)?;
    }
    Ok(())
}

/// Works of several statements in windows of several ticks.
pub(super) fn works(trial: &mut Trial, random: &mut Random, extent: &Extent) -> Outcome {
    for _ in 0..2 * extent.rounds {
        let table = write_table(&finishes::workers(random));
        run(trial, random, &table, 3)?;
        run_apart(trial, random, &table, 3, 2)?;
    }
    Ok(())
}

/// Messages and timeouts beside such works.
pub(super) fn messages(trial: &mut Trial, random: &mut Random, extent: &Extent) -> Outcome {
    for _ in 0..4 * extent.rounds {
        let table = write_table(&finishes::chain_with_workers(random, 0));
        run(trial, random, &table, 3)?;
    }
    Ok(())
}

/// The same, and plans, of nodes that wake apart.
pub(super) fn apart(trial: &mut Trial, random: &mut Random, extent: &Extent) -> Outcome {
    let makers: [fn(&mut Random, u32) -> Table; 3] = [
        finishes::chain_with_workers,
        finishes::chain_with_workers,
        apart::planned,
    ];
    for round in 0..6 * extent.rounds {
        let spread = random.pick(&[1, 1, 2, 2, 3, 3, 7]);
        let table = write_table(&makers[round % makers.len()](random, spread));
        run_apart(trial, random, &table, spread, 3)?;
    }
    Ok(())
}

/// The accepted tables of the corpus and the vectors, together and at a spread.
pub(super) fn stored(trial: &mut Trial, random: &mut Random, extent: &Extent) -> Outcome {
    let corpus = stored::corpus().map_err(Stop::Unreadable)?;
    let vectors = stored::vectors().map_err(Stop::Unreadable)?;
    for table in corpus.iter().chain(&vectors).step_by(extent.step) {
        let Ok(largest) = largest_spread(&table.bytes) else {
            continue;
        };
        run(trial, random, &table.bytes, 2)?;
        let spread = largest.min(random.pick(&[1, 3, 20, MAX_SPREAD]));
        run_apart(trial, random, &table.bytes, spread, 2)?;
    }
    Ok(())
}
