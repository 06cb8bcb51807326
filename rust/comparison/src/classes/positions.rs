//! Where components are: pairs at both sides of each entry, ready and end of accepted
//! tables, and lists with two faults.

use super::budgets;
use super::close::{close_windows, moved_plan};
use super::planned::{
    drawn, hub_and_probes, late_ticks, side_by_side, with_workers, workers_alone,
};
use super::running::{dead_end, short_ticks};
use super::Extent;
use crate::difference::{Outcome, Stop};
use crate::random::Random;
use crate::runs::Subject;
use crate::stored;
use crate::tables::planned::{near_passages, Style};
use crate::trial::Trial;
use reference::table::{write_table, Table};

/// Pairs about a table, if it is accepted.
fn locate(trial: &mut Trial, random: &mut Random, table: &[u8]) -> Outcome {
    match Subject::new(table) {
        Some(subject) => trial.position_around(random, &subject),
        None => Ok(()),
    }
}

/// The same of a table with a horizon next to an entry, now and then.
fn locate_table(trial: &mut Trial, random: &mut Random, mut table: Table) -> Outcome {
    if random.once_in(2) {
        table.horizon = near_passages(random, &table);
    }
    locate(trial, random, &write_table(&table))
}

/// All accepted tables of the vectors and the corpus.
pub(super) fn stored(trial: &mut Trial, random: &mut Random, extent: &Extent) -> Outcome {
    let tables = stored::vectors().and_then(|vectors| Ok((vectors, stored::corpus()?)));
    let (vectors, corpus) = tables.map_err(Stop::Unreadable)?;
    for table in vectors.iter().chain(&corpus) {
        for _ in 0..extent.rounds.div_ceil(200) {
            locate(trial, random, &table.bytes)?;
        }
    }
    Ok(())
}

/// A hub and its probes; several hubs, few edges or many; two plans on bands of their
/// own; locations that no edge leaves; edges with a budget.
pub(super) fn planned(trial: &mut Trial, random: &mut Random, extent: &Extent) -> Outcome {
    for _ in 0..extent.rounds {
        let size = short_ticks(random);
        let styles = [Style::sparse(random), Style::crowded(random)];
        for style in &styles {
            let table = drawn(random, &size, style);
            locate_table(trial, random, table)?;
        }
        let longest = random.pick(&[1, 3, 20]);
        for table in [
            hub_and_probes(random, longest),
            side_by_side(random),
            budgets::in_time_for_work(random),
        ] {
            locate_table(trial, random, table)?;
        }
        let table = dead_end(random);
        locate(trial, random, &write_table(&table))?;
    }
    Ok(())
}

/// Internal loops, alone and beside a plan: passages of several components that are
/// entered at one tick, of one tick's length, and up to 1,024 of them; and late ticks.
pub(super) fn workers(trial: &mut Trial, random: &mut Random, extent: &Extent) -> Outcome {
    for _ in 0..extent.rounds {
        for table in [
            workers_alone(random),
            with_workers(random),
            late_ticks(random),
        ] {
            locate_table(trial, random, table)?;
        }
    }
    Ok(())
}

/// Windows so close together that many of them touch, where they are accepted.
pub(super) fn close(trial: &mut Trial, random: &mut Random, extent: &Extent) -> Outcome {
    for _ in 0..3 * extent.rounds {
        for table in [close_windows(random), moved_plan(random)] {
            locate(trial, random, &write_table(&table))?;
        }
    }
    Ok(())
}
