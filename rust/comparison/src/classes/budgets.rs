//! Edges with a work budget: tables of version 3 whose budgets are next to the lengths
//! of the windows.

use super::at_once;
use super::planned::{drawn, hub_and_probes, workers_alone};
use super::running::{run, short_ticks};
use super::Extent;
use crate::difference::Outcome;
use crate::random::Random;
use crate::tables::budgets::{self, mostly_suiting, near, suiting};
use crate::tables::planned::{passages, shortened, Style};
use crate::trial::Trial;
use reference::schedule::Passage;
use reference::table::*;
use timed_network::{Verdict, FIELDS, NO_MESSAGE};

/// A table that is accepted, in version 3 without budgets.
fn accepted(random: &mut Random) -> Table {
    loop {
        let table = match random.below(4) {
            0 => {
                let longest = random.pick(&[1, 3, 20]);
                hub_and_probes(random, longest)
            }
            1 => shortened(workers_alone(random), 80),
            kind => {
                let style = match kind {
                    2 => Style::sparse(random),
                    _ => Style::crowded(random),
                };
                let size = short_ticks(random);
                drawn(random, &size, &style)
            }
        };
        if let Some(table) = budgets::none(&table) {
            return table;
        }
    }
}

/// The seven fields of each passage.
fn fields(passages: &[Passage]) -> Vec<[u32; FIELDS]> {
    let fields = |passage: &Passage| passage.fields(NO_MESSAGE);
    passages.iter().map(fields).collect()
}

/// Budgets for which there is time: verdict and schedule are those without them.
pub(super) fn in_time(trial: &mut Trial, random: &mut Random, extent: &Extent) -> Outcome {
    for _ in 0..2 * extent.rounds {
        let mut table = accepted(random);
        let without = fields(&passages(&table));
        trial.expect_passages(&write_table(&table), &without)?;
        budgets::draw(random, &mut table, suiting);
        trial.expect_passages(&write_table(&table), &without)?;
    }
    Ok(())
}

/// A table with budgets for which there is time.
pub(super) fn in_time_for_work(random: &mut Random) -> Table {
    let mut table = accepted(random);
    budgets::draw(random, &mut table, suiting);
    table
}

/// All edges from a location that is entered have too short a window: 8. With budgets
/// of one tick less the passage that was refused is there.
pub(super) fn too_long(trial: &mut Trial, random: &mut Random, extent: &Extent) -> Outcome {
    for _ in 0..2 * extent.rounds {
        let mut table = accepted(random);
        let all = passages(&table);
        let entered = random.pick(&all);
        let one = usize::from(entered.component);
        let there =
            |p: &&Passage| (p.component, p.location) == (entered.component, entered.location);
        let taken = all.iter().filter(there);
        let longest = taken.map(|p| p.end - p.ready).max();
        let Some(longest) = longest.filter(|length| *length < MAX_TICKS.into()) else {
            continue;
        };
        for edge in &mut table.components[one].edges {
            if edge.source == entered.location {
                edge.budget = MAX_TICKS;
            }
        }
        let bytes = write_table(&table);
        if longest_window(&table, one, entered.location) < MAX_TICKS.into() {
            trial.expect_number(&bytes, 8)?;
        }
        for edge in &mut table.components[one].edges {
            edge.budget = edge.budget.min(longest as u16 + random.below(2) as u16);
        }
        trial.compare(&write_table(&table))?;
    }
    Ok(())
}

/// No window from a location is longer than its invariant's bound.
fn longest_window(table: &Table, component: usize, location: u8) -> u32 {
    table.components[component].locations[usize::from(location)]
        .bound
        .into()
}

/// Budgets next to the lengths of the windows, of few edges or of all.
pub(super) fn next_to_windows(trial: &mut Trial, random: &mut Random, extent: &Extent) -> Outcome {
    for _ in 0..2 * extent.rounds {
        let without = accepted(random);
        for budget in [mostly_suiting, mostly_suiting, mostly_suiting, near] {
            let mut table = without.clone();
            budgets::draw(random, &mut table, budget);
            trial.compare(&write_table(&table))?;
        }
    }
    Ok(())
}

/// Many edges from few locations, some ready at once and without time for their
/// budgets; each table is asked at made-up entries too.
pub(super) fn crowds(trial: &mut Trial, random: &mut Random, extent: &Extent) -> Outcome {
    for _ in 0..8 * extent.rounds {
        let Some(mut table) = budgets::none(&at_once::crowd(random)) else {
            continue;
        };
        let most = random.pick(&[2, 4, 8]);
        budgets::draw(random, &mut table, |random, _| random.below(most) as u32);
        let bytes = write_table(&table);
        trial.expect_past(&bytes, 6)?;
        trial.choose_made_up(random, &bytes, at_once::MADE_UP)?;
    }
    Ok(())
}

/// One budget at and past its greatest value.
pub(super) fn greatest(trial: &mut Trial, random: &mut Random, extent: &Extent) -> Outcome {
    for _ in 0..extent.rounds {
        let mut table = accepted(random);
        let component = random.below(table.components.len());
        let edges = table.components[component].edges.len();
        let edge = random.below(edges);
        for budget in [MAX_TICKS - 1, MAX_TICKS] {
            table.components[component].edges[edge].budget = budget;
            trial.expect_past(&write_table(&table), 6)?;
        }
        for number in [MAX_TICKS + 1, u16::MAX - 1, u16::MAX] {
            table.components[component].edges[edge].budget = number;
            let component = component as u8;
            let answer = Verdict::Refused {
                number: 5,
                component,
            };
            trial.expect(&write_table(&table), answer)?;
        }
    }
    Ok(())
}

/// The last edge of a table ends in its budget, which lacks bytes: 4.
pub(super) fn cut(trial: &mut Trial, random: &mut Random, extent: &Extent) -> Outcome {
    for _ in 0..extent.rounds {
        let mut table = accepted(random);
        budgets::draw(random, &mut table, near);
        let last = table.components.len() - 1;
        let own = &mut table.components[last];
        own.edges.truncate(MAX_EDGES as usize - 1);
        own.edges.push(Edge {
            budget: random.within(0..=MAX_TICKS.into()) as u16,
            ..Edge::default()
        });
        let whole = write_table(&table);
        let start = whole.len() - component_length(&table, last);
        for missing in 1..=2 {
            let mut bytes = whole[..whole.len() - missing].to_vec();
            let (total, own) = (bytes.len() as u16, (bytes.len() - start) as u16);
            bytes[1..3].copy_from_slice(&total.to_be_bytes());
            bytes[start..start + 2].copy_from_slice(&own.to_be_bytes());
            let component = last as u8;
            let answer = Verdict::Refused {
                number: 4,
                component,
            };
            trial.expect(&bytes, answer)?;
        }
    }
    Ok(())
}

/// The bytes of the last component.
fn component_length(table: &Table, last: usize) -> usize {
    let mut before = table.clone();
    before.components.truncate(last);
    write_table(table).len() - write_table(&before).len()
}

/// Runs of tables whose budgets are next to the lengths of their windows.
pub(super) fn runs(trial: &mut Trial, random: &mut Random, extent: &Extent) -> Outcome {
    for _ in 0..2 * extent.rounds {
        let mut table = in_time_for_work(random);
        run(trial, random, &write_table(&table), 3, 3000)?;
        budgets::draw(random, &mut table, mostly_suiting);
        run(trial, random, &write_table(&table), 3, 3000)?;
    }
    Ok(())
}
