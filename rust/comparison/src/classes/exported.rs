//! Texts for UPPAAL: of accepted tables of all kinds, in all versions, with budgets of 0
//! and others.

use super::close::close_windows;
use super::planned::{drawn, hub_and_probes, side_by_side, workers_alone};
use super::running::{dead_end, short_ticks};
use super::Extent;
use crate::difference::{Outcome, Stop};
use crate::random::Random;
use crate::stored;
use crate::tables::budgets::none;
use crate::tables::planned::{shortened, Style};
use crate::tables::{table, Shape, Values};
use crate::trial::Trial;
use reference::checks::verdict;
use reference::table::*;
use timed_network::Verdict;

/// All accepted tables of the vectors and the corpus, those without budgets also in the
/// other versions.
pub(super) fn stored(trial: &mut Trial, random: &mut Random, _: &Extent) -> Outcome {
    let tables = stored::vectors().and_then(|vectors| Ok((vectors, stored::corpus()?)));
    let (vectors, corpus) = tables.map_err(Stop::Unreadable)?;
    for stored in vectors.iter().chain(&corpus) {
        if let Ok((table, _)) = verdict(&stored.bytes) {
            trial.export(&stored.bytes)?;
            in_other_versions(trial, random, &table)?;
        }
    }
    Ok(())
}

/// Plans of all kinds, the networks of which send and receive.
pub(super) fn planned(trial: &mut Trial, random: &mut Random, extent: &Extent) -> Outcome {
    for _ in 0..extent.rounds.div_ceil(2) {
        let longest = random.pick(&[1, 3]);
        let size = short_ticks(random);
        let style = match random.below(2) {
            0 => Style::sparse(random),
            _ => Style::crowded(random),
        };
        for table in [
            hub_and_probes(random, longest),
            drawn(random, &size, &style),
            side_by_side(random),
            shortened(workers_alone(random), 40),
            dead_end(random),
            close_windows(random),
        ] {
            if verdict(&write_table(&table)).is_ok() {
                trial.export(&write_table(&table))?;
            }
        }
    }
    Ok(())
}

/// Well-formed tables of any kind, made to be accepted.
pub(super) fn at_rest(trial: &mut Trial, random: &mut Random, extent: &Extent) -> Outcome {
    for _ in 0..4 * extent.rounds {
        let values = random.pick(&[Values::Small, Values::Small, Values::Any, Values::Ends]);
        let any = table(random, &Shape::small().with_values(values));
        let table = resting(any);
        trial.expect(&write_table(&table), Verdict::Accepted)?;
        trial.export(&write_table(&table))?;
        in_other_versions(trial, random, &table)?;
    }
    Ok(())
}

/// The same with many components, locations and edges, up to as many as there may be.
pub(super) fn large(trial: &mut Trial, random: &mut Random, extent: &Extent) -> Outcome {
    for _ in 0..extent.rounds.div_ceil(40) {
        for shape in [Shape::any(), Shape::greatest()] {
            let values = random.pick(&[Values::Any, Values::Ends]);
            let table = resting(table(random, &shape.with_values(values)));
            trial.expect(&write_table(&table), Verdict::Accepted)?;
            trial.export(&write_table(&table))?;
        }
    }
    Ok(())
}

/// One edge with a budget, whether it is taken or not: 25, however much is lent. All
/// budgets 0: the text without them.
pub(super) fn with_budgets(trial: &mut Trial, random: &mut Random, extent: &Extent) -> Outcome {
    for _ in 0..extent.rounds {
        let any = table(random, &Shape::small());
        let Some(mut table) = none(&resting(any)) else {
            continue;
        };
        trial.export(&write_table(&table))?;
        let edges = all_edges(&table);
        let (component, edge) = random.pick(&edges);
        let budget = random.pick(&[1, 255, 256, 512, MAX_TICKS]);
        table.components[component].edges[edge].budget = budget;
        trial.expect_budgets(&write_table(&table))?;
        // Edge 0 of a component at rest is the one that is taken, with all its ticks; a
        // location that no edge leaves is refused before the budgets are looked at.
        table.components[component].initial = empty(&mut table.components[component]);
        trial.expect(&write_table(&table), refused_8(component))?;
    }
    Ok(())
}

fn refused_8(component: usize) -> Verdict {
    Verdict::Refused {
        number: 8,
        component: component as u8,
    }
}

/// Each component with each of its edges.
fn all_edges(table: &Table) -> Vec<(usize, usize)> {
    let components = table.components.iter().enumerate();
    let edges = components.flat_map(|(number, own)| (0..own.edges.len()).map(move |e| (number, e)));
    edges.collect()
}

/// A further location that no edge leaves.
fn empty(own: &mut Component) -> u8 {
    own.locations.truncate(usize::from(MAX_LOCATIONS) - 1);
    let location = own.locations[0];
    own.locations.push(location);
    own.locations.len() as u8 - 1
}

/// The table with each component at rest: its first edge is ready at once, and its window
/// ends with the greatest horizon. All others are left to the network.
fn resting(mut table: Table) -> Table {
    for own in &mut table.components {
        let initial = own.initial;
        own.locations[usize::from(initial)].bound = MAX_TICKS;
        let rest = Edge {
            source: initial,
            destination: initial,
            ..Edge::default()
        };
        own.edges[0] = rest;
    }
    table
}

/// The same table in version 1 with another horizon, in version 2 with other bands, and
/// in version 3 with budgets of 0, each where it is accepted: the texts are equal.
fn in_other_versions(trial: &mut Trial, random: &mut Random, table: &Table) -> Outcome {
    let mut first = table.clone();
    (first.version, first.bands) = (1, Vec::new());
    let mut second = table.clone();
    let bands = (0..table.channels).map(|_| random.below(usize::from(MAX_BAND) + 1) as u8);
    (second.version, second.bands) = (2, bands.collect());
    second.horizon = 1 + random.below(table.horizon.into()) as u16;
    let mut third = second.clone();
    third.version = 3;
    if reference::uppaal::has_budgets(table) {
        return Ok(());
    }
    let bytes = write_table(table);
    for other in [first, second, third] {
        let other = write_table(&other);
        if other.len() <= *LENGTHS.end() && verdict(&other).is_ok() {
            trial.export_same(&bytes, &other)?;
        }
    }
    Ok(())
}
