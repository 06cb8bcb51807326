//! Runs of accepted tables under lists of choices of all manners.

use super::close::{close_windows, moved_plan};
use super::planned::{
    drawn, hub_and_probes, late_ticks, side_by_side, with_workers, workers_alone,
};
use super::Extent;
use crate::difference::{Outcome, Stop};
use crate::random::Random;
use crate::readers::refused;
use crate::runs::choices::{draw, spoil, Manner};
use crate::runs::Subject;
use crate::stored::{self, Stored};
use crate::tables::planned::{greatest_horizon, near_passages, passages, shortened, Size, Style};
use crate::tables::{bands, WORKED_EXAMPLE};
use crate::trial::Trial;
use demand::{Demand, TICK};
use reference::table::*;
use timed_network::{Verdict, MAX_CHOICES};

/// Runs a table under so many lists, spoilt ones among them.
pub(super) fn run(
    trial: &mut Trial,
    random: &mut Random,
    table: &[u8],
    lists: usize,
    most: usize,
) -> Outcome {
    let Some(subject) = Subject::new(table) else {
        return Ok(());
    };
    let demand = subject.demand();
    for _ in 0..lists {
        let manner = random.pick(&Manner::ALL);
        let choices = any_list(random, &subject, &demand, manner, most);
        trial.run_accepted(&subject, &demand, &choices)?;
    }
    Ok(())
}

fn any_list(
    random: &mut Random,
    subject: &Subject,
    demand: &Demand,
    manner: Manner,
    most: usize,
) -> Vec<u8> {
    let mut choices = draw(random, demand, manner, most);
    spoil(random, subject.table.components.len(), &mut choices);
    choices
}

/// Runs a table that has to be accepted, then with another horizon.
fn run_table(trial: &mut Trial, random: &mut Random, mut table: Table, most: usize) -> Outcome {
    for _ in 0..2 {
        let bytes = write_table(&table);
        if Subject::new(&bytes).is_none() {
            trial.expect(&bytes, Verdict::Accepted)?;
        }
        run(trial, random, &bytes, 5, most)?;
        table.horizon = near_passages(random, &table);
    }
    Ok(())
}

fn run_stored(
    trial: &mut Trial,
    random: &mut Random,
    tables: Result<Vec<Stored>, String>,
    lists: usize,
) -> Outcome {
    for table in tables.map_err(Stop::Unreadable)? {
        run(trial, random, &table.bytes, lists, 2000)?;
    }
    Ok(())
}

/// All accepted tables of the vectors.
pub(super) fn vectors(trial: &mut Trial, random: &mut Random, extent: &Extent) -> Outcome {
    let lists = extent.rounds.div_ceil(25);
    run_stored(trial, random, stored::vectors(), lists)
}

/// All accepted tables of the corpus.
pub(super) fn corpus(trial: &mut Trial, random: &mut Random, extent: &Extent) -> Outcome {
    let lists = extent.rounds.div_ceil(25);
    run_stored(trial, random, stored::corpus(), lists)
}

/// Hubs and probes with short slots.
pub(super) fn regular(trial: &mut Trial, random: &mut Random, extent: &Extent) -> Outcome {
    for _ in 0..extent.rounds {
        let longest = random.pick(&[1, 3, 20]);
        let table = hub_and_probes(random, longest);
        run_table(trial, random, table, 3000)?;
    }
    Ok(())
}

/// Any plan with short ticks.
pub(super) fn short_ticks(random: &mut Random) -> Size {
    let unit = random.pick(&[1, 2, 3, 5, 9, 20]);
    Size::any(random).with_unit(unit)
}

/// Several hubs and channels, receives that time out.
pub(super) fn sparse(trial: &mut Trial, random: &mut Random, extent: &Extent) -> Outcome {
    for _ in 0..2 * extent.rounds {
        let size = short_ticks(random);
        let style = Style::sparse(random);
        let table = drawn(random, &size, &style);
        run_table(trial, random, table, 3000)?;
    }
    Ok(())
}

/// The same with many edges at a location.
pub(super) fn crowded(trial: &mut Trial, random: &mut Random, extent: &Extent) -> Outcome {
    for _ in 0..extent.rounds {
        let size = short_ticks(random);
        let style = Style::crowded(random);
        let table = drawn(random, &size, &style);
        run_table(trial, random, table, 3000)?;
    }
    Ok(())
}

/// Two plans on bands of their own: their sends are made at once.
pub(super) fn two_bands(trial: &mut Trial, random: &mut Random, extent: &Extent) -> Outcome {
    for _ in 0..2 * extent.rounds {
        let table = side_by_side(random);
        run_table(trial, random, table, 3000)?;
    }
    Ok(())
}

/// Internal loops.
pub(super) fn workers(trial: &mut Trial, random: &mut Random, extent: &Extent) -> Outcome {
    for _ in 0..2 * extent.rounds {
        let most = random.pick(&[10, 30, 80]);
        let table = shortened(workers_alone(random), most);
        run_table(trial, random, table, 2000)?;
    }
    Ok(())
}

/// A plan with workers beside it.
pub(super) fn mixed(trial: &mut Trial, random: &mut Random, extent: &Extent) -> Outcome {
    for _ in 0..extent.rounds {
        let most = random.pick(&[10, 30, 80]);
        let table = shortened(with_workers(random), most);
        run_table(trial, random, table, 3000)?;
    }
    Ok(())
}

/// Windows so close together that many of them touch, where they are
/// accepted.
pub(super) fn close(trial: &mut Trial, random: &mut Random, extent: &Extent) -> Outcome {
    for _ in 0..6 * extent.rounds {
        for table in [close_windows(random), moved_plan(random)] {
            run(trial, random, &write_table(&table), 4, 1000)?;
        }
    }
    Ok(())
}

/// Locations behind the last passages that no edge leaves: a node that runs
/// ahead finds nothing to take there.
pub(super) fn dead_ends(trial: &mut Trial, random: &mut Random, extent: &Extent) -> Outcome {
    for _ in 0..3 * extent.rounds {
        let table = dead_end(random);
        run(trial, random, &write_table(&table), 4, 3000)?;
    }
    Ok(())
}

/// A plan with such locations.
pub(super) fn dead_end(random: &mut Random) -> Table {
    let size = short_ticks(random);
    let mut table = drawn(random, &size, &Style::PLAIN);
    table.horizon = near_passages(random, &table);
    end_dead(random, &mut table);
    table
}

/// Gives components whose last edge was not taken before a new location for
/// it to lead to.
fn end_dead(random: &mut Random, table: &mut Table) {
    let passages = passages(table);
    for number in 0..table.components.len() {
        let own = passages
            .iter()
            .filter(|p| usize::from(p.component) == number);
        let edges: Vec<u8> = own.map(|passage| passage.edge).collect();
        let component = &mut table.components[number];
        let dead = component.locations.len() as u8;
        let Some((last, before)) = edges.split_last() else {
            continue;
        };
        if before.contains(last) || dead == MAX_LOCATIONS || random.once_in(4) {
            continue;
        }
        component.locations.push(component.locations[0]);
        let edge = &mut component.edges[usize::from(*last)];
        edge.destination = dead;
        if let Action::Receive(pairs) = edge.action {
            let dead = |pair: &Pair| Pair {
                location: dead,
                ..*pair
            };
            edge.action = Action::Receive(pairs.iter().map(dead).collect());
        }
    }
}

/// Runs through some 60,000 ticks.
pub(super) fn far(trial: &mut Trial, random: &mut Random, extent: &Extent) -> Outcome {
    for _ in 0..extent.rounds.div_ceil(20) {
        let table = late_ticks(random);
        run(trial, random, &write_table(&table), 4, MAX_CHOICES)?;
    }
    for _ in 0..3 * extent.rounds.div_ceil(50) {
        let table = write_table(&old_clock(random));
        let Some(subject) = Subject::new(&table) else {
            return trial.expect(&table, Verdict::Accepted);
        };
        let demand = subject.demand();
        for manner in [Manner::Early, Manner::Any] {
            let choices = draw(random, &demand, manner, MAX_CHOICES);
            trial.run_accepted(&subject, &demand, &choices)?;
        }
    }
    Ok(())
}

/// A component that enters its last location with a clock of more than 16
/// bits, too old for that location.
fn old_clock(random: &mut Random) -> Table {
    let location = |clock, bound| Location { clock, bound };
    let edge = |source, destination, mask, low| Edge {
        source,
        destination,
        mask,
        clock_bounds: [ClockBound {
            clock: 0,
            low,
            high: None,
        }]
        .into_iter()
        .collect(),
        ..Edge::default()
    };
    let first = random.within(40_000..=59_000) as u16;
    let last = random.pick(&[MAX_TICKS, first]);
    let component = Component {
        initial: 0,
        clocks: 2,
        variables: 0,
        locations: vec![
            location(0, first),
            location(0, MAX_TICKS),
            location(1, last),
        ],
        edges: vec![
            edge(0, 1, 1, first - 1),
            edge(1, 2, 0, random.below(20) as u16),
            edge(2, 2, 0, 0),
        ],
    };
    let (version, bands) = bands::drawn(random, 0);
    Table {
        version,
        bands,
        channels: 0,
        horizon: first + random.within(20..=60) as u16,
        components: vec![component],
    }
}

/// Runs through schedules of all lengths up to the greatest.
pub(super) fn long(trial: &mut Trial, random: &mut Random, extent: &Extent) -> Outcome {
    for _ in 0..extent.rounds.div_ceil(10) {
        let size = short_ticks(random);
        let style = Style::sparse(random);
        let mut table = match random.below(3) {
            0 => workers_alone(random),
            1 => hub_and_probes(random, 2),
            _ => drawn(random, &size, &style),
        };
        table.horizon = greatest_horizon(&table);
        run(trial, random, &write_table(&table), 3, 30_000)?;
    }
    Ok(())
}

/// Around 1,000,000 choices, with enough bytes and with too few, for accepted
/// and for refused tables.
pub(super) fn too_many(trial: &mut Trial, random: &mut Random, extent: &Extent) -> Outcome {
    let mut refused_table = WORKED_EXAMPLE;
    refused_table[70] = 3;
    for _ in 0..extent.rounds.div_ceil(200) {
        let mut tables = vec![WORKED_EXAMPLE.to_vec()];
        tables.push(write_table(&hub_and_probes(random, 20)));
        for table in &tables {
            let Some(subject) = Subject::new(table) else {
                continue;
            };
            let demand = subject.demand();
            let manner = random.pick(&[Manner::Early, Manner::Late]);
            let mut choices = draw(random, &demand, manner, MAX_CHOICES);
            let needed = subject.needed();
            for length in [
                MAX_CHOICES - 1,
                MAX_CHOICES,
                MAX_CHOICES + 1,
                2 * MAX_CHOICES,
            ] {
                choices.resize(length, random.pick(&[0, 9, TICK]));
                for lent in [needed, needed - 1] {
                    trial.run(table, Some(&demand), &choices, lent)?;
                }
            }
            trial.run(&refused_table, None, &choices, needed - 1)?;
            trial.expect_refused(&refused_table, &choices, refused(16, 0))?;
        }
    }
    Ok(())
}
