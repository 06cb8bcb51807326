//! Schedules of about 900 to 1,024 passages, and of one opening more than is
//! allowed.

use super::planned::{drawn, horizon_of, with_workers, workers_alone};
use super::Extent;
use crate::difference::Outcome;
use crate::random::Random;
use crate::readers::refused;
use crate::tables::planned::{greatest_horizon, passages, Size, Style};
use crate::tables::{bands, waiting};
use crate::trial::Trial;
use reference::table::*;
use timed_network::{Verdict, MAX_PASSAGES};

/// Tables of all kinds, as long as they can be.
pub(super) fn most(trial: &mut Trial, random: &mut Random, extent: &Extent) -> Outcome {
    for _ in 0..extent.rounds.div_ceil(3) {
        let table = match random.below(4) {
            0 => workers_alone(random),
            1 => with_workers(random),
            2 => short_rounds(random, Style::sparse),
            _ => short_rounds(random, Style::crowded),
        };
        around_most(trial, random, table)?;
    }
    Ok(())
}

/// A plan with short rounds, so that many of them fit.
fn short_rounds(random: &mut Random, style: fn(&mut Random) -> Style) -> Table {
    let style = style(random);
    let size = Size::any(random);
    let unit = random.pick(&[1, 2, 4, 20]);
    drawn(random, &size.with_unit(unit), &style)
}

/// The greatest horizon, a tick more, and one with fewer passages.
fn around_most(trial: &mut Trial, random: &mut Random, mut table: Table) -> Outcome {
    table.horizon = greatest_horizon(&table);
    trial.expect(&write_table(&table), Verdict::Accepted)?;
    let all = passages(&table);
    let fewer = all.len().min(MAX_PASSAGES - random.within(1..=124));
    if let Some(passage) = all.get(fewer) {
        let mut table = table.clone();
        table.horizon = horizon_of(passage.entry);
        trial.expect(&write_table(&table), Verdict::Accepted)?;
    }
    if table.horizon < MAX_TICKS {
        table.horizon += 1;
        trial.expect_number(&write_table(&table), 7)?;
    }
    Ok(())
}

/// A loop that comes to its end, by 8 or by 9, about when the passages do:
/// 7 comes first if it is there.
pub(super) fn ending(trial: &mut Trial, random: &mut Random, extent: &Extent) -> Outcome {
    for _ in 0..extent.rounds.div_ceil(50) {
        for last in MAX_PASSAGES - 4..=MAX_PASSAGES + 4 {
            for number in [8, 9] {
                end_after(trial, random, last, number)?;
            }
        }
    }
    Ok(())
}

/// A loop that can be opened so often that there are this many passages.
fn end_after(trial: &mut Trial, random: &mut Random, last: usize, number: u8) -> Outcome {
    let others = random.within(0..=7);
    let component = random.within(0..=others);
    let openings = (last - others) as i16;
    let mut components = vec![waiting(); others];
    components.insert(component, counting(openings, number));
    let (version, bands) = bands::drawn(random, 0);
    let mut table = Table {
        version,
        bands,
        channels: 0,
        horizon: MAX_TICKS,
        components,
    };
    let number = if last < MAX_PASSAGES { number } else { 7 };
    let answer = refused(number, component as u8);
    trial.expect(&write_table(&table), answer)?;
    table.horizon = openings as u16;
    let answer = match last {
        ..=MAX_PASSAGES => Verdict::Accepted,
        _ => answer,
    };
    trial.expect(&write_table(&table), answer)
}

/// A component that opens a passage each tick, so many times, until no edge is
/// a candidate or the counter overflows.
fn counting(openings: i16, number: u8) -> Component {
    let (first, high) = match number {
        9 => (i16::MAX - (openings - 1), i16::MAX),
        _ => (0, openings - 2),
    };
    let bound = DataBound {
        variable: 0,
        low: i16::MIN,
        high,
    };
    Component {
        initial: 0,
        clocks: 1,
        variables: 1,
        locations: vec![Location { clock: 0, bound: 1 }; 2],
        edges: vec![
            to_loop(0, &[], Operation::Set, first),
            to_loop(1, &[bound], Operation::Add, 1),
        ],
    }
}

/// An edge to the loop that changes the counter.
fn to_loop(source: u8, bounds: &[DataBound], operation: Operation, number: i16) -> Edge {
    let update = Update {
        variable: 0,
        operation,
        number,
    };
    Edge {
        source,
        destination: 1,
        mask: 1,
        data_bounds: bounds.iter().copied().collect(),
        action: Action::Internal([update].into_iter().collect()),
        ..Edge::default()
    }
}
