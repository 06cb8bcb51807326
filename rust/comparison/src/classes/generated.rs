//! Tables made at random, and such tables with random numbers changed.

use super::bases;
use super::Extent;
use crate::bytes::set;
use crate::difference::Outcome;
use crate::layout::{Field, Layout};
use crate::random::Random;
use crate::tables::{of_length, table, Shape, Values, SHORTEST_EXACT};
use crate::trial::Trial;
use reference::table::{write_table, Table};

/// Well-formed tables: all of them pass checks 1 to 6.
pub(super) fn well_formed(trial: &mut Trial, random: &mut Random, extent: &Extent) -> Outcome {
    for _ in 0..4 * extent.rounds {
        for shape in [Shape::small(), Shape::any(), Shape::greatest()] {
            let values = random.pick(&[Values::Small, Values::Any, Values::Ends]);
            well_read(trial, &table(random, &shape.with_values(values)))?;
        }
        let length = random.within(SHORTEST_EXACT..=8192);
        well_read(trial, &of_length(random, length, Values::Any))?;
    }
    Ok(())
}

fn well_read(trial: &mut Trial, table: &Table) -> Outcome {
    trial.expect_past(&write_table(table), 6)
}

/// Up to three numbers of a table take another value.
pub(super) fn numbers_changed(trial: &mut Trial, random: &mut Random, extent: &Extent) -> Outcome {
    for _ in 0..5 * extent.rounds {
        let base = bases::any(random);
        let layout = Layout::of(&base.table);
        for _ in 0..20 {
            let mut bytes = base.bytes.clone();
            for _ in 0..random.within(1..=3) {
                let field = random.pick(&layout.fields);
                let value = another(random, &field);
                set(&mut bytes, &field, value);
            }
            trial.compare(&bytes)?;
        }
    }
    Ok(())
}

/// A value in range, at a bound, or anything.
fn another(random: &mut Random, field: &Field) -> u16 {
    match random.below(3) {
        0 => random.within(0..=field.greatest.into()) as u16,
        1 => random.pick(&field.bounds()),
        _ => random.two(),
    }
}
