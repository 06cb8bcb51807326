//! Tables at the limits of document 01 and one step past them.

use super::bases;
use super::Extent;
use crate::bytes::{set, state_length};
use crate::difference::Outcome;
use crate::layout::Layout;
use crate::random::Random;
use crate::readers::refused;
use crate::tables::{of_length, table, Shape, Values, WORKED_EXAMPLE};
use crate::trial::Trial;
use reference::table::write_table;

/// Sets a count in a shape.
type Count = fn(&mut Shape, u8);

/// Each count with the number of its refusal, its least value and its
/// greatest.
const COUNTS: [(Count, u8, u8, u8); 6] = [
    (|shape, count| shape.components = count..=count, 3, 1, 8),
    (|shape, count| shape.channels = count..=count, 3, 0, 16),
    (|shape, count| shape.locations = count..=count, 5, 1, 16),
    (|shape, count| shape.clocks = count..=count, 5, 1, 4),
    (|shape, count| shape.variables = count..=count, 5, 0, 4),
    (|shape, count| shape.edges = count..=count, 5, 1, 32),
];

/// Counts and lengths at and near their limits.
pub(super) fn counts(trial: &mut Trial, random: &mut Random, extent: &Extent) -> Outcome {
    for _ in 0..extent.rounds.div_ceil(4) {
        for shape in [Shape::small(), Shape::any(), Shape::greatest()] {
            for values in [Values::Small, Values::Any, Values::Ends] {
                around_counts(trial, random, &shape.clone().with_values(values))?;
            }
        }
        around_longest(trial, random)?;
        past_two_bytes(trial)?;
    }
    Ok(())
}

/// The least and the greatest of each count, and one less and one more.
fn around_counts(trial: &mut Trial, random: &mut Random, shape: &Shape) -> Outcome {
    for (set_count, number, least, greatest) in COUNTS {
        let component = if number == 3 { 255 } else { 0 };
        for count in [least, greatest - 1, greatest] {
            let bytes = with_count(random, shape, set_count, count);
            trial.expect_past(&bytes, 6)?;
        }
        let past = (least > 0).then(|| least - 1).into_iter();
        for count in past.chain([greatest + 1]) {
            let bytes = with_count(random, shape, set_count, count);
            trial.expect(&bytes, refused(number, component))?;
        }
    }
    Ok(())
}

fn with_count(random: &mut Random, shape: &Shape, set_count: Count, count: u8) -> Vec<u8> {
    let mut shape = shape.clone();
    set_count(&mut shape, count);
    write_table(&table(random, &shape))
}

/// Tables of 8,191 to 8,194 bytes, well formed but for their length, and each
/// of them with one byte more or less than it states.
fn around_longest(trial: &mut Trial, random: &mut Random) -> Outcome {
    for length in 8191..=8194 {
        let table = of_length(random, length, Values::Any);
        let mut bytes = write_table(&table);
        match length {
            ..=8192 => trial.expect_past(&bytes, 6)?,
            _ => trial.expect(&bytes, refused(2, 255))?,
        }
        bytes.push(0);
        trial.expect(&bytes, refused(2, 255))?;
        bytes.truncate(length - 1);
        trial.expect(&bytes, refused(2, 255))?;
    }
    Ok(())
}

/// Lengths that two bytes cannot state: the lower two bytes of the length
/// handed in are those stated, and the first bytes are a valid table.
fn past_two_bytes(trial: &mut Trial) -> Outcome {
    let mut bytes = WORKED_EXAMPLE.to_vec();
    for length in [65_535, 65_536, 65_536 + 7, 65_536 + 103, 131_072 + 103] {
        bytes.resize(length, 0);
        state_length(&mut bytes);
        trial.expect(&bytes, refused(2, 255))?;
    }
    Ok(())
}

/// Each number of a few tables at its bounds and past them, the others as
/// they are.
pub(super) fn numbers(trial: &mut Trial, random: &mut Random, extent: &Extent) -> Outcome {
    for base in bases::a_few(random) {
        let layout = Layout::of(&base.table);
        for field in layout.fields.iter().step_by(extent.step) {
            let mut bytes = base.bytes.clone();
            for value in field.bounds() {
                set(&mut bytes, field, value);
                trial.compare(&bytes)?;
            }
        }
    }
    Ok(())
}
