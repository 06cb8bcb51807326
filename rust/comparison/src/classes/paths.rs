//! Paths of the network within accepted schedules, each of which some run has.

use super::{tried, Extent};
use crate::difference::Outcome;
use crate::random::Random;
use crate::runs::paths::draw::draw;
use crate::runs::paths::follow::choices;
use crate::runs::Subject;
use crate::trial::Trial;

/// The steps of a path, at most, about.
const MOST: usize = 1200;

/// Draws so many paths of a table, if it is accepted, and runs them.
fn follow(trial: &mut Trial, random: &mut Random, table: &[u8], count: usize) -> Outcome {
    let Some(subject) = Subject::new(table) else {
        return Ok(());
    };
    let demand = subject.demand();
    for _ in 0..count {
        let steps = draw(random, &subject, MOST);
        let choices = choices(random, &subject, &steps);
        trial.follow(&subject, &demand, steps, choices)?;
    }
    Ok(())
}

/// All accepted tables of the vectors and the corpus.
pub(super) fn stored(trial: &mut Trial, random: &mut Random, extent: &Extent) -> Outcome {
    tried::stored(trial, random, extent, follow)
}

/// A hub and its probes.
pub(super) fn regular(trial: &mut Trial, random: &mut Random, extent: &Extent) -> Outcome {
    tried::regular(trial, random, extent, follow)
}

/// Planned tables.
pub(super) fn planned(trial: &mut Trial, random: &mut Random, extent: &Extent) -> Outcome {
    tried::planned(trial, random, extent, follow)
}

/// Internal loops.
pub(super) fn workers(trial: &mut Trial, random: &mut Random, extent: &Extent) -> Outcome {
    tried::workers(trial, random, extent, follow)
}

/// Windows close together, where they are accepted.
pub(super) fn close(trial: &mut Trial, random: &mut Random, extent: &Extent) -> Outcome {
    tried::close(trial, random, extent, follow)
}
