//! Tables that checks 7 to 9 refuse at openings that are known from how the tables
//! were made.

use super::Extent;
use crate::difference::Outcome;
use crate::places::opening_words;
use crate::random::Random;
use crate::tables::refused_opening::{no_candidate, out_of_range, too_many, Refused};
use crate::trial::Trial;
use reference::table::write_table;

fn expect(trial: &mut Trial, refused: &Refused) -> Outcome {
    let words = opening_words(&Some(refused.opening));
    trial.expect_opening(&write_table(&refused.table), &words)
}

/// 7: the 1,025th passage.
pub(super) fn passages(trial: &mut Trial, random: &mut Random, extent: &Extent) -> Outcome {
    for _ in 0..extent.rounds.div_ceil(4) {
        expect(trial, &too_many(random))?;
    }
    Ok(())
}

/// 8: no candidate, at the start and after a few passages.
pub(super) fn candidates(trial: &mut Trial, random: &mut Random, extent: &Extent) -> Outcome {
    for _ in 0..4 * extent.rounds {
        let later = random.within(1..=6);
        for links in [0, later] {
            expect(trial, &no_candidate(random, links))?;
        }
    }
    Ok(())
}

/// 9: an update out of range, likewise.
pub(super) fn updates(trial: &mut Trial, random: &mut Random, extent: &Extent) -> Outcome {
    for _ in 0..4 * extent.rounds {
        let later = random.within(1..=6);
        for links in [0, later] {
            expect(trial, &out_of_range(random, links))?;
        }
    }
    Ok(())
}
