//! Edge choices of a class.

use super::Trial;
use crate::difference::{Outcome, Stop};
use crate::edge_choices::{self, made_up, scheduled, scheduled_once, Chosen};
use crate::lists::Unlike;
use crate::random::Random;
use timed_network::{Entry, Verdict};

/// How many entries are made up for a table that is refused.
const MADE_UP: usize = 4;

impl Trial<'_> {
    /// Asks for the edge at each entry of an accepted table's schedule. It has
    /// to be the edge that the schedule takes.
    pub(super) fn choose_accepted(&mut self, input: &[u8]) -> Outcome {
        for (entry, taken) in scheduled_once(input) {
            let chosen = self.choose(input, &entry)?;
            if chosen.map(|choice| choice.taken) != Ok(Some(taken)) {
                let said = edge_choices::told(&chosen);
                let unlike = Unlike {
                    library: said.clone(),
                    second: said,
                };
                let expected = Some(format!("the schedule's: {taken:?}"));
                return Err(self.differs(input, call(&entry), unlike, expected));
            }
        }
        Ok(())
    }

    /// Asks for the edge at the start of each component of a refused table,
    /// and at a few other entries.
    pub(super) fn choose_refused(&mut self, input: &[u8]) -> Outcome {
        let mut random = Random::new(self.tally.edge_choices.all());
        self.choose_made_up(&mut random, input, MADE_UP)
    }

    /// Asks at the starts and at so many other entries.
    pub fn choose_made_up(&mut self, random: &mut Random, input: &[u8], count: usize) -> Outcome {
        for entry in made_up(random, input, count) {
            let _ = self.choose(input, &entry)?;
        }
        Ok(())
    }

    /// Asks both for the edge at an entry.
    pub(super) fn choose(&mut self, input: &[u8], entry: &Entry) -> Result<Chosen, Stop> {
        match edge_choices::compare(self.readers, input, entry) {
            Ok(chosen) => {
                self.tally.edge_choices.count(&chosen);
                Ok(chosen)
            }
            Err(unlike) => Err(self.differs(input, call(entry), unlike, None)),
        }
    }

    /// Both have to look at so many edges, passage by passage, or to refuse.
    pub fn expect_looked(&mut self, input: &[u8], answer: &Result<Vec<u32>, Verdict>) -> Outcome {
        let counts = match answer {
            Ok(counts) => counts,
            Err(refused) => return self.expect(input, *refused),
        };
        self.expect(input, Verdict::Accepted)?;
        let mut looked = Vec::new();
        for (entry, _) in scheduled(input) {
            looked.push(
                self.choose(input, &entry)?
                    .map_or(0, |choice| choice.looked),
            );
        }
        if looked == *counts {
            return Ok(());
        }
        let said = format!("{looked:?}");
        let unlike = Unlike {
            library: said.clone(),
            second: said,
        };
        let expected = Some(format!("{counts:?}"));
        Err(self.differs(
            input,
            "edge_choice at each passage".to_string(),
            unlike,
            expected,
        ))
    }
}

/// The call at an entry.
fn call(entry: &Entry) -> String {
    format!("edge_choice, with {entry:?}")
}
