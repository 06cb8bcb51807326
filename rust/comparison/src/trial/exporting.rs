//! Texts of a class for UPPAAL.

use super::Trial;
use crate::difference::{Outcome, Stop};
use crate::exports::{self, counted, explored};
use crate::lists::Unlike;
use crate::programs;

/// Of the accepted tables, the text of one in so many is asked for.
const SAMPLE: u64 = 16;
/// As many bytes more than a text needs are lent, at most.
const MARGIN: usize = 300;

impl Trial<'_> {
    /// The text of some of the accepted tables.
    pub(super) fn export_some(&mut self, input: &[u8]) -> Outcome {
        match (self.tally.answers[0] - 1).is_multiple_of(SAMPLE) {
            true => self.export(input),
            false => Ok(()),
        }
    }

    /// The text of an accepted table with bytes of the lengths that matter lent, each
    /// time that it is written read back.
    pub fn export(&mut self, input: &[u8]) -> Outcome {
        let turn = self.tally.exports.all();
        for length in programs::lengths(exports::length(input), turn) {
            self.export_and_read(input, length)?;
        }
        Ok(())
    }

    /// The text with so many bytes lent; nothing where it is refused.
    fn exported(&mut self, input: &[u8], length: usize) -> Result<Option<Vec<u8>>, Stop> {
        match exports::compare(self.readers, input, length) {
            Ok((verdict, text)) => {
                self.tally.exports.count(verdict);
                Ok(verdict.refusal().is_none().then_some(text))
            }
            Err(unlike) => Err(self.differs(input, call(length), unlike, None)),
        }
    }

    /// The text is one, and its network has the paths of the table's.
    fn export_and_read(&mut self, input: &[u8], length: usize) -> Outcome {
        let Some(text) = self.exported(input, length)? else {
            return Ok(());
        };
        match exports::read_back(input, &text) {
            Ok(found) => {
                self.tally.exports.count_read(&found);
                Ok(())
            }
            Err(wrong) => {
                let (library, second) = (wrong.clone(), wrong);
                let expected = "a text with the paths of the table's network".to_string();
                let unlike = Unlike { library, second };
                Err(self.differs(input, call(length), unlike, Some(expected)))
            }
        }
    }

    /// Two tables that say the same but for version, bands, horizon and budgets of 0:
    /// their texts are equal.
    pub fn export_same(&mut self, input: &[u8], other: &[u8]) -> Outcome {
        let length = exports::length(input) + MARGIN;
        let (first, second) = (self.exported(input, length)?, self.exported(other, length)?);
        let told = |text: Option<Vec<u8>>| {
            text.map_or("no text".to_string(), |text| {
                String::from_utf8_lossy(&text).into_owned()
            })
        };
        self.demand(other, &call(length), told(second), told(first))?;
        self.tally.exports.same += 1;
        Ok(())
    }

    /// A table that is accepted, and of which there is no text.
    pub fn expect_budgets(&mut self, input: &[u8]) -> Outcome {
        let exact = exports::length(input);
        for length in [exact + 1, exact - 1, 0] {
            self.expect_refused_text(input, length, "refused 25 255")?;
        }
        Ok(())
    }

    /// The text of a refused table; what is lent does not matter.
    pub(super) fn export_refused(&mut self, input: &[u8]) -> Outcome {
        let turn = self.tally.exports.all();
        let length = programs::length_for_refused(turn);
        let expected = (self.readers.library.check)(input).to_string();
        self.expect_refused_text(input, length, &expected)
    }

    fn expect_refused_text(&mut self, input: &[u8], length: usize, answer: &str) -> Outcome {
        self.exported(input, length)?;
        let said = (self.readers.library.uppaal)(input, &mut vec![0; length]).verdict;
        self.demand(input, &call(length), said.to_string(), answer.to_string())
    }

    /// Both have to write a text that has so many of each thing, or to refuse it.
    pub fn expect_text(&mut self, input: &[u8], lent: usize, answer: &str) -> Outcome {
        let length = lent.min(exports::length(input) + MARGIN);
        let said = match self.exported(input, length)? {
            Some(text) => xta::read(&text).map_or_else(|f| f.to_string(), |own| counted(&own)),
            None => {
                let call = (self.readers.library.uppaal)(input, &mut vec![0; length]);
                call.verdict.to_string()
            }
        };
        self.demand(input, &call(length), said, answer.to_string())?;
        self.export_and_read(input, length)
    }

    /// The network of the text has to have so many states and moves within so many ticks.
    pub fn expect_explored(&mut self, input: &[u8], ticks: u32, answer: &str) -> Outcome {
        let length = exports::length(input);
        let text = self.exported(input, length)?.unwrap_or_default();
        let said = match xta::read(&text) {
            Ok(system) => explored(&system, ticks),
            Err(fault) => fault.to_string(),
        };
        self.demand(input, &call(length), said, answer.to_string())
    }
}

/// The call with its bytes.
fn call(length: usize) -> String {
    format!("uppaal, with {length} bytes")
}
