//! One class of cases: each case is handed to both implementations, their
//! answers are compared and counted.

mod asking;
mod choosing;
mod exporting;
mod following;
mod locating;
mod positioning;
mod repeating;
mod running;
mod sharing;
mod simulating;
mod spreading;

use crate::difference::{Difference, Expected, Outcome, Stop};
use crate::lists::{self, Lent, Unlike, AMPLE};
use crate::readers::Readers;
use crate::tally::Tally;
use timed_network::{Verdict, FIELDS};

/// Of the tables refused by a check up to 6, one in so many is lent a list,
/// is drawn, translated and run.
const SAMPLE_READ: u64 = 32;
/// The same for those refused by a later check.
const SAMPLE_SCHEDULED: u64 = 4;

/// A class at work.
pub struct Trial<'a> {
    readers: &'a Readers,
    tally: Tally,
}

impl<'a> Trial<'a> {
    /// A class of which no case was tried yet.
    pub fn new(readers: &'a Readers, class: &'static str) -> Trial<'a> {
        let tally = Tally::new(class);
        Trial { readers, tally }
    }

    /// What was counted.
    pub fn tally(self) -> Tally {
        self.tally
    }

    /// A case whose answer is not known before.
    pub fn compare(&mut self, input: &[u8]) -> Outcome {
        self.case(input, Expected::Anything)
    }

    /// A case whose answer is known.
    pub fn expect(&mut self, input: &[u8], answer: Verdict) -> Outcome {
        self.case(input, Expected::Verdict(answer))
    }

    /// A case that is refused with this number.
    pub fn expect_number(&mut self, input: &[u8], number: u8) -> Outcome {
        self.case(input, Expected::Number(number))
    }

    /// A case that passes the checks up to this one.
    pub fn expect_past(&mut self, input: &[u8], number: u8) -> Outcome {
        self.case(input, Expected::Past(number))
    }

    /// A case that is accepted, with its schedule, which is held to before what is asked
    /// by it.
    pub fn expect_passages(&mut self, input: &[u8], passages: &[[u32; FIELDS]]) -> Outcome {
        let library = Lent::to(&self.readers.library, input, AMPLE);
        let second = Lent::to(&self.readers.second, input, AMPLE);
        if library.passages() == passages && second.passages() == passages {
            return self.expect(input, Verdict::Accepted);
        }
        let unlike = Unlike {
            library: format!("{:?}", library.passages()),
            second: format!("{:?}", second.passages()),
        };
        let expected = format!("{passages:?}");
        Err(self.differs(input, "schedule".to_string(), unlike, Some(expected)))
    }

    fn case(&mut self, input: &[u8], expected: Expected) -> Outcome {
        let library = (self.readers.library.check)(input);
        let second = (self.readers.second.check)(input);
        if library != second || !expected.allows(library) {
            let unlike = Unlike {
                library: library.to_string(),
                second: second.to_string(),
            };
            let expected = Some(expected.to_string());
            return Err(self.differs(input, "check".to_string(), unlike, expected));
        }
        self.tally.count(library);
        self.locate(input, library)?;
        self.spread_some(input, library)?;
        match library {
            Verdict::Accepted => self.lend_for_accepted(input),
            Verdict::Refused { number, .. } => self.lend_for_refused(input, number),
        }
    }

    /// Lends an ample list, then those of the lengths that matter.
    fn lend_for_accepted(&mut self, input: &[u8]) -> Outcome {
        let passages = self.lend(input, AMPLE)?;
        if passages > 0 {
            for length in lists::lengths(passages, self.tally.answers[0]) {
                self.lend(input, length)?;
            }
        }
        self.chart_accepted(input)?;
        self.choose_accepted(input)?;
        self.ask_accepted(input)?;
        self.position_accepted(input)?;
        self.export_some(input)?;
        self.airtime(input)?;
        self.repeat_accepted(input)?;
        self.translate_accepted(input)
    }

    /// Lends a list for some of the refused tables.
    fn lend_for_refused(&mut self, input: &[u8], number: u8) -> Outcome {
        let every = match number {
            ..=6 => SAMPLE_READ,
            _ => SAMPLE_SCHEDULED,
        };
        let count = self.tally.answered(number) - 1;
        if count.is_multiple_of(every) {
            self.lend(input, lists::length_for_refused(count / every))?;
            self.translate_and_run_refused(input, count / every)?;
            self.choose_refused(input)?;
            self.ask_refused(input)?;
            self.position_refused(input)?;
            self.simulate_refused(input)?;
            self.export_refused(input)?;
            self.airtime(input)?;
            self.repeat_refused(input)?;
        }
        Ok(())
    }

    /// Lends both a list of this length and gives the passages written.
    fn lend(&mut self, input: &[u8], length: usize) -> Result<usize, Stop> {
        match lists::compare(self.readers, input, length) {
            Ok(call) => {
                self.tally.lists.count(call.verdict);
                Ok(call.size)
            }
            Err(unlike) => {
                let call = format!("schedule, with a list of {length} numbers");
                Err(self.differs(input, call, unlike, None))
            }
        }
    }

    fn differs(&self, input: &[u8], call: String, said: Unlike, expected: Option<String>) -> Stop {
        Stop::Differs(Box::new(Difference {
            class: self.tally.class,
            input: input.to_vec(),
            call,
            library: said.library,
            second: said.second,
            expected,
        }))
    }
}
