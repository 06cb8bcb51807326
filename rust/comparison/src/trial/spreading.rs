//! Verdicts at a spread, windows that met, and runs of nodes that wake apart, of a
//! class.

use super::Trial;
use crate::bytes::hex;
use crate::difference::{Outcome, Stop};
use crate::runs::apart::{self, Handed};
use crate::runs::{self, Subject};
use crate::spreads;
use demand::Demand;
use timed_network::{Meetings, RunNumbers, Verdict, FIELDS};

/// The spreads at which tables of other classes are tried, by turns.
const SPREADS: [u32; 11] = [1, 2, 0, 3, 1000, 1, 1001, 7, 0, 40, u32::MAX];
/// Of the accepted tables of other classes one in so many is tried at a spread.
const SAMPLE_ACCEPTED: u64 = 24;
/// The same for those refused by a check up to 9, and by a later one.
const SAMPLE_REFUSED: [u64; 2] = [192, 24];

impl Trial<'_> {
    /// Tries some of the tables of any class at a spread, and asks for the largest.
    pub(super) fn spread_some(&mut self, input: &[u8], verdict: Verdict) -> Outcome {
        let (number, every) = match verdict {
            Verdict::Accepted => (0, SAMPLE_ACCEPTED),
            Verdict::Refused { number, .. } => (number, SAMPLE_REFUSED[usize::from(number > 9)]),
        };
        let count = self.tally.answered(number);
        if !count.is_multiple_of(every) {
            return Ok(());
        }
        let turn = (count / every + u64::from(number)) % SPREADS.len() as u64;
        let spread = SPREADS[turn as usize];
        self.spread(input, spread)?;
        if turn == 0 {
            self.largest(input)?;
        }
        if spread == 0 {
            self.met(input, None)?;
        }
        Ok(())
    }

    /// What both say of a table at a spread, and which windows they list.
    pub fn spread(&mut self, input: &[u8], spread: u32) -> Result<Verdict, Stop> {
        let verdict = match spreads::compare_check(self.readers, input, spread) {
            Ok(verdict) => verdict,
            Err(unlike) => return Err(self.differs(input, at(spread), unlike, None)),
        };
        if !self.tally.spreads.count(spread, verdict) {
            let known = "accepted, or refused with 1 to 12, 15 to 17 or 19".to_string();
            self.demand(input, &at(spread), verdict.to_string(), known)?;
        }
        if spread == 0 {
            let known = (self.readers.library.check)(input).to_string();
            self.demand(input, &at(spread), verdict.to_string(), known)?;
        }
        self.met(input, Some(spread))?;
        Ok(verdict)
    }

    /// Both have to say this of a table at a spread.
    pub fn expect_spread(&mut self, input: &[u8], spread: u32, answer: Verdict) -> Outcome {
        let verdict = self.spread(input, spread)?;
        self.demand(input, &at(spread), verdict.to_string(), answer.to_string())
    }

    /// Asks both for the largest spread, and tries it and the next one.
    pub fn largest(&mut self, input: &[u8]) -> Outcome {
        let answer = match spreads::compare_largest(self.readers, input) {
            Ok(answer) => answer,
            Err(unlike) => {
                let call = "largest_spread".to_string();
                return Err(self.differs(input, call, unlike, None));
            }
        };
        self.tally.spreads.count_largest(&answer);
        match answer {
            Ok(largest) => {
                self.expect_spread(input, largest, Verdict::Accepted)?;
                let next = largest.saturating_add(1);
                if self.spread(input, next)? == Verdict::Accepted {
                    let known = format!("refused, since {largest} is the largest");
                    self.demand(input, &at(next), "accepted".to_string(), known)?;
                }
            }
            Err(refused) => self.expect_spread(input, 0, refused)?,
        }
        Ok(())
    }

    /// Lends lists for the windows that met: one that is mostly long enough, then,
    /// if there are some, one of another length. No spread stands for the call
    /// without one.
    fn met(&mut self, input: &[u8], spread: Option<u32>) -> Outcome {
        let turn = self.tally.spreads.met.iter().sum::<u64>();
        let first = match turn % 16 {
            0 => spreads::AMPLE,
            _ => 12 * FIELDS,
        };
        let answer = self.lend_met(input, spread, first)?;
        if answer.size > 0 {
            let length = spreads::length(answer.size, turn);
            self.lend_met(input, spread, length)?;
        }
        Ok(())
    }

    fn lend_met(
        &mut self,
        input: &[u8],
        spread: Option<u32>,
        length: usize,
    ) -> Result<Meetings, Stop> {
        match spreads::compare_meetings(self.readers, input, spread, length) {
            Ok(answer) => {
                self.tally.spreads.count_met(&answer);
                Ok(answer)
            }
            Err(unlike) => {
                let call = match spread {
                    Some(spread) => format!("meetings_spread, at {spread}"),
                    None => "meetings".to_string(),
                };
                let call = format!("{call}, with a list of {length} numbers");
                Err(self.differs(input, call, unlike, None))
            }
        }
    }

    /// Runs a table that is accepted at the spread, with as many bytes as it is its
    /// turn.
    pub fn run_apart_accepted(
        &mut self,
        subject: &Subject,
        demand: &Demand,
        handed: &Handed,
    ) -> Outcome {
        let length = runs::length(subject.needed(), self.tally.apart.all());
        self.run_apart(&subject.bytes, Some(demand), handed, length)
    }

    /// Runs a table with so many bytes lent.
    pub fn run_apart(
        &mut self,
        input: &[u8],
        demand: Option<&Demand>,
        handed: &Handed,
        length: usize,
    ) -> Outcome {
        match apart::compare(self.readers, input, demand, handed, length) {
            Ok(ran) => {
                self.tally.apart.count(&ran, handed);
                Ok(())
            }
            Err(broken) => {
                let call = format!("{}, with {length} bytes", called(handed));
                Err(self.differs(input, call, broken.unlike, broken.demand))
            }
        }
    }

    /// Both have to give this answer with so many bytes lent: a refusal, or these
    /// numbers and these observations, as far as they are stored.
    pub fn expect_run_apart(
        &mut self,
        input: &[u8],
        handed: &Handed,
        length: usize,
        answer: &Result<(RunNumbers, Vec<Vec<u8>>), Verdict>,
    ) -> Outcome {
        let call = called(handed);
        let (expected, stored) = match answer {
            Ok((answer, stored)) => (runs::told(answer, stored), &stored[..]),
            Err(refused) => (refused.to_string(), &[][..]),
        };
        for reader in [self.readers.library, self.readers.second] {
            let lent = runs::Lent::apart(&reader, input, handed, length);
            let said = match lent.answer.number {
                0 => lent.told_like(stored),
                number => format!("refused {number} {}", lent.answer.component),
            };
            self.demand(input, &call, said, expected.clone())?;
        }
        let subject = Subject::within(input, handed.spread);
        let demand = subject.as_ref().map(Subject::demand);
        self.run_apart(input, demand.as_ref(), handed, length)
    }

    /// Both have to give this answer: `end node tick used`, then node, tick and finish
    /// tick of each observation, as the corpus has it.
    pub fn expect_shown(&mut self, input: &[u8], handed: &Handed, answer: &str) -> Outcome {
        for reader in [self.readers.library, self.readers.second] {
            let lent = runs::Lent::apart(&reader, input, handed, runs::AMPLE);
            self.demand(input, &called(handed), lent.shown(), answer.to_string())?;
        }
        let subject = Subject::within(input, handed.spread);
        let demand = subject.as_ref().map(Subject::demand);
        self.run_apart(input, demand.as_ref(), handed, runs::AMPLE)
    }
}

/// The verdict's call.
fn at(spread: u32) -> String {
    format!("check_spread, at {spread}")
}

/// The run's call.
fn called(handed: &Handed) -> String {
    let Handed {
        choices,
        spread,
        offsets,
    } = handed;
    let choices = hex(choices);
    format!("run_apart, at {spread} with the offsets {offsets:?} and the choices {choices}")
}
