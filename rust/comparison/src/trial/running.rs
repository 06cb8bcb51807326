//! Programs, parts, charts, plans and runs of a class.

use super::Trial;
use crate::bytes::hex;
use crate::difference::{Outcome, Stop};
use crate::lists::Unlike;
use crate::programs::{self, NODES};
use crate::readers::Reader;
use crate::runs::{self, Subject};
use demand::{Demand, TICK};
use reference::program::program_length;
use reference::table::read_table;
use timed_network::{RunNumbers, Slots, Verdict, CHART_ROW};

/// The choices under which refused tables are run.
const CHOICES: [u8; 4] = [0, TICK, 8, 1];

impl Trial<'_> {
    /// Lends bytes for the program of an accepted table, and asks for its
    /// parts.
    pub(super) fn translate_accepted(&mut self, input: &[u8]) -> Outcome {
        let length = read_table(input).map_or(0, |table| program_length(&table));
        let turn = self.tally.answers[0];
        let [enough, few, other] = programs::lengths(length, turn);
        let program = self.translate(input, enough)?;
        self.translate(input, few)?;
        self.translate(input, other)?;
        self.parts(&program)
    }

    /// Lends both bytes of this length and gives the program written.
    pub fn translate(&mut self, input: &[u8], length: usize) -> Result<Vec<u8>, Stop> {
        match programs::compare(self.readers, input, length) {
            Ok((verdict, program)) => {
                self.tally.programs.count(verdict);
                Ok(program)
            }
            Err(unlike) => {
                let call = format!("translate, with {length} bytes");
                Err(self.differs(input, call, unlike, None))
            }
        }
    }

    /// Lends bytes for the chart of an accepted table.
    pub(super) fn chart_accepted(&mut self, input: &[u8]) -> Outcome {
        let rows = read_table(input).map_or(0, |table| table.components.len());
        for length in programs::lengths(rows * CHART_ROW, self.tally.answers[0]) {
            self.chart(input, length)?;
        }
        Ok(())
    }

    /// Lends both bytes of this length and gives the chart written.
    pub fn chart(&mut self, input: &[u8], length: usize) -> Result<Vec<u8>, Stop> {
        match programs::compare_chart(self.readers, input, length) {
            Ok((verdict, chart)) => {
                self.tally.charts.count(verdict);
                Ok(chart)
            }
            Err(unlike) => {
                let call = format!("timing_chart, with {length} bytes");
                Err(self.differs(input, call, unlike, None))
            }
        }
    }

    /// Both have to give this answer for the chart: its bytes, or a refusal.
    pub fn expect_chart(&mut self, input: &[u8], length: usize, answer: &str) -> Outcome {
        let said = |reader: &Reader| {
            let mut chart = vec![0; length];
            let call = (reader.timing_chart)(input, &mut chart);
            match call.verdict {
                Verdict::Accepted => hex(&chart[..call.size]),
                refused => refused.to_string(),
            }
        };
        let call = format!("timing_chart, with {length} bytes");
        for reader in [self.readers.library, self.readers.second] {
            self.demand(input, &call, said(&reader), answer.to_string())?;
        }
        self.chart(input, length).map(|_| ())
    }

    /// Lends both bytes of this length and gives the table of the plan, if there
    /// is one.
    pub fn plan(&mut self, slots: Slots, length: usize) -> Result<Option<Vec<u8>>, Stop> {
        match programs::compare_plan(self.readers, slots, length) {
            Ok((verdict, table)) => {
                self.tally.plans.count(verdict);
                Ok((verdict == Verdict::Accepted).then_some(table))
            }
            Err(unlike) => {
                let call = format!("plan of {slots:?}, with {length} bytes");
                Err(self.differs(&[], call, unlike, None))
            }
        }
    }

    /// Both have to give this answer for the plan: its bytes, or a refusal.
    pub fn expect_plan(&mut self, slots: Slots, length: usize, answer: &str) -> Outcome {
        let said = |reader: &Reader| {
            let mut table = vec![0; length];
            let call = (reader.plan)(slots, &mut table);
            match call.verdict {
                Verdict::Accepted => hex(&table[..call.size]),
                refused => refused.to_string(),
            }
        };
        let call = format!("plan of {slots:?}, with {length} bytes");
        for reader in [self.readers.library, self.readers.second] {
            self.demand(&[], &call, said(&reader), answer.to_string())?;
        }
        self.plan(slots, length).map(|_| ())
    }

    /// Asks both for the part of each number.
    pub fn parts(&mut self, program: &[u8]) -> Outcome {
        for node in NODES {
            match programs::compare_part(self.readers, program, node) {
                Ok(found) => self.tally.parts[usize::from(!found)] += 1,
                Err(unlike) => {
                    let call = format!("part {node}");
                    return Err(self.differs(program, call, unlike, None));
                }
            }
        }
        Ok(())
    }

    /// Translates and runs a refused table.
    pub(super) fn translate_and_run_refused(&mut self, input: &[u8], turn: u64) -> Outcome {
        let length = programs::length_for_refused(turn);
        self.translate(input, length)?;
        self.chart(input, length)?;
        let choices = &CHOICES[..turn as usize % (CHOICES.len() + 1)];
        self.run(input, None, choices, length)
    }

    /// Runs an accepted table under choices, with as many bytes as it is its
    /// turn.
    pub fn run_accepted(&mut self, subject: &Subject, demand: &Demand, choices: &[u8]) -> Outcome {
        let length = runs::length(subject.needed(), self.tally.runs.all());
        self.run(&subject.bytes, Some(demand), choices, length)
    }

    /// Runs a table under choices with so many bytes lent.
    pub fn run(
        &mut self,
        input: &[u8],
        demand: Option<&Demand>,
        choices: &[u8],
        length: usize,
    ) -> Outcome {
        match runs::compare(self.readers, input, demand, choices, length) {
            Ok(ran) => {
                self.tally.runs.count(&ran);
                Ok(())
            }
            Err(broken) => {
                let choices = hex(choices);
                let call = format!("run, with {length} bytes and the choices {choices}");
                Err(self.differs(input, call, broken.unlike, broken.demand))
            }
        }
    }

    /// Both have to write this program.
    pub fn expect_program(&mut self, input: &[u8], program: &[u8]) -> Outcome {
        let found = self.translate(input, program.len())?;
        let said = |found: &[u8]| hex(found);
        self.demand(input, "translate", said(&found), said(program))?;
        self.parts(&found)
    }

    /// Both have to find this part.
    pub fn expect_part(&mut self, program: &[u8], node: u8, part: &[u8]) -> Outcome {
        let call = format!("part {node}");
        for reader in [self.readers.library, self.readers.second] {
            let found = (reader.part)(program, node);
            self.demand(program, &call, hex(found), hex(part))?;
        }
        self.parts(program)
    }

    /// Both have to give this answer and to write these observations, as far as they are
    /// stored.
    pub fn expect_run(
        &mut self,
        input: &[u8],
        choices: &[u8],
        answer: &RunNumbers,
        observations: &[Vec<u8>],
    ) -> Outcome {
        let call = format!("run, with the choices {}", hex(choices));
        let expected = runs::told(answer, observations);
        for reader in [self.readers.library, self.readers.second] {
            let lent = runs::Lent::to(&reader, input, choices, runs::AMPLE);
            let said = lent.told_like(observations);
            self.demand(input, &call, said, expected.clone())?;
        }
        match Subject::new(input) {
            Some(subject) => self.run_accepted(&subject, &subject.demand(), choices),
            None => self.run(input, None, choices, runs::AMPLE),
        }
    }

    /// Both have to refuse the program and the run of this table.
    pub fn expect_refused(&mut self, input: &[u8], choices: &[u8], answer: Verdict) -> Outcome {
        let call = format!("translate and run, with the choices {}", hex(choices));
        for reader in [self.readers.library, self.readers.second] {
            let translated = (reader.translate)(input, &mut vec![0; runs::AMPLE]).verdict;
            self.demand(input, &call, translated.to_string(), answer.to_string())?;
            let ran = (reader.run)(input, choices, &mut vec![0; runs::AMPLE]);
            let said = format!("refused {} {}", ran.number, ran.component);
            self.demand(input, &call, said, answer.to_string())?;
        }
        self.translate(input, 0)?;
        self.run(input, None, choices, runs::AMPLE)
    }

    /// What is said has to be what is known.
    pub(super) fn demand(
        &self,
        input: &[u8],
        call: &str,
        said: String,
        expected: String,
    ) -> Outcome {
        if said == expected {
            return Ok(());
        }
        let (library, second) = (said.clone(), said);
        let unlike = Unlike { library, second };
        Err(self.differs(input, call.to_string(), unlike, Some(expected)))
    }
}
