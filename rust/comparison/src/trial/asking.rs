//! Questions of a class why edges are taken.

use super::Trial;
use crate::difference::{Outcome, Stop};
use crate::lists::{Lent, AMPLE as AMPLE_LIST};
use crate::random::Random;
use crate::reasons::{self, drawn, length, Answer, Question};
use timed_network::{Reason, Verdict, FIELDS};

impl Trial<'_> {
    /// Asks questions about an accepted table, each with ample bytes and then with
    /// one of the lengths about the needed one. Exactly one edge is taken, that of
    /// the schedule's passage.
    pub(super) fn ask_accepted(&mut self, input: &[u8]) -> Outcome {
        let lent = Lent::to(&self.readers.library, input, AMPLE_LIST);
        let passages: Vec<[u32; FIELDS]> = lent
            .passages()
            .iter()
            .filter_map(|row| <[u32; FIELDS]>::try_from(*row).ok())
            .collect();
        let mut random = Random::new(self.tally.answers[0]);
        for question in drawn(&mut random, &passages, horizon(input)) {
            let ample = self.ask(input, &question, reasons::AMPLE)?;
            self.hold_taken(input, &question, &ample, &passages)?;
            let turn = self.tally.asked.all() / 2;
            let needed = length(ample.told.size, turn);
            self.ask(input, &question, needed)?;
        }
        Ok(())
    }

    /// Asks about a refused table; what is asked and lent does not matter.
    pub(super) fn ask_refused(&mut self, input: &[u8]) -> Outcome {
        let turn = self.tally.asked.all();
        let numbers = [0, 1, 9, u32::MAX];
        let pick = |turn: u64| numbers[(turn % 4) as usize];
        let question = Question {
            component: pick(turn),
            tick: pick(turn / 4),
        };
        let answer = self.ask(input, &question, length(1, turn / 16))?;
        let said = answer.told.verdict.to_string();
        let expected = (self.readers.library.check)(input).to_string();
        self.demand(input, &call(&question), said, expected)
    }

    /// Asks both with so many bytes lent.
    fn ask(&mut self, input: &[u8], question: &Question, lent: usize) -> Result<Answer, Stop> {
        match reasons::compare(self.readers, input, question, lent) {
            Ok(answer) => {
                self.tally.asked.count(&answer);
                Ok(answer)
            }
            Err(unlike) => {
                let call = format!("{}, with {lent} bytes", call(question));
                Err(self.differs(input, call, unlike, None))
            }
        }
    }

    /// The edge taken is that of the passage told, which is the component's at the
    /// tick.
    fn hold_taken(
        &mut self,
        input: &[u8],
        question: &Question,
        answer: &Answer,
        passages: &[[u32; FIELDS]],
    ) -> Outcome {
        let Question { component, tick } = *question;
        let named = |row: &[u32; FIELDS]| row[0] == component && row[3] <= tick && tick < row[5];
        let expected = match passages.iter().position(named) {
            Some(place) if tick < horizon(input) => {
                format!("passage {place}, taken {:?}", [passages[place][1] as u8])
            }
            _ => "refused 21 255".to_string(),
        };
        let said = match (answer.told.verdict, answer.edges()) {
            (Verdict::Accepted, Some(edges)) => {
                let taken = edges.iter().filter(|(_, reason)| *reason == Reason::Taken);
                let taken: Vec<u8> = taken.map(|(edge, _)| *edge).collect();
                format!("passage {}, taken {taken:?}", answer.told.passage)
            }
            _ => answer.words(),
        };
        self.demand(input, &call(question), said, expected)
    }

    /// Both have to answer in these words.
    pub fn expect_reasons(
        &mut self,
        input: &[u8],
        question: &Question,
        lent: usize,
        answer: &str,
    ) -> Outcome {
        for reader in [self.readers.library, self.readers.second] {
            let said = Answer::of(&reader, input, question, lent).words();
            self.demand(input, &call(question), said, answer.to_string())?;
        }
        self.ask(input, question, lent)?;
        self.compare(input)
    }
}

/// The horizon of an accepted table.
fn horizon(table: &[u8]) -> u32 {
    u16::from_be_bytes([table[5], table[6]]).into()
}

/// The call with its question.
fn call(question: &Question) -> String {
    let Question { component, tick } = question;
    format!("reasons, of component {component} at tick {tick}")
}
