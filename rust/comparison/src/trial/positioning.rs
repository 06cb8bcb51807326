//! Pairs of a class: where components are at ticks.

use super::Trial;
use crate::difference::{Outcome, Stop};
use crate::lists::{Lent, AMPLE as AMPLE_LIST};
use crate::positions::{self, around, count, damaged, damaged_twice, drawn, length, Answer};
use crate::random::Random;
use crate::reasons::AMPLE as AMPLE_REASONS;
use crate::runs::Subject;
use timed_network::{Verdict, FIELDS, POSITION};

/// So many of the first answers are asked of the reasons too.
const ASKED: usize = 4;

impl Trial<'_> {
    /// Asks about an accepted table, as many pairs as it is their turn: good ones, with
    /// enough bytes and then with one of the lengths about the needed one, and now and
    /// then damaged ones.
    pub(super) fn position_accepted(&mut self, input: &[u8]) -> Outcome {
        let lent = Lent::to(&self.readers.library, input, AMPLE_LIST);
        let rows = lent.passages();
        let passages: Vec<[u32; FIELDS]> = rows
            .iter()
            .filter_map(|row| <[u32; FIELDS]>::try_from(*row).ok())
            .collect();
        let turn = self.tally.answers[0];
        let mut random = Random::new(turn + 1);
        let horizon = u16::from_be_bytes([input[5], input[6]]).into();
        let mut numbers = drawn(&mut random, &passages, horizon, count(turn));
        let answer = self.position(input, &numbers, POSITION * numbers.len())?;
        self.hold_positions(input, &numbers, &answer, &passages)?;
        self.position(input, &numbers, length(numbers.len() / 2, turn / 5))?;
        if random.once_in(4) {
            for _ in 0..random.within(1..=2) {
                damaged(&mut random, &mut numbers, input[3].into(), horizon);
            }
            self.position(input, &numbers, length(numbers.len() / 2, turn / 20))?;
        }
        Ok(())
    }

    /// Asks about both sides of some entries, readies and ends of an accepted table, with
    /// each length about the needed one; then with a fault or two, now with many bytes,
    /// now with none.
    pub fn position_around(&mut self, random: &mut Random, subject: &Subject) -> Outcome {
        let input = &subject.bytes[..];
        let (absent, horizon) = (input[3].into(), subject.table.horizon.into());
        let most = random.pick(&[1, 4, 40]);
        let mut numbers = around(random, &subject.passages, horizon, most);
        for turn in 0..4 {
            self.position(input, &numbers, length(numbers.len() / 2, turn))?;
        }
        self.position(input, &numbers[..random.below(2)], 0)?;
        if numbers.len() < 4 || random.once_in(4) {
            damaged(random, &mut numbers, absent, horizon);
        } else {
            damaged_twice(random, &mut numbers, absent, horizon);
        }
        let lent = POSITION * random.pick(&[0, numbers.len()]);
        self.position(input, &numbers, lent)?;
        Ok(())
    }

    /// Asks about a refused table; what is asked and lent does not matter.
    pub(super) fn position_refused(&mut self, input: &[u8]) -> Outcome {
        let turn = self.tally.located.all();
        let lists: [&[u32]; 4] = [&[], &[0, 0], &[9, 9, 0, 3, 0, 2], &[u32::MAX, u32::MAX]];
        let numbers = lists[(turn % 4) as usize];
        let answer = self.position(input, numbers, length(numbers.len() / 2, turn / 4))?;
        let expected = (self.readers.library.check)(input).to_string();
        self.demand(input, &call(numbers), answer.words(), expected)
    }

    /// Asks both with so many bytes lent.
    fn position(&mut self, input: &[u8], numbers: &[u32], lent: usize) -> Result<Answer, Stop> {
        match positions::compare(self.readers, input, numbers, lent) {
            Ok(answer) => {
                self.tally.located.count(&answer, numbers.len());
                Ok(answer)
            }
            Err(unlike) => {
                let call = format!("{}, with {lent} bytes", call(numbers));
                Err(self.differs(input, call, unlike, None))
            }
        }
    }

    /// As many passages are read as were entered by the last tick, and the first answers
    /// name the passages that the reasons name.
    fn hold_positions(
        &mut self,
        input: &[u8],
        numbers: &[u32],
        answer: &Answer,
        passages: &[[u32; FIELDS]],
    ) -> Outcome {
        let last = numbers.last().copied();
        let entered = |row: &&[u32; FIELDS]| last.is_some_and(|last| row[3] <= last);
        let read = passages.iter().filter(entered).count();
        let mut named = Vec::new();
        for pair in numbers.chunks_exact(2).take(ASKED) {
            let mut bytes = [0; AMPLE_REASONS];
            let told = (self.readers.library.reasons)(input, pair[0], pair[1], &mut bytes);
            named.push(told.passage);
        }
        let expected = format!("accepted, read {read}, passages {named:?}");
        let told = answer.written.chunks_exact(POSITION).take(ASKED);
        let told: Vec<u32> = told
            .map(|bytes| u16::from_be_bytes([bytes[0], bytes[1]]).into())
            .collect();
        let said = match answer.told.verdict {
            Verdict::Accepted => {
                format!("accepted, read {}, passages {told:?}", answer.told.read)
            }
            refused => refused.to_string(),
        };
        self.demand(input, &call(numbers), said, expected)
    }

    /// Both have to answer in these words.
    pub fn expect_positions(
        &mut self,
        input: &[u8],
        numbers: &[u32],
        lent: usize,
        answer: &str,
    ) -> Outcome {
        let said = self.position(input, numbers, lent)?.words();
        self.demand(input, &call(numbers), said, answer.to_string())?;
        self.compare(input)
    }
}

/// The call with its pairs.
fn call(numbers: &[u32]) -> String {
    let pairs: Vec<String> = numbers
        .chunks(2)
        .map(|pair| match pair {
            [component, tick] => format!("{component}:{tick}"),
            left_over => format!("{left_over:?}"),
        })
        .collect();
    format!("positions, of {}", pairs.join(","))
}
