//! What comes again, and runs to a horizon, of a class.

use super::Trial;
use crate::bytes::hex;
use crate::difference::{Outcome, Stop};
use crate::periods::{self, compare_pair, compare_run, Handed, Lent, Ran, Said};
use crate::requests::Repeated;
use crate::runs::AMPLE;
use demand::{Demand, TICK};
use timed_network::Pair;

/// The choices under which tables are run that no list is drawn for.
const CHOICES: [u8; 5] = [0, 0, TICK, 1, TICK];

impl Trial<'_> {
    /// Asks both from when to when everything of a table comes again; nothing of a
    /// refused one.
    pub fn pair(&mut self, input: &[u8]) -> Result<Option<Pair>, Stop> {
        Ok(self.asked_pair(input)?.unwrap_or(None))
    }

    /// The same with the refusal.
    fn asked_pair(&mut self, input: &[u8]) -> Result<Said, Stop> {
        match compare_pair(self.readers, input) {
            Ok(pair) => {
                self.tally.periods.count_pair(&pair);
                Ok(pair)
            }
            Err(unlike) => Err(self.differs(input, "period".to_string(), unlike, None)),
        }
    }

    /// Both have to answer with this pair.
    pub fn expect_pair(&mut self, input: &[u8], answer: &str) -> Outcome {
        let pair = self.asked_pair(input)?;
        self.demand(input, "period", periods::words(&pair), answer.to_string())
    }

    /// Runs a table to a horizon on both sides.
    pub fn run_to(
        &mut self,
        input: &[u8],
        demand: Option<&Demand>,
        handed: &Handed,
    ) -> Result<Ran, Stop> {
        match compare_run(self.readers, input, demand, handed) {
            Ok(ran) => {
                let own = own_horizon(input);
                self.tally.periods.count_run(&ran, handed.horizon, own);
                Ok(ran)
            }
            Err(broken) => Err(self.differs(input, call(handed), broken.unlike, broken.demand)),
        }
    }

    /// The pair of an accepted table, and by turns a run to a horizon about its own. To
    /// the table's own horizon the run without one says the same.
    pub(super) fn repeat_accepted(&mut self, input: &[u8]) -> Outcome {
        let turn = self.tally.answers[0];
        self.pair(input)?;
        let own = own_horizon(input);
        let horizon = [own, 0, own - 1, own + 1, 1, u32::MAX][(turn % 6) as usize];
        let handed = Handed {
            choices: &CHOICES[..(turn / 6 % 6) as usize],
            horizon,
            lent: [AMPLE, AMPLE, 0, 100][(turn / 36 % 4) as usize],
        };
        self.run_to(input, None, &handed)?;
        if horizon != own {
            return Ok(());
        }
        let long = Lent::to(&self.readers.library, input, &handed);
        let short =
            crate::runs::Lent::to(&self.readers.library, input, handed.choices, handed.lent);
        let (one, two) = (long.answer, short.answer);
        let without = format!(
            "{} {} {} {} {} {}",
            two.number, two.component, two.end, two.node, two.tick, two.used
        );
        let to_it = format!(
            "{} {} {} {} {} {}",
            one.number, one.component, one.end, one.node, one.tick, one.used
        );
        self.demand(input, &call(&handed), to_it, without)?;
        let (one, two) = (hex(long.observations()), hex(short.observations()));
        self.demand(input, &call(&handed), one, two)
    }

    /// The pair and a run of a refused table: both are refused as the check refuses it.
    pub(super) fn repeat_refused(&mut self, input: &[u8]) -> Outcome {
        let turn = self.tally.periods.all();
        let expected = (self.readers.library.check)(input).to_string();
        let pair = self.asked_pair(input)?;
        self.demand(input, "period", periods::words(&pair), expected.clone())?;
        let handed = Handed {
            choices: &CHOICES,
            horizon: [0, 1, u32::MAX][(turn % 3) as usize],
            lent: [0, AMPLE][(turn / 3 % 2) as usize],
        };
        self.run_to(input, None, &handed)?;
        let said = Lent::to(&self.readers.library, input, &handed).words();
        self.demand(input, &call(&handed), said, expected)
    }

    /// A run to a horizon has to end and to show what the corpus has of it.
    pub fn expect_shown_to(&mut self, input: &[u8], handed: &Handed, answer: &str) -> Outcome {
        let said = Lent::to(&self.readers.library, input, handed).shown();
        self.demand(input, &call(handed), said, answer.to_string())?;
        self.run_to(input, None, handed).map(|_| ())
    }

    /// Both have to answer in these words.
    pub fn expect_repeated(&mut self, request: &Repeated) -> Outcome {
        let (input, answer) = (&request.table, request.answer.clone());
        let Some(long) = &request.run else {
            self.expect_pair(input, &answer)?;
            return self.compare(input);
        };
        let handed = Handed {
            choices: &long.choices,
            horizon: long.horizon,
            lent: long.lent,
        };
        let said = Lent::to(&self.readers.library, input, &handed).words();
        self.demand(input, &call(&handed), said, answer)?;
        self.run_to(input, None, &handed).map(|_| ())
    }
}

/// The horizon that a table states; 0 where it is too short for one.
fn own_horizon(table: &[u8]) -> u32 {
    let [Some(high), Some(low)] = [table.get(5), table.get(6)] else {
        return 0;
    };
    u16::from_be_bytes([*high, *low]).into()
}

/// The call with its numbers.
fn call(handed: &Handed) -> String {
    let Handed {
        choices,
        horizon,
        lent,
    } = handed;
    let shown = hex(&choices[..choices.len().min(200)]);
    let count = choices.len();
    format!("run_to {horizon}, with {lent} bytes and the {count} choices {shown}")
}
