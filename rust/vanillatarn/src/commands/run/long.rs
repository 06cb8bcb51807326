//! A run to a horizon that is handed in, in the words of a run, or as an object.

mod words;

use super::json;
use super::told::{Shown, Window};
use crate::options::Form;
use crate::output::{Stop, REFUSED};
use timed_network::{passages, period, run_to, Observation, Refused, Run};
use timed_network::{Pair, FIELDS, OBSERVATION};

/// The most bytes that are taken for observations.
const MOST: u64 = 4 << 30;

/// A run, and how it is told.
pub(super) struct LongRun {
    pub form: Form,
    /// Which observations are told, as of a run without a horizon.
    pub close: Option<u32>,
    pub horizon: u32,
}

impl LongRun {
    /// What is told, and the status: 0 at the horizon or with all choices used up, 1 for every
    /// other end and for a refusal.
    pub fn told(&self, table: &[u8], choices: &[u8]) -> Result<(Vec<u8>, u8), Stop> {
        let rows = passages(table).unwrap_or_default();
        let pair = period(table).unwrap_or(None);
        let needed = needed(&rows, pair, self.horizon);
        if needed > MOST {
            let problem = format!("the observations to horizon {} take", self.horizon);
            let problem = format!("{problem} {needed} bytes, more than {MOST}");
            return Err(Stop::broken(problem));
        }
        let mut bytes = vec![0; needed as usize];
        let answer = run_to(table, choices, self.horizon, &mut bytes);
        let observations: Vec<Observation> = match &answer {
            Ok(run) => run.observations(&bytes).collect(),
            Err(_) => Vec::new(),
        };
        let shown = with_windows(&rows, pair, &observations);
        let told = match self.form {
            Form::Words => words::told(self.close, choices, &answer, &shown),
            Form::Json => {
                let head = vec![("horizon", self.horizon.to_string())];
                json::line(head, self.close, &answer, &shown)
            }
        };
        Ok((told, status(&answer)))
    }
}

/// 0 at the horizon or with all choices used up.
fn status(answer: &Result<Run, Refused>) -> u8 {
    match answer {
        Ok(run) if run.end.number() < 2 => 0,
        _ => REFUSED,
    }
}

/// How many rows are entered before a tick.
fn before(rows: &[[u32; FIELDS]], tick: u32) -> u64 {
    rows.partition_point(|row| row[3] < tick) as u64
}

/// The bytes that the observations of a run to a horizon take.
fn needed(rows: &[[u32; FIELDS]], pair: Option<Pair>, horizon: u32) -> u64 {
    let passages = match pair {
        Some(pair) if horizon > pair.to => {
            let ticks = horizon - pair.from;
            let round = before(rows, pair.to) - before(rows, pair.from);
            let rest = before(rows, pair.from + ticks % pair.ticks());
            rest + u64::from(ticks / pair.ticks()) * round
        }
        _ => before(rows, horizon),
    };
    passages * OBSERVATION as u64
}

/// Each observation with the window of its node's passage before. Behind the rows before
/// the second tick of the pair those from the first on come again.
fn with_windows(
    rows: &[[u32; FIELDS]],
    pair: Option<Pair>,
    observations: &[Observation],
) -> Vec<Shown> {
    let own = |node: usize| -> Vec<&[u32; FIELDS]> {
        let rows = rows.iter().filter(|row| row[0] as usize == node);
        let again = |row: &&[u32; FIELDS]| pair.is_none_or(|pair| row[3] < pair.to);
        rows.filter(again).collect()
    };
    let rows: Vec<Vec<&[u32; FIELDS]>> = (0..8).map(own).collect();
    let mut counts = [0usize; 8];
    let mut shown = Vec::new();
    for observation in observations {
        let node = usize::from(observation.component) % 8;
        let place = counts[node].checked_sub(1);
        counts[node] += 1;
        shown.push(Shown {
            observation: *observation,
            window: place.and_then(|place| window(&rows[node], pair, place)),
        });
    }
    shown
}

/// The window of a node's passage with this number, its rows being those of one round.
fn window(own: &[&[u32; FIELDS]], pair: Option<Pair>, place: usize) -> Option<Window> {
    let (row, moved) = match (own.get(place), pair) {
        (Some(row), _) => (row, 0),
        (None, None) => return None,
        (None, Some(pair)) => {
            let first = own.iter().position(|row| row[3] >= pair.from)?;
            let round = own.len() - first;
            let further = place - own.len();
            let turns = (further / round + 1) as u32;
            let row = own.get(first + further % round)?;
            (row, turns.saturating_mul(pair.ticks()))
        }
    };
    Some(Window {
        ready: row[4].saturating_add(moved),
        end: row[5].saturating_add(moved),
    })
}

#[cfg(test)]
mod tests {
    use super::*;

    /// Two rows before tick 10, and from 10 to 20 two that come again.
    const ROWS: [[u32; FIELDS]; 5] = [
        [0, 0, 0, 0, 2, 4, 255],
        [0, 1, 1, 4, 9, 10, 255],
        [0, 0, 0, 10, 12, 14, 255],
        [0, 1, 1, 14, 19, 20, 255],
        [0, 0, 0, 20, 22, 24, 255],
    ];

    #[test]
    fn rows_come_again() {
        let pair = Some(Pair { from: 10, to: 20 });
        let own: Vec<&[u32; FIELDS]> = ROWS.iter().filter(|row| row[3] < 20).collect();
        let ready = |place| window(&own, pair, place).map(|window| window.ready);
        let readies: Vec<Option<u32>> = (0..8).map(ready).collect();
        let expected = [2, 9, 12, 19, 22, 29, 32, 39].map(Some);
        assert_eq!(readies, expected);
        let passages = |horizon| needed(&ROWS, pair, horizon) / OBSERVATION as u64;
        let counts: Vec<u64> = [1, 5, 10, 11, 20, 21, 25, 35, 101].map(passages).into();
        assert_eq!(counts, [1, 2, 2, 3, 4, 5, 6, 8, 21]);
        assert_eq!(needed(&ROWS, None, 20), 4 * OBSERVATION as u64);
        assert_eq!(window(&own, None, 4), None);
    }

    #[test]
    fn refusals_end_with_1() {
        let refused = run_to(&[], &[], 1, &mut []);
        assert_eq!(status(&refused), REFUSED);
        let words = words::told(None, &[], &refused, &[]);
        let told = String::from_utf8(words).unwrap();
        assert!(told.starts_with(&crate::refusals::words(&refused.unwrap_err())));
    }
}
