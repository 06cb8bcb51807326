//! Runs beyond a table's own horizon (document 02, wish 14): the two ticks from one to
//! the other of which everything comes again, and runs to a horizon that is handed in.

mod exported;

pub use exported::RunToNumbers;

use crate::running::{End, Run};
use crate::{Refused, Verdict};

/// Two ticks at which all components enter, each with the same location, clocks and
/// variables at both.
#[derive(Clone, Copy, Debug, PartialEq, Eq)]
pub struct Pair {
    /// The first of them.
    pub from: u32,
    /// The second, above the first and below the table's horizon.
    pub to: u32,
}

impl Pair {
    /// The ticks after which everything comes again, from [`Pair::from`] on.
    pub fn ticks(&self) -> u32 {
        self.to - self.from
    }
}

/// From when to when everything comes again: of all such pairs below the horizon the one
/// with the least `to`, and with the least `from` for that; nothing where there is none.
/// Refused with 1 to 12 as [`crate::check`] refuses.
///
/// With a pair the table would be accepted with every larger horizon too, however many
/// passages that has, and [`run_to`] runs it to any.
///
/// ```
/// use timed_network::{period, plan, Pair, Refusal, Slots, MAX_PLAN};
///
/// let [probes, slot, guard, ticks] = [6, 40, 5, 500];
/// let mut table = [0; MAX_PLAN];
/// let size = plan(Slots { probes, slot, guard, period: ticks }, &mut table).size;
/// let pair = period(&table[..size])?;
/// assert_eq!(pair, Some(Pair { from: 0, to: 500 }));
/// assert_eq!(period(&[]).unwrap_err().refusal, Refusal::Version);
/// # Ok::<(), timed_network::Refused>(())
/// ```
pub fn period(table: &[u8]) -> Result<Option<Pair>, Refused> {
    let answer = exported::period(table);
    Verdict::of(answer.number, answer.component).into_result()?;
    let (from, to) = (answer.from, answer.to);
    Ok(answer.found.then_some(Pair { from, to }))
}

/// Runs the programs of a table's nodes under choices as [`run`](crate::run) does, to a
/// horizon that is handed in, without a limit on the choices. As many bytes are asked for
/// as the schedule to this horizon has passages, times
/// [`OBSERVATION`](crate::OBSERVATION).
///
/// Refused with 1 to 12 as [`crate::check`] refuses, then with 29 where the horizon is 0,
/// or above the table's and [`period`] finds nothing, then with 13.
///
/// ```
/// use timed_network::{plan, run_to, End, Refusal, Slots, MAX_PLAN, OBSERVATION};
///
/// let [probes, slot, guard, period] = [1, 40, 5, 500];
/// let mut table = [0; MAX_PLAN];
/// let size = plan(Slots { probes, slot, guard, period }, &mut table).size;
/// // Four passages in each of 2,000 periods.
/// let mut bytes = vec![0; 4 * 2000 * OBSERVATION];
/// let run = run_to(&table[..size], &[], 1_000_000, &mut bytes)?;
/// assert_eq!((run.end, run.tick, run.used), (End::UsedUp, 0, 0));
/// let refused = run_to(&table[..size], &[], 1_000_001, &mut bytes).unwrap_err();
/// assert_eq!(refused.refusal, Refusal::Lent);
/// let refused = run_to(&table[..size], &[], 0, &mut bytes).unwrap_err();
/// assert_eq!(refused.refusal, Refusal::RunHorizon);
/// # Ok::<(), timed_network::Refused>(())
/// ```
pub fn run_to(
    table: &[u8],
    choices: &[u8],
    horizon: u32,
    observations: &mut [u8],
) -> Result<Run, Refused> {
    let answer = run_to_numbers(table, choices, horizon, observations);
    Verdict::of(answer.number, answer.component).into_result()?;
    Ok(Run {
        end: End::try_from(answer.end).expect("the library gives no number from 4 on"),
        node: answer.node,
        tick: answer.tick,
        used: answer.used,
        size: answer.size as usize,
    })
}

/// The same call with its answer as plain numbers, those of a refused run included.
///
/// ```
/// use timed_network::run_to_numbers;
///
/// let answer = run_to_numbers(&[], &[], 0, &mut []);
/// assert_eq!((answer.number, answer.component), (1, 255));
/// assert_eq!((answer.end, answer.node, answer.size), (0, 255, 0));
/// ```
pub fn run_to_numbers(
    table: &[u8],
    choices: &[u8],
    horizon: u32,
    observations: &mut [u8],
) -> RunToNumbers {
    exported::run_to(table, choices, horizon, observations)
}
