//! Nodes that wake apart (document 02, wish 6): the check at a spread, the
//! largest spread of a table, the windows that met at a spread, and runs with
//! an offset for each node.

mod exported;

use crate::running::{ran, Run};
use crate::{Meetings, Refused, RunNumbers, Verdict};

/// The largest spread that there is.
pub const MAX_SPREAD: u32 = 1000;

/// Tries a table for nodes that wake up to so many ticks apart. In checks 10
/// and 12, and for the listeners counted in 11, windows count as sharing a tick
/// that are at most the spread apart; the listener has to start more than the
/// spread earlier, and to end more than it later. At spread 0 this is
/// [`check`](crate::check). A spread above [`MAX_SPREAD`] is refused with 19,
/// after 3 and before 4.
///
/// ```
/// use timed_network::{check_spread, plan, Slots, Verdict, MAX_PLAN};
///
/// let slots = Slots {
///     probes: 6,
///     slot: 40,
///     guard: 5,
///     period: 500,
/// };
/// let mut table = [0; MAX_PLAN];
/// let size = plan(slots, &mut table).size;
/// assert_eq!(check_spread(&table[..size], 4), Verdict::Accepted);
/// let (number, component) = (16, 0);
/// let refused = Verdict::Refused { number, component };
/// assert_eq!(check_spread(&table[..size], 5), refused);
/// ```
pub fn check_spread(table: &[u8], spread: u32) -> Verdict {
    let answer = exported::check_spread(table, spread);
    Verdict::of(answer.number, answer.component)
}

/// The largest spread at which a table is accepted, or why it is not accepted
/// at all. It is accepted at every spread up to the largest, and at none above.
///
/// ```
/// use timed_network::{largest_spread, plan, Refusal, Slots, MAX_PLAN};
///
/// let slots = Slots {
///     probes: 6,
///     slot: 40,
///     guard: 5,
///     period: 500,
/// };
/// let mut table = [0; MAX_PLAN];
/// let size = plan(slots, &mut table).size;
/// assert_eq!(largest_spread(&table[..size]), Ok(4));
/// let refused = largest_spread(&[]).unwrap_err();
/// assert_eq!(refused.refusal, Refusal::Version);
/// ```
pub fn largest_spread(table: &[u8]) -> Result<u32, Refused> {
    let answer = exported::largest_spread(table);
    Verdict::of(answer.number, answer.component).into_result()?;
    Ok(answer.spread)
}

/// Lists which windows met at a spread: as [`meetings`](crate::meetings), with
/// the verdict of [`check_spread`]. After 19 nothing is listed.
///
/// ```
/// use timed_network::{meetings_spread, Verdict};
///
/// let answer = meetings_spread(&[], 3, &mut []);
/// let (number, component) = (1, 255);
/// assert_eq!(answer.table, Verdict::Refused { number, component });
/// assert_eq!((answer.verdict, answer.size), (Verdict::Accepted, 0));
/// ```
pub fn meetings_spread(table: &[u8], spread: u32, list: &mut [u32]) -> Meetings {
    Meetings::of(&exported::meetings_spread(table, spread, list))
}

/// Runs the programs of a table's nodes under choices, as [`run`](crate::run)
/// does, with an offset for each node: until that tick its clock stands at 0,
/// and choosing it is not allowed. An offset that is missing is 0, and those
/// behind the last node's are not looked at. A node does everything by its own
/// clock, which is the tick in its observations; the tick of the answer is the
/// common one.
///
/// Refused as [`check_spread`] refuses the table at the spread, then with 13 and
/// 14, then with 20 where the offset of a node is above the spread. At spread 0
/// and without offsets this is [`run`](crate::run).
///
/// ```
/// use timed_network::{run_apart, Refusal};
///
/// let mut bytes = [7; 64];
/// let refused = run_apart(&[], &[0, 1, 255], 3, &[3, 0], &mut bytes).unwrap_err();
/// assert_eq!(refused.refusal, Refusal::Version);
/// assert_eq!(bytes, [7; 64]);
/// ```
pub fn run_apart(
    table: &[u8],
    choices: &[u8],
    spread: u32,
    offsets: &[u32],
    observations: &mut [u8],
) -> Result<Run, Refused> {
    ran(&run_apart_numbers(
        table,
        choices,
        spread,
        offsets,
        observations,
    ))
}

/// The same call with its answer as plain numbers, those of a refused run
/// included.
///
/// ```
/// use timed_network::run_apart_numbers;
///
/// let answer = run_apart_numbers(&[], &[], 1001, &[], &mut []);
/// assert_eq!((answer.number, answer.component), (1, 255));
/// assert_eq!((answer.end, answer.node, answer.size), (0, 255, 0));
/// ```
pub fn run_apart_numbers(
    table: &[u8],
    choices: &[u8],
    spread: u32,
    offsets: &[u32],
    observations: &mut [u8],
) -> RunNumbers {
    exported::run_apart(table, choices, spread, offsets, observations)
}
