//! The second implementation's calls for nodes that wake apart.

use super::{put_no_message, run_numbers, verdict};
use reference::calls;
use reference::table::Refusal;
use timed_network::{Meetings, RunNumbers, Verdict};

/// Its answer for the checks at a spread.
pub fn second_check_spread(table: &[u8], spread: u32) -> Verdict {
    verdict_of(calls::check_spread(table, spread))
}

/// The largest spread at which it accepts a table.
pub fn second_largest_spread(table: &[u8]) -> Result<u32, Verdict> {
    calls::largest_spread(table).map_err(verdict)
}

/// The windows that met.
pub fn second_meetings(table: &[u8], list: &mut [u32]) -> Meetings {
    second_meetings_spread(table, 0, list)
}

/// The windows that met at a spread.
pub fn second_meetings_spread(table: &[u8], spread: u32, list: &mut [u32]) -> Meetings {
    let answer = calls::meetings_spread(table, spread, list);
    let size = answer.listed.unwrap_or(0);
    put_no_message(list, size);
    Meetings {
        table: verdict_of(answer.table),
        verdict: verdict_of(answer.listed.map(|_| ())),
        size,
    }
}

/// Its run of nodes that wake apart.
pub fn second_run_apart(
    table: &[u8],
    choices: &[u8],
    spread: u32,
    offsets: &[u32],
    observations: &mut [u8],
) -> RunNumbers {
    run_numbers(calls::run_apart(
        table,
        choices,
        spread,
        offsets,
        observations,
    ))
}

fn verdict_of(answer: Result<(), Refusal>) -> Verdict {
    match answer {
        Ok(()) => Verdict::Accepted,
        Err(refusal) => verdict(refusal),
    }
}
