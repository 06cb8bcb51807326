//! What comes again, and runs to a horizon: of the library and of the second
//! implementation.

use super::{last, verdict};
use reference::period;
use timed_network::{Pair, RunToNumbers, Verdict, NO_NODE};

/// The library's pair.
pub(super) fn library_period(table: &[u8]) -> Result<Option<Pair>, Verdict> {
    timed_network::period(table).map_err(Verdict::from)
}

/// The second implementation's pair.
pub fn second_period(table: &[u8]) -> Result<Option<Pair>, Verdict> {
    let pair = last::ask(table, |table, passages| Ok(period::pair(table, passages)));
    let pair = pair.map_err(verdict)?;
    Ok(pair.map(|period::Pair { from, to }| Pair { from, to }))
}

/// The second implementation's run to a horizon.
pub fn second_run_to(
    table: &[u8],
    choices: &[u8],
    horizon: u32,
    observations: &mut [u8],
) -> RunToNumbers {
    let answer = last::ask(table, |table, passages| {
        period::run_to(table, passages, choices, horizon, observations)
    });
    match answer {
        Ok((outcome, size)) => RunToNumbers {
            number: 0,
            component: 255,
            end: outcome.end as u8,
            node: outcome.node,
            tick: outcome.tick,
            used: outcome.used,
            size: size as u64,
        },
        Err(refusal) => refused_run_to(refusal.number, refusal.component),
    }
}

/// The numbers of a run that does not take place.
pub const fn refused_run_to(number: u8, component: u8) -> RunToNumbers {
    RunToNumbers {
        number,
        component,
        end: 0,
        node: NO_NODE,
        tick: 0,
        used: 0,
        size: 0,
    }
}
