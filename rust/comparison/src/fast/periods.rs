//! The yardstick's pairs and runs to a horizon.

use super::{verdict, with};
use crate::readers::refused_run_to;
use timed_network::{Pair, RunToNumbers, Verdict};

pub(super) fn period(table: &[u8]) -> Result<Option<Pair>, Verdict> {
    let pair = with(|yardstick| yardstick.period(table)).map_err(verdict)?;
    Ok(pair.map(|yardstick::Pair { from, to }| Pair { from, to }))
}

pub(super) fn run_to(
    table: &[u8],
    choices: &[u8],
    horizon: u32,
    observations: &mut [u8],
) -> RunToNumbers {
    let answer = with(|yardstick| yardstick.run_to(table, choices, horizon, observations));
    match answer {
        Ok(run) => RunToNumbers {
            number: 0,
            component: 255,
            end: run.end as u8,
            node: run.node,
            tick: run.tick,
            used: run.used,
            size: run.size as u64,
        },
        Err(refusal) => refused_run_to(refusal.number, refusal.component),
    }
}
