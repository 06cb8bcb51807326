//! The second implementation's reasons.

use super::{last, verdict};
use reference::calls;
use timed_network::{Told, Verdict};

/// The second implementation's reasons.
pub fn second_reasons(table: &[u8], component: u32, tick: u32, told: &mut [u8]) -> Told {
    let answer = last::ask(table, |table, passages| {
        calls::reasons_of(table, passages, component, tick, told)
    });
    match answer {
        Ok(told) => Told {
            verdict: Verdict::Accepted,
            passage: told.passage as u32,
            size: told.size,
        },
        Err(refusal) => Told {
            verdict: verdict(refusal),
            passage: 0,
            size: 0,
        },
    }
}
