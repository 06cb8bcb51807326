//! An accepted table with another horizon, to be run to it.

use crate::runs::Subject;
use demand::Demand;
use reference::horizon::{schedule_to, Stay};
use reference::period::reachable;
use reference::schedule::Passage;
use reference::table::Table;
use timed_network::OBSERVATION;

/// The greatest horizon whose passages have ticks of four bytes.
const MOST_TICKS: u32 = u32::MAX - 200_000;

/// A table and its schedule to another horizon: what its runs to that are held to.
pub struct Far<'a> {
    table: &'a Table,
    passages: Vec<Passage>,
    horizon: u32,
}

impl<'a> Far<'a> {
    /// An accepted table to a horizon, if it can be run to it, and there are at most so
    /// many passages.
    pub fn new(subject: &'a Subject, horizon: u32, most: usize) -> Option<Far<'a>> {
        let reached = reachable(&subject.table, &subject.passages, horizon);
        if reached.is_err() || horizon > MOST_TICKS {
            return None;
        }
        let stays = schedule_to(&subject.table, horizon.into(), most)?;
        Some(Far {
            table: &subject.table,
            passages: stays.iter().map(passage).collect(),
            horizon,
        })
    }

    /// What runs to this horizon are held to.
    pub fn demand(&self) -> Demand<'_> {
        Demand::to(self.table, &self.passages, self.horizon)
    }

    /// The bytes that they ask for.
    pub fn needed(&self) -> usize {
        OBSERVATION * self.passages.len()
    }
}

/// A passage by its ticks from 0 on.
fn passage(stay: &Stay) -> Passage {
    Passage {
        entry: stay.entry as u32,
        ready: stay.ready() as u32,
        end: stay.end() as u32,
        ..stay.passage
    }
}
