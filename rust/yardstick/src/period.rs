//! Ticks at which everything comes again, and runs to a horizon: one walk notes the
//! states at which all components enter, and a run beyond the table's own horizon goes
//! round in its rows.

use crate::opening::updated;
use crate::run::{Network, Round};
use crate::schedule::{grown, Passage};
use crate::table::*;
use crate::{demand_room, Refusal, Run, Yardstick, OBSERVATION};

/// The first tick at which everything is as before, and the first at which it was so.
#[derive(Clone, Copy, Debug, PartialEq, Eq)]
pub struct Pair {
    /// a
    pub from: u32,
    /// b
    pub to: u32,
}

/// What a component enters with; clocks that it lacks are 0.
#[derive(Clone, Copy, Default, PartialEq, Eq)]
struct State {
    location: u8,
    clocks: Clocks,
    variables: Variables,
}

/// The rows at which all components enter, and their states, one after the other.
#[derive(Default)]
pub(crate) struct Joints {
    rows: Vec<u16>,
    states: Vec<State>,
    count: usize,
}

impl Yardstick {
    /// The first pair of ticks from one to the other of which everything comes again.
    pub fn period(&mut self, bytes: &[u8]) -> Result<Option<Pair>, Refusal> {
        self.check(bytes)?;
        Ok(self.pair(bytes).map(|[from, to]| {
            let entry = |row: u16| self.schedule.passages()[usize::from(row)].entry;
            Pair {
                from: entry(from),
                to: entry(to),
            }
        }))
    }

    /// The rows of that pair, for the table that was read last.
    fn pair(&mut self, bytes: &[u8]) -> Option<[u16; 2]> {
        let passages = self.schedule.passages();
        self.joints.fill(&self.table, bytes, passages);
        self.joints.first_pair(passages)
    }

    /// Runs a table to a horizon that is handed in: 29, then 13.
    pub fn run_to(
        &mut self,
        bytes: &[u8],
        choices: &[u8],
        horizon: u32,
        observations: &mut [u8],
    ) -> Result<Run, Refusal> {
        self.check(bytes)?;
        let round = self.round(bytes, horizon)?;
        let count = round.passages(self.schedule.passages(), horizon);
        let room = observations.len() / OBSERVATION;
        demand_room(room, usize::try_from(count).unwrap_or(usize::MAX))?;
        let network = Network {
            table: &self.table,
            bytes,
            schedule: &self.schedule,
        };
        self.machine.start(&network, &[]);
        let machine = &mut self.machine;
        Ok(machine.run_to(&network, choices, observations, horizon, round))
    }

    /// How the rows come again beyond the table's own horizon.
    fn round(&mut self, bytes: &[u8], horizon: u32) -> Result<Round, Refusal> {
        if horizon == 0 {
            return Err(Refusal::whole(29));
        }
        if horizon <= self.table.horizon {
            return Ok(Round::default());
        }
        let [first, behind] = self.pair(bytes).ok_or(Refusal::whole(29))?;
        let passages = self.schedule.passages();
        let entry = |row: u16| passages[usize::from(row)].entry;
        Ok(Round {
            first,
            behind,
            from: entry(first),
            period: entry(behind) - entry(first),
        })
    }
}

impl Round {
    /// How many passages the schedule to a horizon has: rows are ordered by entry.
    fn passages(&self, passages: &[Passage], horizon: u32) -> u64 {
        let below = |tick: u32| passages.partition_point(|p| p.entry < tick) as u64;
        if self.period == 0 {
            return below(horizon);
        }
        let ticks = horizon - self.from;
        let rounds = u64::from(ticks / self.period);
        below(self.from + ticks % self.period) + rounds * u64::from(self.behind - self.first)
    }
}

impl Joints {
    /// Walks the rows with what each component enters with.
    fn fill(&mut self, table: &Table, bytes: &[u8], passages: &[Passage]) {
        self.rows.clear();
        self.states.clear();
        self.count = table.count;
        let mut coming = [State::default(); COMPONENTS];
        for (row, passage) in passages.iter().enumerate() {
            let number = usize::from(passage.component) % COMPONENTS;
            if passage.component == 0 {
                self.note(row, passages, &mut coming);
            }
            let component = table.component(number);
            let edge = component.edge(passage.edge);
            let ticks = (passage.end - passage.entry) as i32;
            let state = &mut coming[number];
            state.clocks = grown(&state.clocks, ticks, edge.mask);
            state.clocks[usize::from(component.clocks)..].fill(0);
            if edge.kind == Kind::Internal && edge.items > 0 {
                let values = updated(edge, bytes, &state.variables);
                state.variables = values.unwrap_or(state.variables);
            }
        }
    }

    /// Notes the states at a row of component 0, if all components enter there: their
    /// rows stand behind it in the order of their numbers.
    fn note(&mut self, row: usize, passages: &[Passage], coming: &mut [State; COMPONENTS]) {
        let Some(rows) = passages.get(row..row + self.count) else {
            return;
        };
        if rows[self.count - 1].entry != rows[0].entry {
            return;
        }
        for (state, passage) in coming.iter_mut().zip(rows) {
            state.location = passage.location;
        }
        self.rows.push(row as u16);
        self.states.extend_from_slice(&coming[..self.count]);
    }

    /// The states at one of these rows.
    fn states(&self, joint: usize) -> &[State] {
        &self.states[joint * self.count..(joint + 1) * self.count]
    }

    /// From the last joint row, y is the last one before it with the same states: what
    /// lies between is the period. Of the first two that lie so far apart, and are
    /// alike, everything comes again.
    fn first_pair(&self, passages: &[Passage]) -> Option<[u16; 2]> {
        let last = self.rows.len().checked_sub(1)?;
        let entry = |joint: usize| passages[usize::from(self.rows[joint])].entry;
        let alike = |one: usize, two: usize| self.states(one) == self.states(two);
        let like = (0..last).rev().find(|joint| alike(*joint, last))?;
        let period = entry(last) - entry(like);
        let mut second = 0;
        for first in 0..=like {
            while entry(second) < entry(first) + period {
                second += 1;
            }
            if entry(second) == entry(first) + period && alike(first, second) {
                return Some([self.rows[first], self.rows[second]]);
            }
        }
        None
    }
}
