//! What came of pairs and of runs to a horizon.

use super::{Ran, Said};
use crate::readers::{NO_HORIZON, TOO_SHORT};
use std::fmt;
use timed_network::Pair;

/// What came of them.
#[derive(Clone, Copy, Debug, Default, PartialEq, Eq)]
pub struct Periods {
    /// Pairs from tick 0 on.
    pub from_start: u64,
    /// Pairs from a later tick on.
    pub later: u64,
    /// Accepted tables without a pair.
    pub none: u64,
    /// Refused tables that were asked for one.
    pub refused: u64,
    /// Runs that took place: to a horizon below the table's own, to that, beyond it.
    pub ran: [u64; 3],
    /// Those of them held to demand 3 beyond the table's own horizon.
    pub held: u64,
    /// How many ended with 0, 1, 2 and 3.
    pub ends: [u64; 4],
    /// Those late beyond the table's own horizon.
    pub late_beyond: u64,
    /// Runs refused with 29: horizon 0, one without a pair.
    pub unreachable: [u64; 2],
    /// Runs for which too few bytes were lent.
    pub short: u64,
    /// Runs of refused tables.
    pub kept: u64,
    /// Choices carried out, and observations written.
    pub carried: [u64; 2],
}

impl Periods {
    /// All pairs that were asked for, and all runs.
    pub fn all(&self) -> u64 {
        self.pairs() + self.runs()
    }

    fn pairs(&self) -> u64 {
        self.from_start + self.later + self.none + self.refused
    }

    fn runs(&self) -> u64 {
        let refused = self.unreachable.iter().sum::<u64>() + self.short + self.kept;
        self.ran.iter().sum::<u64>() + refused
    }

    /// Counts a pair.
    pub fn count_pair(&mut self, pair: &Said) {
        let place = match pair {
            Ok(Some(Pair { from: 0, .. })) => &mut self.from_start,
            Ok(Some(_)) => &mut self.later,
            Ok(None) => &mut self.none,
            Err(_) => &mut self.refused,
        };
        *place += 1;
    }

    /// Counts a run to a horizon of a table with a horizon of its own, 0 for a refused one.
    pub fn count_run(&mut self, ran: &Ran, horizon: u32, own: u32) {
        let answer = &ran.answer;
        match answer.number {
            0 => {}
            NO_HORIZON => self.unreachable[usize::from(horizon != 0)] += 1,
            TOO_SHORT => self.short += 1,
            _ => self.kept += 1,
        }
        if answer.number != 0 {
            return;
        }
        let place = usize::from(horizon >= own) + usize::from(horizon > own);
        self.ran[place] += 1;
        self.held += u64::from(ran.facts.is_some() && horizon > own);
        self.ends[usize::from(answer.end)] += 1;
        self.late_beyond += u64::from(answer.end == 2 && answer.tick > own);
        self.carried[0] += answer.used;
        self.carried[1] += answer.size;
    }

    /// Adds what another class counted.
    pub fn add(&mut self, other: &Periods) {
        self.from_start += other.from_start;
        self.later += other.later;
        self.none += other.none;
        self.refused += other.refused;
        self.held += other.held;
        self.late_beyond += other.late_beyond;
        self.short += other.short;
        self.kept += other.kept;
        let ran = self.ran.iter_mut().zip(other.ran);
        let ends = self.ends.iter_mut().zip(other.ends);
        let unreachable = self.unreachable.iter_mut().zip(other.unreachable);
        let carried = self.carried.iter_mut().zip(other.carried);
        for (all, own) in ran.chain(ends).chain(unreachable).chain(carried) {
            *all += own;
        }
    }

    /// What came less often than so many times.
    pub fn gaps(&self, least: u64) -> Vec<String> {
        let kinds = [
            (self.from_start, "pairs from tick 0 on"),
            (self.later, "pairs from a later tick on"),
            (self.none, "tables without a pair"),
            (self.refused, "refused tables asked for a pair"),
            (self.ran[0], "runs to a horizon below the table's own"),
            (self.ran[1], "runs to the table's own horizon"),
            (self.ran[2], "runs beyond the table's own horizon"),
            (self.held, "runs beyond it held to demand 3"),
            (self.ends[0], "runs that came to a horizon handed in"),
            (self.late_beyond, "runs late beyond the table's own horizon"),
            (self.unreachable[0], "runs to horizon 0"),
            (self.unreachable[1], "runs beyond it without a pair"),
            (self.short, "runs to a horizon with too few bytes"),
            (self.kept, "runs to a horizon of refused tables"),
        ];
        let rare = kinds.into_iter().filter(|(count, _)| *count < least);
        let gap = |(count, kind)| format!("{count} {kind} are fewer than {least}");
        rare.map(gap).collect()
    }
}

impl fmt::Display for Periods {
    fn fmt(&self, out: &mut fmt::Formatter<'_>) -> fmt::Result {
        let [below, own, beyond] = self.ran;
        let [horizon, used_up, late, not_allowed] = self.ends;
        let [zero, without] = self.unreachable;
        let [choices, observations] = self.carried;
        write!(
            out,
            "{} pairs: from tick 0 {}, later {}, none {}, table refused {}; \
             {} runs to a horizon: {below} below the table's own, {own} to it, \
             {beyond} beyond it ({} held to demand 3), {horizon} horizon, {used_up} used up, \
             {late} late ({} beyond), {not_allowed} not allowed, refused 29: {zero} for 0, \
             {without} without a pair, {} too few bytes, {} table refused; \
             {choices} choices, {observations} observations",
            self.pairs(),
            self.from_start,
            self.later,
            self.none,
            self.refused,
            self.runs(),
            self.held,
            self.late_beyond,
            self.short,
            self.kept
        )
    }
}
