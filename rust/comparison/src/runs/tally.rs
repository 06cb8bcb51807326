//! What was counted of runs.

use super::{noted, Ran};
use crate::readers::{TOO_MANY, TOO_SHORT};
use demand::finishes::Noted;
use demand::walk::Refusal;
use demand::{LATE, NOT_ALLOWED};
use std::fmt;

/// The reasons for which a choice is not allowed, and the words for them.
pub const REASONS: [&str; 6] = [
    "no such node",
    "nothing kept",
    "early sleep",
    "early listen",
    "tick while due",
    "yet to wake",
];
/// The last of them, which only nodes that wake apart have.
pub const ASLEEP: usize = 5;

/// What runs came to.
#[derive(Clone, Copy, Debug, Default, PartialEq, Eq)]
pub struct Runs {
    /// How many ended with 0, 1, 2 and 3.
    pub ends: [u64; 4],
    /// Of the late ones, those with a node past its window's end.
    pub late_at_work: u64,
    /// Of the late ones, those with a node past its next sleep.
    pub late_for_sleep: u64,
    /// Of the late ones, those with two or more late nodes.
    pub several_late: u64,
    /// Of those with a choice that is not allowed, how many for which of the
    /// [`REASONS`].
    pub reasons: [u64; REASONS.len()],
    /// Refused: too few bytes were lent.
    pub short: u64,
    /// Refused: there are too many choices.
    pub many: u64,
    /// Refused as the table is.
    pub kept: u64,
    /// Choices carried out.
    pub choices: u64,
    /// Observations written.
    pub observations: u64,
    /// Messages passed.
    pub messages: u64,
    /// Listens that ended without a message.
    pub timeouts: u64,
    /// The finish ticks in the observations.
    pub noted: Noted,
}

fn reason(refusal: Refusal) -> Option<usize> {
    match refusal {
        Refusal::NoNode(_) => Some(0),
        Refusal::NothingKept => Some(1),
        Refusal::EarlySleep => Some(2),
        Refusal::EarlyListen => Some(3),
        Refusal::Due(_) => Some(4),
        Refusal::Asleep => Some(ASLEEP),
        Refusal::NoListener => None,
    }
}

impl Runs {
    /// The runs that took place.
    pub fn ran(&self) -> u64 {
        self.ends.iter().sum()
    }

    /// All runs, refused ones included.
    pub fn all(&self) -> u64 {
        self.ran() + self.short + self.many + self.kept
    }

    /// Counts a run.
    pub fn count(&mut self, ran: &Ran) {
        match ran.answer.number {
            0 => {}
            TOO_SHORT => self.short += 1,
            TOO_MANY => self.many += 1,
            _ => self.kept += 1,
        }
        let Some(facts) = ran.facts else {
            return;
        };
        self.ends[usize::from(ran.answer.end)] += 1;
        self.choices += u64::from(ran.answer.used);
        self.observations += u64::from(ran.answer.size);
        self.messages += u64::from(facts.messages);
        self.timeouts += u64::from(facts.timeouts);
        self.noted.add(&facts.noted);
        if ran.answer.end == LATE {
            let late = facts.late_at_work | facts.late_for_sleep;
            self.late_at_work += u64::from(facts.late_at_work != 0);
            self.late_for_sleep += u64::from(facts.late_for_sleep != 0);
            self.several_late += u64::from(late.count_ones() > 1);
        }
        if ran.answer.end == NOT_ALLOWED {
            if let Some(place) = facts.refusal.and_then(reason) {
                self.reasons[place] += 1;
            }
        }
    }

    /// Adds what another one counted.
    pub fn add(&mut self, other: &Runs) {
        let pairs = self.ends.iter_mut().zip(other.ends);
        for (all, own) in pairs.chain(self.reasons.iter_mut().zip(other.reasons)) {
            *all += own;
        }
        self.late_at_work += other.late_at_work;
        self.late_for_sleep += other.late_for_sleep;
        self.several_late += other.several_late;
        self.short += other.short;
        self.many += other.many;
        self.kept += other.kept;
        self.choices += other.choices;
        self.observations += other.observations;
        self.messages += other.messages;
        self.timeouts += other.timeouts;
        self.noted.add(&other.noted);
    }

    /// What should have been seen often enough and was not.
    pub fn gaps(&self, least: u64) -> Vec<String> {
        let ends = (0..).zip(self.ends);
        let ends = ends.map(|(end, count)| (count, format!("runs that ended with {end}")));
        let reasons = REASONS.iter().zip(self.reasons).take(ASLEEP);
        let reasons = reasons.map(|(reason, count)| (count, format!("choices refused: {reason}")));
        let others = [
            (self.late_at_work, "runs late at work"),
            (self.late_for_sleep, "runs late for a sleep"),
            (self.several_late, "runs with several late nodes"),
            (self.short, "runs with too few bytes"),
            (self.messages, "messages"),
            (self.timeouts, "timeouts"),
        ];
        let others = others.map(|(count, what)| (count, what.to_string()));
        let all = ends.chain(reasons).chain(others);
        let few = all.filter(|(count, _)| *count < least);
        let mut gaps: Vec<String> = few
            .map(|(count, what)| format!("{what}: {count}, fewer than {least}"))
            .collect();
        let once = [
            (self.many, "too many choices"),
            (self.kept, "a refused table"),
        ];
        let never = once.iter().filter(|(count, _)| *count == 0);
        gaps.extend(never.map(|(_, what)| format!("no run was refused for {what}")));
        gaps
    }
}

/// What there is at least one of.
impl fmt::Display for Runs {
    fn fmt(&self, out: &mut fmt::Formatter<'_>) -> fmt::Result {
        let [horizon, used_up, late, not_allowed] = self.ends;
        let late_ones = [
            (self.late_at_work, "at work"),
            (self.late_for_sleep, "for a sleep"),
            (self.several_late, "several nodes"),
        ];
        let reasons = self.reasons.into_iter().zip(REASONS);
        let of_late = list(late_ones);
        let of_not_allowed = list(reasons);
        let kinds = [
            (horizon, "horizon".to_string()),
            (used_up, "used up".to_string()),
            (late, format!("late ({of_late})")),
            (not_allowed, format!("not allowed ({of_not_allowed})")),
            (self.short, "too few bytes".to_string()),
            (self.many, "too many choices".to_string()),
            (self.kept, "table refused".to_string()),
        ];
        write!(out, "{} runs: {}", self.all(), list(kinds))?;
        let sizes = [
            (self.choices, "choices"),
            (self.observations, "observations"),
            (self.messages, "messages"),
            (self.timeouts, "timeouts"),
        ];
        if self.ran() > 0 {
            write!(out, "; {}", list(sizes))?;
        }
        match self.noted == Noted::default() {
            true => Ok(()),
            false => write!(out, "; finish ticks: {}", list(noted::kinds(&self.noted))),
        }
    }
}

/// The counts that are not 0, each before its words.
fn list(counts: impl IntoIterator<Item = (u64, impl fmt::Display)>) -> String {
    let there = counts.into_iter().filter(|(count, _)| *count > 0);
    let words: Vec<String> = there
        .map(|(count, what)| format!("{count} {what}"))
        .collect();
    words.join(", ")
}

#[cfg(test)]
mod tests {
    use super::*;

    #[test]
    fn what_there_is_is_told() {
        let refused = Runs {
            kept: 3,
            ..Runs::default()
        };
        assert_eq!(refused.to_string(), "3 runs: 3 table refused");
        let some = Runs {
            ends: [1, 0, 2, 4],
            late_at_work: 2,
            several_late: 1,
            reasons: [3, 0, 0, 0, 1, 0],
            choices: 50,
            messages: 6,
            ..refused
        };
        let told = "10 runs: 1 horizon, 2 late (2 at work, 1 several nodes), \
                    4 not allowed (3 no such node, 1 tick while due), 3 table refused; \
                    50 choices, 6 messages";
        assert_eq!(some.to_string(), told);
    }

    #[test]
    fn what_is_rare_is_told() {
        let mut runs = Runs {
            ends: [9; 4],
            late_at_work: 9,
            late_for_sleep: 9,
            several_late: 9,
            reasons: [9; REASONS.len()],
            short: 9,
            many: 1,
            kept: 1,
            messages: 9,
            timeouts: 9,
            ..Runs::default()
        };
        assert_eq!(runs.gaps(9), Vec::<String>::new());
        assert_eq!(runs.gaps(10).len(), 15);
        runs.ends[2] = 8;
        runs.reasons[1] = 7;
        runs.many = 0;
        let told = [
            "runs that ended with 2: 8, fewer than 9",
            "choices refused: nothing kept: 7, fewer than 9",
            "no run was refused for too many choices",
        ];
        assert_eq!(runs.gaps(9), told);
    }
}
