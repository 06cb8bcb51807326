//! What was counted of paths.

use super::{own, Path};
use crate::runs::{Ran, Subject};
use demand::apart::Work;
use reference::network::Step;
use std::fmt;

/// What paths came to that were found again in runs.
#[derive(Clone, Copy, Debug, Default, PartialEq, Eq)]
pub struct Paths {
    /// Paths that end below the horizon.
    pub below: u64,
    /// Those that end with the tick to it.
    pub to_horizon: u64,
    /// Of those below, the ones that end with another step than a tick.
    pub within_a_tick: u64,
    /// Of these, the ones on which a component waits at last whose next window is
    /// ready already.
    pub ready_while_waiting: u64,
    /// Paths on which a component steps out and in again in one tick.
    pub again: u64,
    /// Paths with works of one tick against the order of the components' numbers.
    pub against_numbers: u64,
    /// Steps in, a message counted once.
    pub works: u64,
    /// Messages.
    pub messages: u64,
    /// Observations.
    pub observations: u64,
    /// Choices.
    pub choices: u64,
}

impl Paths {
    /// All paths.
    pub fn all(&self) -> u64 {
        self.below + self.to_horizon
    }

    /// Counts a path that a run was found to have.
    pub fn count(&mut self, subject: &Subject, path: &Path, ran: &Ran) {
        let arrives = path.arrives(subject);
        self.to_horizon += u64::from(arrives);
        self.below += u64::from(!arrives);
        let last = path.steps.last();
        let within = !arrives && last.is_some_and(|step| *step != Step::Tick);
        self.within_a_tick += u64::from(within);
        self.ready_while_waiting += u64::from(within && is_ready_while_waiting(subject, path));
        self.again += u64::from(steps_in_again(&path.steps));
        self.against_numbers += u64::from(path.works.windows(2).any(is_against_numbers));
        self.works += path.works.len() as u64;
        let messages = path.works.iter().filter(|work| work.message.is_some());
        self.messages += messages.count() as u64;
        self.observations += u64::from(ran.answer.size);
        self.choices += u64::from(ran.answer.used);
    }

    /// Adds what another one counted.
    pub fn add(&mut self, other: &Paths) {
        self.below += other.below;
        self.to_horizon += other.to_horizon;
        self.within_a_tick += other.within_a_tick;
        self.ready_while_waiting += other.ready_while_waiting;
        self.again += other.again;
        self.against_numbers += other.against_numbers;
        self.works += other.works;
        self.messages += other.messages;
        self.observations += other.observations;
        self.choices += other.choices;
    }

    /// The kinds of paths, each with its words.
    fn kinds(&self) -> [(u64, &'static str); 6] {
        [
            (self.below, "below the horizon"),
            (self.to_horizon, "to the horizon"),
            (self.within_a_tick, "to the middle of a tick"),
            (
                self.ready_while_waiting,
                "with a window ready while waiting",
            ),
            (self.again, "out and in again in one tick"),
            (self.against_numbers, "against the order of the numbers"),
        ]
    }

    /// What should have been seen often enough and was not.
    pub fn gaps(&self, least: u64) -> Vec<String> {
        let messages = [(self.messages, "with messages, these counted")];
        let kinds = self.kinds().into_iter().chain(messages);
        let few = kinds.filter(|(count, _)| *count < least);
        few.map(|(count, what)| format!("paths {what}: {count}, fewer than {least}"))
            .collect()
    }
}

impl fmt::Display for Paths {
    fn fmt(&self, out: &mut fmt::Formatter<'_>) -> fmt::Result {
        let kinds = self.kinds().map(|(count, what)| format!("{count} {what}"));
        write!(out, "{} paths: {}; ", self.all(), kinds.join(", "))?;
        write!(out, "{} works, {} messages, ", self.works, self.messages)?;
        write!(out, "{} observations, ", self.observations)?;
        write!(out, "{} choices", self.choices)
    }
}

/// Whether a component waits at the path's end whose next window is ready already.
fn is_ready_while_waiting(subject: &Subject, path: &Path) -> bool {
    let places = (0..).zip(&path.trace.state.places);
    let mut waiting = places.filter(|(_, place)| place.waiting.is_some());
    waiting.any(|(component, _)| {
        let visits = path.trace.visits.iter();
        let passed = visits.filter(|visit| visit.component == component).count();
        let next = own(subject, component).nth(passed);
        next.is_some_and(|passage| passage.ready <= path.tick())
    })
}

/// Whether a component steps out and in again between two ticks.
fn steps_in_again(steps: &[Step]) -> bool {
    let mut out = 0_u8;
    steps.iter().any(|step| {
        let entering = match *step {
            Step::Tick => {
                out = 0;
                0
            }
            Step::Out { component } => {
                out |= 1 << component;
                0
            }
            Step::Alone { component, .. } => 1 << component,
            Step::Joint {
                sender, receiver, ..
            } => 1 << sender | 1 << receiver,
        };
        out & entering != 0
    })
}

/// Whether two works of one tick stand against the order of the numbers.
fn is_against_numbers(works: &[Work]) -> bool {
    works[0].tick == works[1].tick && works[0].node > works[1].node
}

#[cfg(test)]
mod tests {
    use super::*;

    #[test]
    fn what_is_counted_is_told() {
        let paths = Paths {
            below: 5,
            to_horizon: 4,
            within_a_tick: 3,
            ready_while_waiting: 2,
            again: 6,
            against_numbers: 7,
            works: 30,
            messages: 8,
            observations: 40,
            choices: 500,
        };
        let told = "9 paths: 5 below the horizon, 4 to the horizon, 3 to the middle of a tick, \
                    2 with a window ready while waiting, 6 out and in again in one tick, \
                    7 against the order of the numbers; \
                    30 works, 8 messages, 40 observations, 500 choices";
        assert_eq!(paths.to_string(), told);
        let mut twice = paths;
        twice.add(&paths);
        assert_eq!((twice.all(), twice.choices), (18, 1000));
        assert_eq!(paths.gaps(2), Vec::<String>::new());
        let gap = "paths with a window ready while waiting: 2, fewer than 3";
        assert_eq!(paths.gaps(3), [gap]);
        assert_eq!(Paths::default().gaps(1).len(), 7);
    }

    #[test]
    fn a_step_in_after_a_step_out_is_seen_in_one_tick_alone() {
        let out = Step::Out { component: 1 };
        let alone = |component| Step::Alone { component, edge: 0 };
        assert!(steps_in_again(&[out, alone(0), alone(1)]));
        assert!(!steps_in_again(&[out, alone(0), Step::Tick, alone(1)]));
        assert!(!steps_in_again(&[alone(1), out]));
    }
}
