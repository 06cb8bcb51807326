//! What a component does, window after window.

use reference::table::{Update, MAX_LOCATIONS};

/// Where a receive leads.
#[derive(Clone, Copy, Debug, PartialEq, Eq)]
pub enum Target {
    /// To the location of the next step.
    Next,
    /// To a second location for the next step, with the same window.
    Twin,
    /// To a location that no edge leaves.
    Dead,
}

/// What is done in a window.
#[derive(Clone, Debug, PartialEq, Eq)]
pub enum Work {
    /// An internal edge with these updates.
    Internal(Vec<Update>),
    /// A send on this channel.
    Send(u8),
    /// A receive on these channels; the last target is that of a timeout.
    Listen(Vec<(u8, Target)>, Target),
}

/// A passage that is planned. Ticks are counted from the start of the round.
#[derive(Clone, Debug, PartialEq, Eq)]
pub struct Step {
    /// The first tick of the window.
    pub ready: u32,
    /// The last tick of the window.
    pub end: u32,
    /// What is done.
    pub work: Work,
}

impl Step {
    /// An internal step without updates.
    pub fn internal(ready: u32, end: u32) -> Step {
        let work = Work::Internal(Vec::new());
        Step { ready, end, work }
    }

    /// A send.
    pub fn send(ready: u32, end: u32, channel: u8) -> Step {
        let work = Work::Send(channel);
        Step { ready, end, work }
    }

    /// A receive that goes on in the same way whatever arrives.
    pub fn listen(ready: u32, end: u32, channels: &[u8]) -> Step {
        let pairs = channels.iter().map(|channel| (*channel, Target::Next));
        let work = Work::Listen(pairs.collect(), Target::Next);
        Step { ready, end, work }
    }

    /// Whether one of its outcomes leads to this target.
    fn leads_to(&self, wanted: Target) -> bool {
        match &self.work {
            Work::Listen(pairs, timeout) => {
                *timeout == wanted || pairs.iter().any(|(_, target)| *target == wanted)
            }
            _ => false,
        }
    }
}

/// What a component does in a round, over and over. Each step is ready at the
/// end of the one before or later, and the last one ends with the round.
#[derive(Clone, Debug, PartialEq, Eq)]
pub struct Lane {
    /// The steps of a round.
    pub steps: Vec<Step>,
    /// It sends in the first of so many rounds only; 1 for in each round. More
    /// than 1 needs a last step that is internal and has no updates.
    pub every: i16,
    /// Whether there is one round only, so that no clock needs a reset.
    pub once: bool,
}

impl Lane {
    /// A lane that does the same in each round.
    pub fn new(steps: Vec<Step>) -> Lane {
        Lane {
            steps,
            every: 1,
            once: false,
        }
    }

    /// A lane of one round.
    pub fn once(steps: Vec<Step>) -> Lane {
        Lane {
            once: true,
            ..Lane::new(steps)
        }
    }

    /// The same with all channels this much higher.
    pub fn raised(&self, by: u8) -> Lane {
        let mut lane = self.clone();
        for step in &mut lane.steps {
            match &mut step.work {
                Work::Internal(_) => {}
                Work::Send(channel) => *channel += by,
                Work::Listen(pairs, _) => pairs.iter_mut().for_each(|pair| pair.0 += by),
            }
        }
        lane
    }

    /// The ticks of a round.
    pub fn round(&self) -> u32 {
        self.steps.last().map_or(0, |step| step.end)
    }

    /// When a step is entered.
    pub fn entry(&self, step: usize) -> u32 {
        match step.checked_sub(1) {
            Some(before) => self.steps[before].end,
            None => 0,
        }
    }

    /// The step after a step.
    pub(super) fn after(&self, step: usize) -> usize {
        (step + 1) % self.steps.len()
    }

    /// Whether an outcome of some step needs a dead location.
    pub(super) fn has_dead(&self) -> bool {
        self.steps.iter().any(|step| step.leads_to(Target::Dead))
    }

    /// The steps that get a second location, as far as there is room.
    pub(super) fn twins(&self) -> Vec<bool> {
        let mut room = usize::from(MAX_LOCATIONS) - self.steps.len() - usize::from(self.has_dead());
        let mut twins = vec![false; self.steps.len()];
        for (number, step) in self.steps.iter().enumerate() {
            let next = self.after(number);
            if step.leads_to(Target::Twin) && !twins[next] && room > 0 {
                twins[next] = true;
                room -= 1;
            }
        }
        twins
    }

    /// The variables that the lane itself uses.
    pub(super) fn variables(&self) -> u8 {
        let counter = u8::from(self.every > 1);
        let used = |step: &Step| match &step.work {
            Work::Internal(updates) => updates.iter().map(|update| update.variable + 1).max(),
            _ => None,
        };
        let most = self.steps.iter().filter_map(used).max();
        most.unwrap_or(0).max(counter)
    }
}
