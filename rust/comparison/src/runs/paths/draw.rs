//! Random paths of the network that keep to a schedule. Which step is possible the
//! network says; the schedule says on which edge a component steps in, with which
//! message, and which tick would miss a window.

use super::own;
use crate::random::Random;
use crate::runs::Subject;
use reference::network::{start, step, State, Step};
use reference::schedule::Passage;
use reference::table::Action;

/// How often of twelve times a tick is tried before the other steps, path by path.
const TICKS_FIRST: [usize; 4] = [1, 4, 8, 11];

/// The steps of a path: to the horizon, to a tick before it or to any place within
/// that tick, or of about so many steps.
pub fn draw(random: &mut Random, subject: &Subject, most: usize) -> Vec<Step> {
    let horizon = u32::from(subject.table.horizon);
    let stop = match random.below(3) {
        0 => horizon,
        _ => random.below(horizon as usize) as u32,
    };
    let ticks_first = random.pick(&TICKS_FIRST);
    let mut draw = Draw::new(subject);
    loop {
        let tick = draw.state.tick;
        let stops = tick >= stop && random.once_in(4);
        if tick == horizon || stops || draw.steps.len() >= most {
            return draw.steps;
        }
        let goes_on = match random.below(12) < ticks_first {
            true => draw.tick() || draw.any_other(random),
            false => draw.any_other(random) || draw.tick(),
        };
        if !goes_on {
            return draw.steps;
        }
    }
}

/// A path under way.
struct Draw<'a> {
    subject: &'a Subject,
    /// Each component's passages in the schedule.
    own: Vec<Vec<&'a Passage>>,
    /// How many of them each has left.
    left: Vec<usize>,
    state: State,
    steps: Vec<Step>,
}

impl<'a> Draw<'a> {
    fn new(subject: &'a Subject) -> Draw<'a> {
        let components = subject.table.components.len();
        let numbers = 0..components as u8;
        Draw {
            subject,
            own: numbers.map(|c| own(subject, c).collect()).collect(),
            left: vec![0; components],
            state: start(&subject.table),
            steps: Vec::new(),
        }
    }

    /// The passage that a component is in.
    fn present(&self, component: u8) -> Option<&'a Passage> {
        let number = usize::from(component);
        self.own[number].get(self.left[number]).copied()
    }

    /// Whether a component waits.
    fn waits(&self, component: u8) -> bool {
        self.state.places[usize::from(component)].waiting.is_some()
    }

    fn components(&self) -> std::ops::Range<u8> {
        0..self.own.len() as u8
    }

    /// A tick passes, if the network allows it and it misses no window.
    fn tick(&mut self) -> bool {
        let ends = |c: &u8| self.present(*c).is_some_and(|p| p.end <= self.state.tick);
        let misses = self.components().any(|c| !self.waits(c) && ends(&c));
        !misses && self.take(Step::Tick)
    }

    /// One of the other steps that are possible.
    fn any_other(&mut self, random: &mut Random) -> bool {
        let mut steps: Vec<Step> = self.components().flat_map(|c| self.steps_of(c)).collect();
        random.shuffle(&mut steps);
        steps.into_iter().any(|step| self.take(step))
    }

    /// The steps out of a component and those in on its edge in the schedule, a
    /// message with any other component among them.
    fn steps_of(&self, component: u8) -> Vec<Step> {
        let Some(passage) = self.present(component) else {
            return Vec::new();
        };
        if self.waits(component) {
            return vec![Step::Out { component }];
        }
        let edge = passage.edge;
        match passage.edge_in(&self.subject.table).action {
            Action::Send(_) => self.messages(component, edge),
            _ => vec![Step::Alone { component, edge }],
        }
    }

    fn messages(&self, sender: u8, send: u8) -> Vec<Step> {
        let others = self.components().filter(|other| *other != sender);
        let joint = |receiver: u8| {
            let receive = self.present(receiver)?.edge;
            Some(Step::Joint {
                sender,
                send,
                receiver,
                receive,
            })
        };
        others.filter_map(joint).collect()
    }

    /// Takes a step, if the network allows it and the path then passes as the
    /// schedule says.
    fn take(&mut self, step_on: Step) -> bool {
        let Some(next) = step(&self.subject.table, &self.state, step_on) else {
            return false;
        };
        let as_scheduled = match step_on {
            Step::Tick => true,
            Step::Alone { component, .. } => self.steps_in(&next, component),
            Step::Joint {
                sender, receiver, ..
            } => self.steps_in(&next, sender) && self.steps_in(&next, receiver),
            Step::Out { component } => self.enters(component),
        };
        if !as_scheduled {
            return false;
        }
        if let Step::Out { component } = step_on {
            self.left[usize::from(component)] += 1;
        }
        self.state = next;
        self.steps.push(step_on);
        true
    }

    /// Whether a component steps in with the message that the schedule says.
    fn steps_in(&self, next: &State, component: u8) -> bool {
        let waiting = next.places[usize::from(component)].waiting;
        let passage = self.present(component);
        passage.is_some_and(|p| waiting.is_some_and(|w| w.message == p.message))
    }

    /// Whether the schedule has a passage for a component that steps out.
    fn enters(&self, component: u8) -> bool {
        let number = usize::from(component);
        self.left[number] + 1 < self.own[number].len()
    }
}
