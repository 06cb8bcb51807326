//! The finish tick in each observation (document 02, wish 9).
//!
//! "after the old 32 comes the tick at which the node's previous work finished, by its
//! own clock, for a receive the message or timeout. The first observation has
//! 4,294,967,295 there. The tick is proved to lie in the previous window."
//!
//! What is wrong is told with the name of the sentence that it breaks: the fields of the
//! record `Finishes` in the definitions, `each`, `ticks` and `inPrevious`; `OnPath`
//! where nodes that start together have other ticks than the path.

use crate::observed::Written;
use crate::path::Path;
use reference::schedule::Passage;

/// What stands in the first observation of a node.
pub const NO_WORK: u32 = u32::MAX;

/// How a work is finished.
#[derive(Clone, Copy, Debug, PartialEq, Eq)]
pub enum Kind {
    /// Internal work by its last statement.
    Done,
    /// A send.
    Sent,
    /// A receive by the message.
    Taken,
    /// A receive without one.
    TimedOut,
}

/// A finished work.
#[derive(Clone, Copy, Debug, PartialEq, Eq)]
pub struct Finish {
    /// When, by the node's own clock.
    pub tick: u32,
    /// How.
    pub kind: Kind,
    /// Whether its statements were finished at several ticks.
    pub spread: bool,
}

/// The works of each node in their order, as the walk finishes them.
#[derive(Clone, Debug)]
pub struct Finishes {
    nodes: Vec<Vec<Finish>>,
    /// When the first statement of the work under way was finished.
    begun: Vec<Option<u32>>,
}

impl Finishes {
    /// No work of so many nodes.
    pub(crate) fn new(nodes: usize) -> Finishes {
        Finishes {
            nodes: vec![Vec::new(); nodes],
            begun: vec![None; nodes],
        }
    }

    /// A statement of a work was finished, and the work was not.
    pub(crate) fn go_on(&mut self, node: u8, tick: u32) {
        self.begun[usize::from(node)].get_or_insert(tick);
    }

    /// A work was finished.
    pub(crate) fn finish(&mut self, node: u8, tick: u32, kind: Kind) {
        let begun = self.begun[usize::from(node)].take();
        self.nodes[usize::from(node)].push(Finish {
            tick,
            kind,
            spread: begun.is_some_and(|first| first < tick),
        });
    }

    /// Holds the ticks written to the works of this walk and to the passages of the
    /// schedule: what ticks there are.
    pub(crate) fn hold(&self, written: &[Written], own: &[Vec<&Passage>]) -> Result<Noted, String> {
        let mut noted = Noted::default();
        for (component, (works, passages)) in self.nodes.iter().zip(own).enumerate() {
            let previous = previous_of(written, component);
            let finishes = works.iter().map(|work| work.tick);
            begins("Finishes.ticks", component, &previous, finishes)?;
            in_previous(component, &previous, passages)?;
            noted.firsts += u64::from(!previous.is_empty());
            for (work, passage) in works.iter().zip(passages).take(previous.len().max(1) - 1) {
                noted.count(work, passage);
            }
        }
        Ok(noted)
    }
}

/// The ticks in the observations of a node.
pub fn previous_of(written: &[Written], component: usize) -> Vec<u32> {
    let own = |one: &&Written| usize::from(one.observation.component) == component;
    let own = written.iter().filter(own);
    own.map(|one| one.previous).collect()
}

/// The ticks written are the number for no work, then these, as far as they go.
pub fn begins(
    name: &str,
    component: usize,
    previous: &[u32],
    finishes: impl Iterator<Item = u32>,
) -> Result<(), String> {
    let expected: Vec<u32> = std::iter::once(NO_WORK).chain(finishes).collect();
    if expected.starts_with(previous) {
        return Ok(());
    }
    Err(format!(
        "{name}: node {component} has the finish ticks {previous:?}, its works {expected:?}"
    ))
}

/// "The tick is proved to lie in the previous window": without the first each stands
/// against the passage before.
pub fn in_previous(
    component: usize,
    previous: &[u32],
    passages: &[&Passage],
) -> Result<(), String> {
    for (number, tick) in previous.iter().skip(1).enumerate() {
        let passage = passages.get(number);
        if !passage.is_some_and(|passage| (passage.ready..=passage.end).contains(tick)) {
            return Err(format!(
                "Finishes.inPrevious: node {component}, finish tick {tick}, passage {passage:?}"
            ));
        }
    }
    Ok(())
}

/// Where all nodes start together the ticks are those of the steps in on the path.
pub fn on_path(written: &[Written], path: &Path) -> Result<(), String> {
    (0..path.components()).try_for_each(|component| {
        let previous = previous_of(written, component);
        begins("OnPath", component, &previous, path.steps_in(component))
    })
}

/// The finish ticks that stand in the observations of runs.
#[derive(Clone, Copy, Debug, Default, PartialEq, Eq)]
pub struct Noted {
    /// First observations, without one.
    pub firsts: u64,
    /// Of internal work: at the window's ready, between, at its end.
    pub done: [u64; 3],
    /// Of sends: the same.
    pub sent: [u64; 3],
    /// Of messages taken.
    pub taken: u64,
    /// Of timeouts.
    pub timed_out: u64,
    /// Of internal work with statements finished at several ticks.
    pub spread: u64,
}

impl Noted {
    /// Adds what another one has.
    pub fn add(&mut self, other: &Noted) {
        self.firsts += other.firsts;
        for (place, count) in self.done.iter_mut().zip(other.done) {
            *place += count;
        }
        for (place, count) in self.sent.iter_mut().zip(other.sent) {
            *place += count;
        }
        self.taken += other.taken;
        self.timed_out += other.timed_out;
        self.spread += other.spread;
    }

    fn count(&mut self, work: &Finish, passage: &Passage) {
        let place = match work.tick {
            tick if tick == passage.ready => 0,
            tick if tick < passage.end => 1,
            _ => 2,
        };
        match work.kind {
            Kind::Done => self.done[place] += 1,
            Kind::Sent => self.sent[place] += 1,
            Kind::Taken => self.taken += 1,
            Kind::TimedOut => self.timed_out += 1,
        }
        self.spread += u64::from(work.spread);
    }
}
