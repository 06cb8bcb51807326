//! Lists of choices for the programs of an accepted table.
//!
//! [`early`] and [`late`] make whole lists, from the start to the horizon of the demand,
//! for nodes that wake together or apart.
//! [`List`] is a list in the making: it takes no choice that is not allowed,
//! unless it is told to, and says whether the run goes on. Where several
//! choices are as good as each other the caller decides which comes first.
#![forbid(unsafe_code)]
#![warn(missing_docs)]

use demand::walk::{Refusal, Ticked, Walk};
use demand::{Demand, TICK};
/// Choices to the horizon with which each node finishes everything as early
/// as it can. At one tick lower nodes come first. A node is chosen from the tick
/// on that is its offset, and does everything by its own clock; an offset that is
/// missing is 0.
pub fn early(demand: &Demand, offsets: &[u32]) -> Vec<u8> {
    let mut list = List::new(demand.walk_apart(offsets), usize::MAX);
    let order: Vec<u8> = (0..list.walk().nodes() as u8).collect();
    while list.pass_early(&order, |_| false) {}
    list.into_choices()
}

/// Choices to the horizon with which each node finishes everything as late as
/// it may: a work at the end of its window, unless the horizon or a message
/// comes first. At one tick lower nodes come first. Offsets are taken as by
/// [`early`].
pub fn late(demand: &Demand, offsets: &[u32]) -> Vec<u8> {
    let mut list = List::new(demand.walk_apart(offsets), usize::MAX);
    while list.pass_late(|nodes| nodes.trailing_zeros() as u8) {}
    list.into_choices()
}

/// Choices to the horizon in an order that is drawn: at each step a node that may finish a
/// statement does, or time goes on as by [`late`]. The same seed gives the same list; it is at
/// least 1. Offsets are taken as by [`early`].
pub fn drawn(demand: &Demand, offsets: &[u32], seed: u32) -> Vec<u8> {
    let mut list = List::new(demand.walk_apart(offsets), usize::MAX);
    let nodes = list.walk().nodes() as u32;
    let mut state = seed.max(1);
    loop {
        let (coin, node) = (next(&mut state) & 1, next(&mut state) % nodes);
        if coin == 0 && list.finish(node as u8) {
            continue;
        }
        let drawn = next(&mut state);
        if !list.pass_late(|nodes| one_of(nodes, drawn)) {
            return list.into_choices();
        }
    }
}

/// The next number of the generator: xorshift of 32 bits.
fn next(state: &mut u32) -> u32 {
    *state ^= *state << 13;
    *state ^= *state >> 17;
    *state ^= *state << 5;
    *state
}

/// One of the nodes whose bits are set, by a number that was drawn.
fn one_of(nodes: u8, drawn: u32) -> u8 {
    let set: Vec<u8> = (0..8).filter(|node| nodes >> node & 1 == 1).collect();
    set[drawn as usize % set.len()]
}

/// A list in the making: the nodes on their way, and their choices so far.
pub struct List<'a> {
    walk: Walk<'a>,
    choices: Vec<u8>,
    most: usize,
}

impl<'a> List<'a> {
    /// An empty list, to have about so many choices at most: a list is full
    /// with them, but what is under way at a tick is finished.
    pub fn new(walk: Walk<'a>, most: usize) -> List<'a> {
        let choices = Vec::new();
        List {
            walk,
            choices,
            most,
        }
    }

    /// Where the nodes stand.
    pub fn walk(&self) -> &Walk<'a> {
        &self.walk
    }

    /// The choices made.
    pub fn into_choices(self) -> Vec<u8> {
        self.choices
    }

    /// Whether it has as many choices as it may have.
    pub fn is_full(&self) -> bool {
        self.choices.len() >= self.most
    }

    /// Puts a choice down that is not carried out: a run ends with it.
    pub fn end_with(&mut self, choice: u8) {
        self.choices.push(choice);
    }

    /// A node finishes a statement, or why it may not.
    pub fn try_finish(&mut self, node: u8) -> Result<(), Refusal> {
        self.walk.finish(node)?;
        self.choices.push(node);
        Ok(())
    }

    /// A node finishes a statement, if it may.
    pub fn finish(&mut self, node: u8) -> bool {
        self.try_finish(node).is_ok()
    }

    /// A tick that is allowed passes; whether the run goes on after it.
    pub fn tick(&mut self) -> bool {
        self.choices.push(TICK);
        matches!(self.walk.tick(), Ticked::Passed { horizon: false })
    }

    /// Lets nodes finish what they can at this tick, in this order. Whether
    /// the run goes on: `mistake` says of a choice that is not allowed, and
    /// why, whether it is made all the same.
    pub fn finish_all(&mut self, order: &[u8], mut mistake: impl FnMut(Refusal) -> bool) -> bool {
        let mut moved = true;
        while moved && !self.is_full() {
            moved = false;
            for &node in order {
                let refusal = loop {
                    match self.try_finish(node) {
                        Ok(()) => moved = true,
                        Err(refusal) => break refusal,
                    }
                };
                if mistake(refusal) {
                    self.end_with(node);
                    return false;
                }
            }
        }
        !self.is_full()
    }

    /// All that can be finished is, then a tick passes if none is late by it;
    /// whether the run goes on.
    pub fn pass_early(&mut self, order: &[u8], mistake: impl FnMut(Refusal) -> bool) -> bool {
        self.finish_all(order, mistake)
            && matches!(self.walk.look(), Ticked::Passed { .. })
            && self.tick()
    }

    /// A tick passes, or where one would not be allowed or would make nodes
    /// late, one of them finishes a statement: `pick` takes one of these
    /// bits. Whether the run goes on.
    pub fn pass_late(&mut self, pick: impl FnOnce(u8) -> u8) -> bool {
        let goes_on = match self.walk.look() {
            Ticked::Passed { .. } => self.tick(),
            Ticked::Due(node) => self.finish(node),
            Ticked::Late { work, sleep } => self.finish(pick(work | sleep)),
        };
        goes_on && !self.is_full()
    }
}
