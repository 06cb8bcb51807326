//! Holds a run to each sentence of demand 3.
//!
//! "run an accepted table's programs under every list of choices, forbidden
//! ones included: for all nodes together there is one path of the network,
//! passing as the schedule says, on which each node's observations are the
//! first ones of that node (edge, location, values, tick), and every message
//! passes between the same two nodes, on the same channel, at the same tick.
//! Of the observations due before the tick reached none is missing but the
//! last one of a late node. A node past its sleep and yet to send in its
//! window has exactly one listener. The run ends late exactly when a tick
//! takes a node past its window's end with its work unfinished, or past its
//! next sleep's tick before it gets there: at that tick, with the lowest such
//! node's number."
//!
//! No program is executed here. [`walk`] counts the statements that each node
//! has finished against those that document 01 writes for the table, and says
//! in the words of the schedule what a choice does; [`path`] takes the
//! network's steps, each tried by the network's rules alone; [`observed`]
//! compares what was written with what lies on that path.
//!
//! What is wrong is told with the name of the sentence that it breaks: the
//! fields of the record `Demand3` in the definitions, `valid` to `allowed`;
//! `order` where observations do not stand in finishing order.
//!
//! [`apart`] does the same for nodes that wake apart, document 02's wish 6.
//! [`finishes`] holds the finish tick in each observation, its wish 9.
#![forbid(unsafe_code)]
#![warn(missing_docs)]

pub mod apart;
pub mod finishes;
mod lengths;
mod log;
pub mod observed;
pub mod path;
pub mod walk;

use finishes::{Finishes, Kind, Noted};
use observed::Owed;
use path::Path;
use reference::schedule::Passage;
use reference::table::Table;
use walk::{Finished, Refusal, Ticked, Walk};

/// The bytes of an observation.
pub const OBSERVATION: usize = 36;
/// The choice that lets a tick pass.
pub const TICK: u8 = 255;
/// The node of a run that no node was late in.
pub const NO_NODE: u8 = 255;

/// The numbers of the ends: "0 horizon", "1 choices used up", "2 late", "3
/// choice not allowed".
pub const HORIZON: u8 = 0;
/// The choices were used up.
pub const USED_UP: u8 = 1;
/// A tick made a node late.
pub const LATE: u8 = 2;
/// A choice was not allowed.
pub const NOT_ALLOWED: u8 = 3;

/// What a run says of itself.
#[derive(Clone, Copy, Debug, PartialEq, Eq)]
pub struct Claim<'a> {
    /// How it ended, 0 to 3.
    pub end: u8,
    /// "the node (255 unless late)".
    pub node: u8,
    /// "the tick (the count of 255s carried out)".
    pub tick: u32,
    /// "the choices used (the count of all carried out)".
    pub used: u32,
    /// The observations, [`OBSERVATION`] bytes each.
    pub observations: &'a [u8],
}

/// What a run was found to have done.
#[derive(Clone, Copy, Debug, Default, PartialEq, Eq)]
pub struct Facts {
    /// The nodes whose window's end the last tick passed, as bits.
    pub late_at_work: u8,
    /// The nodes whose next sleep the last tick passed, as bits.
    pub late_for_sleep: u8,
    /// Why the last choice was not allowed.
    pub refusal: Option<Refusal>,
    /// Messages that passed.
    pub messages: u32,
    /// Listens that ended without one.
    pub timeouts: u32,
    /// The tick that the path reaches.
    pub reached: u32,
    /// The finish ticks in its observations.
    pub noted: Noted,
}

/// An accepted table with what its runs are held to.
pub struct Demand<'a> {
    table: &'a Table,
    own: Vec<Vec<&'a Passage>>,
    blocks: Vec<Vec<u32>>,
    horizon: u32,
}

impl<'a> Demand<'a> {
    /// The demand on the runs of an accepted table with its schedule.
    pub fn new(table: &'a Table, passages: &'a [Passage]) -> Demand<'a> {
        Demand::to(table, passages, table.horizon.into())
    }

    /// The same for runs to a horizon that is handed in (document 02, wish 14), with the
    /// schedule to it.
    pub fn to(table: &'a Table, passages: &'a [Passage], horizon: u32) -> Demand<'a> {
        let components = 0..table.components.len();
        let own = |c: usize| {
            passages
                .iter()
                .filter(move |p| usize::from(p.component) == c)
        };
        Demand {
            table,
            own: components.map(|c| own(c).collect()).collect(),
            blocks: lengths::blocks(table),
            horizon,
        }
    }

    /// The nodes at their start, to be walked.
    pub fn walk(&self) -> Walk<'_> {
        self.walk_apart(&[])
    }

    /// Holds a run under these choices to the demand: what it was found to
    /// have done, or what is wrong.
    pub fn hold(&self, choices: &[u8], claim: &Claim) -> Result<Facts, String> {
        let follower = Path::new(self.table, &self.own)?;
        let mut held = Held::new(self.walk(), follower);
        held.listeners(0)?;
        let (end, used) = held.carry_out(choices)?;
        held.end(end, used, choices, claim)?;
        let path = &mut held.follower;
        held.facts.reached = path.finish(self.horizon)?;
        let late = held.facts.late_at_work | held.facts.late_for_sleep;
        if held.facts.reached + u32::from(end == LATE) != claim.tick {
            return Err(format!(
                "reach: the path reaches tick {}, the run ends at {}",
                held.facts.reached, claim.tick
            ));
        }
        let written = observed::read(claim.observations)?;
        for component in 0..self.own.len() {
            let owed = Owed {
                until: held.facts.reached,
                due_before: claim.tick,
                may_miss: end == LATE && late >> component & 1 == 1,
            };
            observed::compare(&written, &held.follower, component, owed)?;
        }
        observed::in_order(&written, &held.sleeps)?;
        held.facts.noted = held.finishes.hold(&written, &self.own)?;
        finishes::on_path(&written, &held.follower)?;
        Ok(held.facts)
    }
}

/// What is told of a run's ticks and finished works as they come.
trait Follower {
    /// A tick passes, not one that makes a node late.
    fn tick(&mut self) -> Result<(), String>;
    /// A node finishes its work alone.
    fn alone(&mut self, node: u8) -> Result<(), String>;
    /// Two nodes finish theirs with a message on this channel.
    fn joint(&mut self, sender: u8, receiver: u8, channel: u8) -> Result<(), String>;
}

impl Follower for Path<'_> {
    fn tick(&mut self) -> Result<(), String> {
        Path::tick(self)
    }

    fn alone(&mut self, node: u8) -> Result<(), String> {
        Path::alone(self, node)
    }

    fn joint(&mut self, sender: u8, receiver: u8, channel: u8) -> Result<(), String> {
        Path::joint(self, sender, receiver, channel)
    }
}

/// A run under way.
struct Held<'a, F> {
    walk: Walk<'a>,
    follower: F,
    /// The nodes that finished a sleep, in that order.
    sleeps: Vec<u8>,
    finishes: Finishes,
    facts: Facts,
}

impl<'a, F: Follower> Held<'a, F> {
    /// The nodes at their start.
    fn new(walk: Walk<'a>, follower: F) -> Held<'a, F> {
        Held {
            finishes: Finishes::new(walk.nodes()),
            walk,
            follower,
            sleeps: Vec::new(),
            facts: Facts::default(),
        }
    }

    /// Carries out choices until the run ends: how, and after how many.
    fn carry_out(&mut self, choices: &[u8]) -> Result<(u8, usize), String> {
        for (index, &choice) in choices.iter().enumerate() {
            let after = index + 1;
            let ended = match choice {
                TICK => self.tick(),
                node => self.finish(node),
            };
            match ended.map_err(|problem| format!("{problem} (choice {index})"))? {
                Some(NOT_ALLOWED) => return Ok((NOT_ALLOWED, index)),
                Some(end) => return Ok((end, after)),
                None if choice != TICK => self.listeners(after)?,
                None => {}
            }
        }
        Ok((USED_UP, choices.len()))
    }

    /// A tick: the network passes it too, unless it made a node late.
    fn tick(&mut self) -> Result<Option<u8>, String> {
        match self.walk.tick() {
            Ticked::Due(node) => {
                self.facts.refusal = Some(Refusal::Due(node));
                Ok(Some(NOT_ALLOWED))
            }
            Ticked::Late { work, sleep } => {
                (self.facts.late_at_work, self.facts.late_for_sleep) = (work, sleep);
                Ok(Some(LATE))
            }
            Ticked::Passed { horizon } => {
                self.follower.tick()?;
                Ok(horizon.then_some(HORIZON))
            }
        }
    }

    /// A node finishes its statement: finished work is a step in.
    fn finish(&mut self, node: u8) -> Result<Option<u8>, String> {
        let at_work = self.walk.is_working(node);
        match self.walk.finish(node) {
            Err(Refusal::NoListener) => {
                return Err(format!("listener: node {node} has none"));
            }
            Err(refusal) => {
                self.facts.refusal = Some(refusal);
                return Ok(Some(NOT_ALLOWED));
            }
            Ok(Finished::Own) if at_work => self.finishes.go_on(node, self.own_clock(node)),
            Ok(Finished::Own) => {}
            Ok(Finished::Sleep) => self.sleeps.push(node),
            Ok(Finished::Done) => {
                self.note(node, Kind::Done);
                self.follower.alone(node)?;
            }
            Ok(Finished::Timeout) => {
                self.note(node, Kind::TimedOut);
                self.facts.timeouts += 1;
                self.follower.alone(node)?;
            }
            Ok(Finished::Message { receiver, channel }) => {
                self.note(node, Kind::Sent);
                self.note(receiver, Kind::Taken);
                self.facts.messages += 1;
                self.follower.joint(node, receiver, channel)?;
            }
        }
        Ok(None)
    }

    fn own_clock(&self, node: u8) -> u32 {
        self.walk.clock(node.into())
    }

    /// A node's work is finished now.
    fn note(&mut self, node: u8, kind: Kind) {
        let tick = self.own_clock(node);
        self.finishes.finish(node, tick, kind);
    }

    /// "A node past its sleep and yet to send in its window has exactly one
    /// listener": one that began to listen earlier.
    fn listeners(&self, after: usize) -> Result<(), String> {
        match self.walk.ill_heard() {
            Some(node) => Err(format!(
                "listener: after {after} choices node {node}, yet to send, has not exactly one listener"
            )),
            None => Ok(()),
        }
    }

    /// Compares how the run ended with what it says.
    fn end(&self, end: u8, used: usize, choices: &[u8], claim: &Claim) -> Result<(), String> {
        let late = self.facts.late_at_work | self.facts.late_for_sleep;
        let node = match end {
            LATE => late.trailing_zeros() as u8,
            _ => NO_NODE,
        };
        let carried_out = choices.get(..used).unwrap_or(choices).iter();
        let tick = carried_out.filter(|choice| **choice == TICK).count();
        let found = (end, node, tick as u32, used as u32);
        let said = (claim.end, claim.node, claim.tick, claim.used);
        let asleep = self.facts.refusal == Some(Refusal::Asleep);
        match broken(found, said, choices.len()) {
            None => Ok(()),
            Some("allowed") if asleep => Err(format!(
                "woken: a node is chosen before it wakes, after {used} choices"
            )),
            Some(name) => Err(format!(
                "{name}: end, node, tick, choices used are {found:?}, not {said:?}"
            )),
        }
    }
}

/// End, node, tick and choices used.
type Numbers = (u8, u8, u32, u32);

/// The sentence that wrong numbers break.
fn broken(found: Numbers, said: Numbers, choices: usize) -> Option<&'static str> {
    let (end, node, tick, used) = found;
    if said.3 as usize > choices {
        return Some("used");
    }
    if end == LATE && (said.0 != LATE || said.3 > used || (said.3 == used && said.1 > node)) {
        return Some("lateEnds");
    }
    if said.0 == LATE && (said.0, said.1, said.3) != (end, node, used) {
        return Some("lateIs");
    }
    if end == HORIZON && said.3 > used {
        return Some("notBefore");
    }
    if end == NOT_ALLOWED && said.3 > used {
        return Some("allowed");
    }
    if said.1 != node {
        return Some("node");
    }
    if said.0 == NOT_ALLOWED && said.0 != end {
        return Some("refused");
    }
    if said.0 != end || said.3 != used {
        return Some("ended");
    }
    (said.2 != tick).then_some("ticks")
}
