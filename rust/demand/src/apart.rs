//! Demand 3 for nodes that wake apart.
//!
//! Document 02, wish 6: "until that tick its clock stands at 0 and choosing it
//! isn't allowed. The horizon stays on the common tick. [...] Observations carry
//! the node's own clock, and a user finds the network's path again in those clocks
//! for all permitted offsets, a message at its sender's tick, each node owing only
//! what was due on its own clock."
//!
//! There is one path for all nodes together. Its ticks are the nodes' own, so its
//! steps stand in another order than the run's works, and it reaches the clock of
//! the leading node. What the schedule has the nodes behind it finish before that
//! tick, and they have not, is filled in at its window's end.
//!
//! What is wrong is told with the name of the sentence that it breaks: those of
//! demand 3; `woken` where a node is chosen before it wakes; `fills` where
//! something would have to be filled in that is due on the node's own clock.

pub use crate::log::Work;

use crate::log::Log;
use crate::observed::{self, Owed};
use crate::path::Path;
use crate::walk::Walk;
use crate::{Claim, Demand, Facts, Held, LATE};
use reference::schedule::Passage;
use reference::table::Action;

/// What a run of nodes that wake apart was found to have done.
#[derive(Clone, Debug, PartialEq, Eq)]
pub struct Apart {
    /// As for nodes that wake together; the tick that the path reaches is the
    /// leading node's clock.
    pub facts: Facts,
    /// The works in the run's order, at common ticks.
    pub works: Vec<Work>,
    /// What was filled in, at the ticks of the path.
    pub filled: Vec<Work>,
}

/// The offset of a node; one that is missing is 0.
fn offset(offsets: &[u32], node: usize) -> u32 {
    offsets.get(node).copied().unwrap_or(0)
}

/// A node's own clock at a tick: "until that tick its clock stands at 0".
fn own_clock(offsets: &[u32], node: usize, tick: u32) -> u32 {
    tick.saturating_sub(offset(offsets, node))
}

/// A work at the tick of the clock of the node that finished it: "a message at
/// its sender's tick".
pub fn own_work(offsets: &[u32], work: &Work) -> Work {
    Work {
        tick: own_clock(offsets, work.node.into(), work.tick),
        ..*work
    }
}

impl Demand<'_> {
    /// The nodes at their start, to be walked with these offsets.
    pub fn walk_apart(&self, offsets: &[u32]) -> Walk<'_> {
        Walk::apart(self.table, &self.own, &self.blocks, offsets, self.horizon)
    }

    /// Holds a run under these choices with these offsets to the demand: what it
    /// was found to have done, or what is wrong.
    pub fn hold_apart(
        &self,
        choices: &[u8],
        offsets: &[u32],
        claim: &Claim,
    ) -> Result<Apart, String> {
        let mut held = Held::new(self.walk_apart(offsets), Log::default());
        held.listeners(0)?;
        let (end, used) = held.carry_out(choices)?;
        held.end(end, used, choices, claim)?;
        let on_path = claim.tick - u32::from(end == LATE);
        let clocks = self.clocks(offsets, on_path);
        let own = |work: &Work| own_work(offsets, work);
        let works: Vec<Work> = held.follower.works.iter().map(own).collect();
        let (path, filled) = self.path_of(&works, &clocks)?;
        held.facts.reached = path.reached();
        let written = observed::read(claim.observations)?;
        let late = held.facts.late_at_work | held.facts.late_for_sleep;
        for (component, until) in clocks.into_iter().enumerate() {
            let owed = Owed {
                until,
                due_before: own_clock(offsets, component, claim.tick),
                may_miss: end == LATE && late >> component & 1 == 1,
            };
            observed::compare(&written, &path, component, owed)?;
        }
        observed::in_order(&written, &held.sleeps)?;
        held.facts.noted = held.finishes.hold(&written, &self.own)?;
        Ok(Apart {
            facts: held.facts,
            works: held.follower.works,
            filled,
        })
    }

    /// The nodes' own clocks at a tick.
    pub fn clocks(&self, offsets: &[u32], tick: u32) -> Vec<u32> {
        let nodes = 0..self.own.len();
        nodes.map(|node| own_clock(offsets, node, tick)).collect()
    }

    /// The one path for all nodes together: these works, each at the tick that it
    /// has, and what has to be filled in, in the order of their ticks; to the
    /// leading one of these clocks.
    pub fn path_of(&self, works: &[Work], clocks: &[u32]) -> Result<(Path<'_>, Vec<Work>), String> {
        let leading = clocks.iter().copied().max().unwrap_or(0);
        let filled = self.filled(works, clocks, leading)?;
        let mut all = [works, &filled].concat();
        // Works of one tick keep their order.
        all.sort_by_key(|work| work.tick);
        let mut path = Path::new(self.table, &self.own)?;
        for work in all {
            tick_to(&mut path, work.tick)?;
            match work.message {
                None => path.alone(work.node)?,
                Some((receiver, channel)) => path.joint(work.node, receiver, channel)?,
            }
        }
        tick_to(&mut path, leading)?;
        path.finish(self.horizon)?;
        Ok((path, filled))
    }

    /// What the schedule has nodes finish before a tick, and they have not, each
    /// at its window's end. Nothing that was due on the node's own clock may be
    /// among it.
    fn filled(&self, works: &[Work], clocks: &[u32], leading: u32) -> Result<Vec<Work>, String> {
        let mut finished = vec![0; self.own.len()];
        for work in works {
            finished[usize::from(work.node)] += 1;
            if let Some((receiver, _)) = work.message {
                finished[usize::from(receiver)] += 1;
            }
        }
        let mut filled = Vec::new();
        while let Some((node, passage)) = self.first_open(&finished, leading) {
            if passage.end < clocks[node] {
                return Err(format!(
                    "fills: node {node} has not finished what ends at {}, its clock is {}",
                    passage.end, clocks[node]
                ));
            }
            let message = self.message_of(passage, &finished)?;
            finished[node] += 1;
            if let Some((receiver, _)) = message {
                finished[usize::from(receiver)] += 1;
            }
            filled.push(Work {
                node: node as u8,
                tick: passage.end,
                message,
            });
        }
        Ok(filled)
    }

    /// A node's first passage that is not finished.
    fn open(&self, node: usize, finished: &[usize]) -> Option<&Passage> {
        self.own[node].get(finished[node]).copied()
    }

    /// Of the nodes' first passages that are not finished and end before a tick
    /// the one with the first end.
    fn first_open(&self, finished: &[usize], before: u32) -> Option<(usize, &Passage)> {
        let nodes = 0..self.own.len();
        let open = nodes.filter_map(|node| Some((node, self.open(node, finished)?)));
        open.filter(|(_, passage)| passage.end < before)
            .min_by_key(|(_, passage)| passage.end)
    }

    /// The receiver and the channel if a send is filled in: the node whose first
    /// passage that is not finished listens to it at the send's end.
    fn message_of(&self, send: &Passage, finished: &[usize]) -> Result<Option<(u8, u8)>, String> {
        let Action::Send(channel) = send.edge_in(self.table).action else {
            return Ok(None);
        };
        let listens = |node: &u8| {
            let open = self.open(usize::from(*node), finished);
            open.is_some_and(|passage| {
                passage.component != send.component
                    && passage.edge_in(self.table).listens_to(channel)
                    && passage.ready <= send.end
                    && send.end <= passage.end
            })
        };
        let listeners: Vec<u8> = (0..self.own.len() as u8).filter(listens).collect();
        match listeners[..] {
            [receiver] => Ok(Some((receiver, channel))),
            _ => Err(format!(
                "fills: {listeners:?} listen to node {} at tick {}",
                send.component, send.end
            )),
        }
    }
}

/// Ticks pass on the path up to a tick.
fn tick_to(path: &mut Path, tick: u32) -> Result<(), String> {
    while path.reached() < tick {
        path.tick()?;
    }
    Ok(())
}
