//! Where each node stands, counted in the statements that document 01 writes
//! for the table, and what a choice does in the words of the schedule. What a
//! node does goes by its own clock (document 02, wish 6); without offsets that
//! is the tick.

use crate::lengths::work_length;
use crate::TICK;
use reference::schedule::{window, Passage};
use reference::table::*;

/// What a node stands at.
#[derive(Clone, Copy, Debug, PartialEq, Eq)]
enum Stand {
    /// The block of its location; so many statements are left, the last one
    /// is the take.
    Choosing(u32),
    /// The sleep.
    Sleeping,
    /// The work; so many statements are left, the last one is done, send or
    /// listen.
    Working(u32),
    /// What follows the work: clocks, enter, choose; so many are left.
    Leaving(u32),
}

/// A node on its way.
#[derive(Clone, Copy, Debug)]
struct Node {
    /// The number of its present passage. Past the last one of the schedule
    /// it may still look for an edge.
    passage: usize,
    stand: Stand,
    /// The message taken in this passage.
    message: Option<u8>,
}

/// What a finished statement was.
#[derive(Clone, Copy, Debug, PartialEq, Eq)]
pub enum Finished {
    /// One that concerns nobody else.
    Own,
    /// A sleep: an observation is due.
    Sleep,
    /// Internal work.
    Done,
    /// A listen without a message.
    Timeout,
    /// A send, and its listener's listen.
    Message {
        /// The node that listened.
        receiver: u8,
        /// The channel.
        channel: u8,
    },
}

/// Why a choice is not allowed.
#[derive(Clone, Copy, Debug, PartialEq, Eq)]
pub enum Refusal {
    /// "any other byte; an absent node".
    NoNode(u8),
    /// "until that tick [...] choosing it isn't allowed".
    Asleep,
    /// "a take with nothing kept".
    NothingKept,
    /// "sleep unless the tick is t".
    EarlySleep,
    /// "a listen unless its window ends now".
    EarlyListen,
    /// "a send without a listener".
    NoListener,
    /// "a tick while a sleep or listen is due".
    Due(u8),
}

/// What a tick does.
#[derive(Clone, Copy, Debug, PartialEq, Eq)]
pub enum Ticked {
    /// It is not allowed: this node's sleep or listen is due.
    Due(u8),
    /// It takes nodes, as bits, past their window's end with their work
    /// unfinished, or past their next sleep's tick before they get there.
    Late {
        /// The former.
        work: u8,
        /// The latter.
        sleep: u8,
    },
    /// It passes.
    Passed {
        /// Whether the tick is now the horizon.
        horizon: bool,
    },
}

/// All nodes and the tick.
pub struct Walk<'a> {
    table: &'a Table,
    own: &'a [Vec<&'a Passage>],
    blocks: &'a [Vec<u32>],
    nodes: Vec<Node>,
    /// The tick at which each node wakes.
    offsets: Vec<u32>,
    tick: u32,
    horizon: u32,
}

impl<'a> Walk<'a> {
    /// "It starts at tick 0, [...] each node at its program's start", with "an offset for
    /// each node"; one that is missing is 0. It ends at the horizon.
    pub fn apart(
        table: &'a Table,
        own: &'a [Vec<&'a Passage>],
        blocks: &'a [Vec<u32>],
        offsets: &[u32],
        horizon: u32,
    ) -> Walk<'a> {
        let offset = |node| offsets.get(node).copied().unwrap_or(0);
        let components = table.components.iter().zip(blocks);
        let start = |(component, blocks): (&Component, &Vec<u32>)| Node {
            passage: 0,
            stand: Stand::Choosing(blocks[usize::from(component.initial)]),
            message: None,
        };
        Walk {
            table,
            own,
            blocks,
            nodes: components.map(start).collect(),
            offsets: (0..own.len()).map(offset).collect(),
            tick: 0,
            horizon,
        }
    }

    /// A node's own clock at a tick: "until that tick its clock stands at 0".
    fn own_clock(&self, node: usize, tick: u32) -> u32 {
        tick.saturating_sub(self.offsets[node])
    }

    /// A node's own clock now.
    pub fn clock(&self, node: usize) -> u32 {
        self.own_clock(node, self.tick)
    }

    /// A node's passage in the schedule, if it has one with this number.
    fn passage(&self, node: usize, number: usize) -> Option<&'a Passage> {
        self.own[node].get(number).copied()
    }

    /// The edge of a node's present passage.
    fn edge(&self, node: usize) -> Option<&'a Edge> {
        let passage = self.passage(node, self.nodes[node].passage)?;
        Some(passage.edge_in(self.table))
    }

    /// "that node finishes its statement", if that is allowed.
    pub fn finish(&mut self, choice: u8) -> Result<Finished, Refusal> {
        let number = usize::from(choice);
        let Some(node) = self.nodes.get(number) else {
            return Err(Refusal::NoNode(choice));
        };
        debug_assert_ne!(choice, TICK);
        if self.tick < self.offsets[number] {
            return Err(Refusal::Asleep);
        }
        match node.stand {
            Stand::Choosing(1) => self.take(number),
            Stand::Sleeping => self.sleep(number),
            Stand::Working(1) => self.work(number),
            Stand::Leaving(1) => self.choose(number),
            Stand::Choosing(left) => self.go_on(number, Stand::Choosing(left - 1)),
            Stand::Working(left) => self.go_on(number, Stand::Working(left - 1)),
            Stand::Leaving(left) => self.go_on(number, Stand::Leaving(left - 1)),
        }
    }

    fn go_on(&mut self, node: usize, stand: Stand) -> Result<Finished, Refusal> {
        self.nodes[node].stand = stand;
        Ok(Finished::Own)
    }

    /// A take: in a passage of the schedule there is an edge to be taken.
    fn take(&mut self, node: usize) -> Result<Finished, Refusal> {
        let scheduled = self.nodes[node].passage < self.own[node].len();
        if scheduled || self.goes_on(node) {
            self.go_on(node, Stand::Sleeping)
        } else {
            Err(Refusal::NothingKept)
        }
    }

    /// Whether there is a candidate behind a node's last passage: one with a window of
    /// a tick's length and that of its budget.
    fn goes_on(&self, node: usize) -> bool {
        let component = &self.table.components[node];
        let Some(last) = self.own[node].last() else {
            return false;
        };
        let left = last.edge_in(self.table);
        let mut clocks = last.clocks;
        for (number, clock) in clocks.iter_mut().enumerate() {
            *clock += last.end - last.entry;
            if left.resets(number) {
                *clock = 0;
            }
        }
        let variables = left.updated(&last.variables).unwrap_or(last.variables);
        let number = left.target(self.nodes[node].message);
        let location = &component.locations[usize::from(number)];
        let long_enough = |edge: &Edge| {
            let window = window(location, edge, &clocks);
            window.is_some_and(|w| w.ready + u32::from(edge.budget.max(1)) <= w.end)
        };
        component.edges.iter().any(|edge| {
            edge.source == number && edge.data_bounds_hold(&variables) && long_enough(edge)
        })
    }

    /// A sleep ends at its passage's ready and at no other tick.
    fn sleep(&mut self, node: usize) -> Result<Finished, Refusal> {
        let passage = self.passage(node, self.nodes[node].passage);
        match passage.filter(|passage| passage.ready == self.clock(node)) {
            Some(passage) => {
                let work = work_length(&passage.edge_in(self.table).action);
                self.nodes[node].stand = Stand::Working(work);
                self.nodes[node].message = None;
                Ok(Finished::Sleep)
            }
            None => Err(Refusal::EarlySleep),
        }
    }

    /// The last statement of a work.
    fn work(&mut self, node: usize) -> Result<Finished, Refusal> {
        let number = self.nodes[node].passage;
        let passage = self.own[node][number];
        match passage.edge_in(self.table).action {
            Action::Internal(_) => {
                self.leave(node, None);
                Ok(Finished::Done)
            }
            Action::Receive(_) if passage.end == self.clock(node) => {
                self.leave(node, None);
                Ok(Finished::Timeout)
            }
            Action::Receive(_) => Err(Refusal::EarlyListen),
            Action::Send(channel) => {
                let since = passage.ready + self.offsets[node];
                let heard = self.listeners(node, channel, since);
                if heard == 0 {
                    return Err(Refusal::NoListener);
                }
                let receiver = heard.trailing_zeros() as usize;
                self.leave(node, Some(channel));
                self.leave(receiver, Some(channel));
                let receiver = receiver as u8;
                Ok(Finished::Message { receiver, channel })
            }
        }
    }

    /// The work is finished: "per clock 08 zero if masked, else 07 age; 09
    /// enter [...]; 11 choose."
    fn leave(&mut self, node: usize, message: Option<u8>) {
        let clocks = self.table.components[node].clocks;
        self.nodes[node].stand = Stand::Leaving(u32::from(clocks) + 2);
        self.nodes[node].message = message;
    }

    /// "Choose goes to the present location's block."
    fn choose(&mut self, node: usize) -> Result<Finished, Refusal> {
        let message = self.nodes[node].message;
        let edge = self.edge(node).expect("work was done on an edge");
        let location = usize::from(edge.target(message));
        self.nodes[node].passage += 1;
        self.go_on(node, Stand::Choosing(self.blocks[node][location]))
    }

    /// The nodes, as bits, that stand at a listen, name the channel and have
    /// listened since that common tick or longer.
    fn listeners(&self, sender: usize, channel: u8, since: u32) -> u8 {
        let hears = |node: &usize| {
            let passage = self.passage(*node, self.nodes[*node].passage);
            *node != sender
                && matches!(self.nodes[*node].stand, Stand::Working(_))
                && passage.is_some_and(|p| {
                    p.ready + self.offsets[*node] <= since
                        && p.edge_in(self.table).listens_to(channel)
                })
        };
        let numbers = 0..self.nodes.len();
        numbers.filter(hears).fold(0, |bits, node| bits | 1 << node)
    }

    /// A node past its sleep and yet to send that has not exactly one
    /// listener, or one that began with it.
    pub fn ill_heard(&self) -> Option<usize> {
        (0..self.nodes.len()).find(|node| {
            let Stand::Working(_) = self.nodes[*node].stand else {
                return false;
            };
            let passage = self.own[*node][self.nodes[*node].passage];
            let Action::Send(channel) = passage.edge_in(self.table).action else {
                return false;
            };
            let since = passage.ready + self.offsets[*node];
            let heard = self.listeners(*node, channel, since);
            let early = since.checked_sub(1);
            let earlier = early.map_or(0, |tick| self.listeners(*node, channel, tick));
            heard.count_ones() != 1 || earlier != heard
        })
    }

    /// What a tick would do now.
    pub fn look(&self) -> Ticked {
        let numbers = 0..self.nodes.len();
        if let Some(node) = numbers.clone().find(|node| self.is_due(*node)) {
            return Ticked::Due(node as u8);
        }
        let next = self.tick + 1;
        let (mut work, mut sleep) = (0, 0);
        for node in numbers {
            let bit = 1 << node;
            let Node { passage, stand, .. } = self.nodes[node];
            let clock = self.own_clock(node, next);
            let is_over = |number| self.passage(node, number).is_some_and(|p| p.ready < clock);
            match stand {
                Stand::Working(_) if self.own[node][passage].end < clock => work |= bit,
                Stand::Choosing(_) if is_over(passage) => sleep |= bit,
                Stand::Leaving(_) if is_over(passage + 1) => sleep |= bit,
                _ => {}
            }
        }
        match work | sleep {
            0 => Ticked::Passed {
                horizon: next == self.horizon,
            },
            _ => Ticked::Late { work, sleep },
        }
    }

    /// A tick passes if it is allowed.
    pub fn tick(&mut self) -> Ticked {
        let ticked = self.look();
        if !matches!(ticked, Ticked::Due(_)) {
            self.tick += 1;
        }
        ticked
    }

    /// Whether a node is past its sleep with its work unfinished.
    pub fn is_working(&self, node: u8) -> bool {
        let node = self.nodes.get(usize::from(node));
        node.is_some_and(|node| matches!(node.stand, Stand::Working(_)))
    }

    /// The number of nodes.
    pub fn nodes(&self) -> usize {
        self.nodes.len()
    }

    /// Whether a node stands at a sleep or a listen that is due now.
    fn is_due(&self, node: usize) -> bool {
        let Node { passage, stand, .. } = self.nodes[node];
        let Some(passage) = self.passage(node, passage) else {
            return false;
        };
        match stand {
            Stand::Sleeping => passage.ready == self.clock(node),
            Stand::Working(_) => {
                let receives = matches!(passage.edge_in(self.table).action, Action::Receive(_));
                receives && passage.end == self.clock(node)
            }
            _ => false,
        }
    }
}
