//! The step machine: all nodes, the common tick and the nodes' own clocks.

use super::node::Node;
use super::{FINISH_TICK, NO_WORK, OBSERVATION, TICK};
use crate::program::{part_bytes, NodeProgram, Op};
use crate::schedule::Passage;
use crate::table::{Table, MAX_COMPONENTS};

/// What a choice that was carried out did.
#[derive(Clone, Copy, Debug, PartialEq, Eq)]
pub enum Happening {
    /// A node finished a statement that concerns no other and is not listed
    /// below.
    Own,
    /// A node finished a sleep; its observation is due.
    Slept {
        /// The node.
        node: u8,
    },
    /// A node finished internal work.
    Done {
        /// The node.
        node: u8,
    },
    /// A node finished a listen without a message.
    Timeout {
        /// The node.
        node: u8,
    },
    /// A node finished a send, and its listener the listen.
    Message {
        /// The node that sent.
        sender: u8,
        /// The node that listened.
        receiver: u8,
        /// The channel.
        channel: u8,
    },
    /// A tick passed.
    Ticked {
        /// The lowest node that it made late.
        late: Option<u8>,
    },
}

/// What lateness needs to know of a schedule: of each node the ready of each of its
/// passages, in their order.
pub type Readies = [Vec<u64>; MAX_COMPONENTS];

/// The readies of the passages of a table's own schedule.
pub fn readies(passages: &[Passage]) -> Readies {
    let mut readies = Readies::default();
    for passage in passages {
        readies[usize::from(passage.component)].push(passage.ready.into());
    }
    readies
}

/// The nodes of a program at a tick.
#[derive(Clone, Debug)]
pub struct Machine<'a> {
    nodes: Vec<Node<'a>>,
    /// The tick at which each node wakes.
    offsets: [u32; MAX_COMPONENTS],
    readies: Readies,
    /// How many sleeps each node has finished.
    sleeps: [usize; MAX_COMPONENTS],
    /// The ticks of each node's own clock at which its works finished, in their order.
    finishes: [Vec<u32>; MAX_COMPONENTS],
    clocks: [u8; MAX_COMPONENTS],
    tick: u32,
    horizon: u32,
}

impl<'a> Machine<'a> {
    /// "It starts at tick 0, no observation yet, each node at its program's
    /// start". Nothing for a program whose parts cannot be opened or that has
    /// not as many nodes as the table.
    pub fn new(table: &Table, passages: &[Passage], program: &'a [u8]) -> Option<Machine<'a>> {
        Machine::apart(table, passages, program, &[])
    }

    /// The same with "an offset for each node". One that is missing is 0, those
    /// behind the last node's are not looked at.
    pub fn apart(
        table: &Table,
        passages: &[Passage],
        program: &'a [u8],
        offsets: &[u32],
    ) -> Option<Machine<'a>> {
        let &[_, _, _, _, high, low] = program.first_chunk()?;
        let horizon = u16::from_be_bytes([high, low]).into();
        let mut machine = Machine::to(table, readies(passages), program, horizon)?;
        let count = machine.nodes.len();
        for (place, offset) in machine.offsets[..count].iter_mut().zip(offsets) {
            *place = *offset;
        }
        Some(machine)
    }

    /// The same to a horizon "handed to the run" (document 02, wish 14), with the
    /// schedule to it and without offsets: the program's own horizon is not read.
    pub fn to(
        table: &Table,
        readies: Readies,
        program: &'a [u8],
        horizon: u32,
    ) -> Option<Machine<'a>> {
        let &[_, _, _, count] = program.first_chunk()?;
        let count = usize::from(count);
        if count != table.components.len() || count > MAX_COMPONENTS {
            return None;
        }
        let mut machine = Machine {
            nodes: Vec::with_capacity(count),
            offsets: [0; MAX_COMPONENTS],
            readies,
            sleeps: [0; MAX_COMPONENTS],
            finishes: Default::default(),
            clocks: [0; MAX_COMPONENTS],
            tick: 0,
            horizon,
        };
        for number in 0..count {
            let program = NodeProgram::new(part_bytes(program, number))?;
            machine.nodes.push(Node::new(program)?);
            machine.clocks[number] = table.components[number].clocks;
        }
        Some(machine)
    }

    /// The present tick, the common one.
    pub fn tick(&self) -> u32 {
        self.tick
    }

    /// A node's own clock: "until that tick its clock stands at 0".
    pub fn own_clock(&self, number: usize) -> u32 {
        self.tick.saturating_sub(self.offsets[number])
    }

    /// The tick at which the run ends.
    pub fn horizon(&self) -> u32 {
        self.horizon
    }

    /// The nodes with their registers.
    pub fn nodes(&self) -> &[Node<'a>] {
        &self.nodes
    }

    /// Carries out a choice: "Choice 0 to 7: that node finishes its
    /// statement. Choice 255: a tick passes." Nothing, and nothing changed,
    /// where it is not allowed. Until its offset "choosing it isn't allowed".
    #[inline]
    pub fn choose(&mut self, choice: u8) -> Option<Happening> {
        if choice == TICK {
            return self.pass_tick();
        }
        let number = usize::from(choice);
        let statement = self.nodes.get(number)?.statement()?;
        if self.tick < self.offsets[number] {
            return None;
        }
        if statement.op == Op::Send {
            return self.send(number, statement.a);
        }
        let own_clock = self.own_clock(number);
        let happening = self.nodes[number].finish(choice, statement, own_clock)?;
        match happening {
            Happening::Slept { .. } => self.sleeps[number] += 1,
            Happening::Done { .. } | Happening::Timeout { .. } => self.note_finish(number),
            _ => {}
        }
        Some(happening)
    }

    /// A node's work has finished now, "by its own clock".
    fn note_finish(&mut self, number: usize) {
        let own_clock = self.own_clock(number);
        self.finishes[number].push(own_clock);
    }

    /// Not allowed: "a send without a listener that names its channel, has
    /// taken nothing and has listened at least as long". A node that stands
    /// at its listen has taken nothing; it has listened since its t. How long two
    /// nodes have done something is compared in common ticks.
    fn send(&mut self, sender: usize, channel: u8) -> Option<Happening> {
        let since = self.began(sender);
        let (receiver, pairs, location) = self.listener(channel, since)?;
        self.nodes[sender].sent();
        self.nodes[receiver].received(pairs, location);
        self.note_finish(sender);
        self.note_finish(receiver);
        Some(Happening::Message {
            sender: sender as u8,
            receiver: receiver as u8,
            channel,
        })
    }

    /// The common tick at which a node's own clock shows its t.
    fn began(&self, number: usize) -> u64 {
        u64::from(self.nodes[number].registers.t) + u64::from(self.offsets[number])
    }

    /// The lowest node that has listened to a channel since a tick: its
    /// number, its pair count and the paired location.
    fn listener(&self, channel: u8, since: u64) -> Option<(usize, u8, u8)> {
        let mut nodes = self.nodes.iter().enumerate();
        nodes.find_map(|(number, node)| {
            let (pairs, location) = node.listens_to(channel)?;
            (self.began(number) <= since).then_some((number, pairs, location))
        })
    }

    /// Not allowed: "a tick while a sleep or listen is due". A node that has yet
    /// to wake stands at its first statement, which is neither.
    fn pass_tick(&mut self) -> Option<Happening> {
        let mut nodes = self.nodes.iter().enumerate();
        if nodes.any(|(number, node)| is_due(node, self.own_clock(number))) {
            return None;
        }
        self.tick += 1;
        let late = (0..self.nodes.len()).find(|number| self.is_late(*number));
        Some(Happening::Ticked {
            late: late.map(|number| number as u8),
        })
    }

    /// "Late: a tick takes a node's work past its window's end, or takes a
    /// node that has yet to reach a sleep past that sleep's ready in the
    /// schedule." Both by its own clock, so that none is late before it wakes. With n
    /// sleeps behind it the next one is that of its passage n.
    fn is_late(&self, number: usize) -> bool {
        let node = &self.nodes[number];
        let own_clock = self.own_clock(number);
        if node.registers.working {
            return own_clock > node.window_end();
        }
        let next = self.readies[number].get(self.sleeps[number]);
        next.is_some_and(|ready| u64::from(own_clock) > *ready) && !stands_at(node, Op::Sleep)
    }

    /// "the tick at which the node's previous work finished": with its n-th sleep a
    /// node has n − 1 works behind it, the last of them that of the passage before.
    fn previous_finish(&self, number: usize) -> u32 {
        let previous = self.sleeps[number].checked_sub(2);
        let finish = previous.and_then(|work| self.finishes[number].get(work));
        finish.copied().unwrap_or(NO_WORK)
    }

    /// "Finished sleep writes an observation, due at the passage's ready, 32
    /// bytes: component, edge, location, 0, tick (4 bytes), four clocks grown
    /// by n (4 each), four variables (2 each); absent ones 0." "Observations carry
    /// the node's own clock". "after the old 32 comes the tick at which the node's
    /// previous work finished". The node must have finished the sleep by the last
    /// choice.
    pub fn observation(&self, node: u8) -> [u8; OBSERVATION] {
        let number = usize::from(node);
        let registers = &self.nodes[number].registers;
        let mut bytes = [0; OBSERVATION];
        bytes[..3].copy_from_slice(&[node, registers.edge, registers.location]);
        bytes[4..8].copy_from_slice(&self.own_clock(number).to_be_bytes());
        let present = usize::from(self.clocks[number]);
        let clocks = bytes[8..24].chunks_exact_mut(4);
        for (place, clock) in clocks.zip(&registers.clocks[..present]) {
            place.copy_from_slice(&clock.saturating_add(registers.n).to_be_bytes());
        }
        let variables = bytes[24..FINISH_TICK].chunks_exact_mut(2);
        for (place, variable) in variables.zip(&registers.variables) {
            place.copy_from_slice(&variable.to_be_bytes());
        }
        bytes[FINISH_TICK..].copy_from_slice(&self.previous_finish(number).to_be_bytes());
        bytes
    }
}

/// Whether a node stands at a statement with this op.
#[inline]
fn stands_at(node: &Node, op: Op) -> bool {
    node.statement().is_some_and(|statement| statement.op == op)
}

/// Whether a node's sleep or listen is due at a tick of its own clock.
#[inline]
fn is_due(node: &Node, tick: u32) -> bool {
    if node.registers.working {
        node.window_end() == tick && stands_at(node, Op::Listen)
    } else {
        node.registers.t == tick && stands_at(node, Op::Sleep)
    }
}
