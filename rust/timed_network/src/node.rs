//! One node whose registers the caller lends.
//!
//! [`Node::start`] gives a node's registers at the start of its part of the
//! program bytes, [`Node::step`] carries out the statement at its program
//! counter, [`Node::take_message`] finishes a listen with a message.

mod exported;

/// A trial: an edge's bounds as far as they were looked at.
#[repr(C)]
#[derive(Clone, Copy, Debug, PartialEq, Eq)]
pub struct Trial {
    /// The ready delay so far.
    pub ready: u16,
    /// Whether the end was lowered.
    pub ended: bool,
    /// The end, once it was lowered.
    pub end: u16,
    /// Whether no bound failed.
    pub good: bool,
}

/// The edge kept, if any.
#[repr(C)]
#[derive(Clone, Copy, Debug, PartialEq, Eq)]
pub struct Kept {
    /// Whether there is one.
    pub some: bool,
    /// Its number.
    pub edge: u8,
    /// Its ready delay.
    pub ready: u16,
    /// Its end.
    pub end: u16,
}

/// The registers of one node.
#[repr(C)]
#[derive(Clone, Copy, Debug, PartialEq, Eq)]
pub struct Node {
    /// The place of the next statement, in bytes from the part's start.
    pub pc: usize,
    /// The present location.
    pub location: u8,
    /// The clocks at its entry; places past the node's clocks mean nothing.
    pub clocks: [u64; 4],
    /// The variables; places past the node's variables mean nothing.
    pub values: [i16; 4],
    /// The tick of the ready of the edge taken.
    pub t: u64,
    /// Its ready delay.
    pub n: u16,
    /// The length of its window.
    pub d: u16,
    /// Its number.
    pub edge: u8,
    /// Whether a message was taken and no location was entered since.
    pub taken: bool,
    /// The location paired with it.
    pub goes: u8,
    /// The trial under way.
    pub tried: Trial,
    /// The edge kept so far.
    pub kept: Kept,
    /// How many sleeps were finished.
    pub sleeps: u64,
}

impl Node {
    /// The registers at the start of a part: in the initial location's block,
    /// with a new trial, all else 0.
    ///
    /// ```
    /// let node = timed_network::node::Node::start(&[]);
    /// assert_eq!((node.t, node.location, node.sleeps), (0, 0, 0));
    /// ```
    pub fn start(part: &[u8]) -> Node {
        exported::start(part)
    }

    /// Carries out the statement at the program counter of the part of a node
    /// with so many clocks and variables.
    ///
    /// Nothing changes where the part has more than 65,535 bytes, where there
    /// are more than four clocks or variables, where `t`, `sleeps` or one of
    /// the four clocks is above 4,000,000,000,000,000,000, where an addition
    /// would leave -32,768 to 32,767, at a take with nothing kept, and where
    /// there is no statement.
    ///
    /// Whether the statement may be finished now is not asked: not the tick
    /// of a sleep or a listen, and not the listener of a send. A listen is
    /// finished here without a message, by [`Node::take_message`] with one.
    pub fn step(&mut self, part: &[u8], clocks: u8, variables: u8) {
        exported::step(self, part, clocks, variables);
    }

    /// Finishes the listen at the program counter of the part with a message
    /// on the channel, and notes the location paired with it.
    ///
    /// Nothing changes where the node does not stand at a listen that names
    /// the channel, where it has taken a message already, and where the part
    /// has more than 65,535 bytes.
    pub fn take_message(&mut self, part: &[u8], channel: u8) {
        exported::take_message(self, part, channel);
    }
}
