//! The run: choices carried out on the program bytes, its four ways to end,
//! its observations, and beside them a log of finished work. Document 02's wish 6
//! gives each node an offset and a clock of its own; without offsets all nodes
//! wake at tick 0, and the clocks are the tick. Its wish 9 puts into each observation
//! when the node's previous work finished. Its wish 14 hands the run a horizon.

mod machine;
mod node;

pub use machine::{readies, Happening, Machine, Readies};
pub use node::{Kept, Node, Registers, Trial};

use crate::schedule::Passage;
use crate::table::{Table, NO_COMPONENT};

/// "Choice 255: a tick passes."
pub const TICK: u8 = 255;
/// Document 02, wish 9: "Each observation becomes 36 bytes".
pub const OBSERVATION: usize = 36;
/// Where the finish tick stands in it: "after the old 32".
pub const FINISH_TICK: usize = 32;
/// What stands there in the first observation of a node: "4,294,967,295".
pub const NO_WORK: u32 = 4_294_967_295;

/// The four ways to end, each with its number.
#[derive(Clone, Copy, Debug, PartialEq, Eq)]
#[repr(u8)]
pub enum End {
    /// "0 horizon (tick H; later choices are ignored)".
    Horizon = 0,
    /// "1 choices used up".
    UsedUp = 1,
    /// "2 late (lowest node)".
    Late = 2,
    /// "3 choice not allowed (that choice does nothing and isn't counted)".
    NotAllowed = 3,
}

/// How a run ended.
#[derive(Clone, Copy, Debug, PartialEq, Eq)]
pub struct Outcome {
    /// Which of the four ways.
    pub end: End,
    /// "the node (255 unless late)".
    pub node: u8,
    /// "the tick (the count of 255s carried out)".
    pub tick: u32,
    /// "the choices used (the count of all carried out)". To a horizon that is handed in
    /// they are not limited.
    pub used: u64,
}

/// A finished work, for comparison with a path of the network. Its tick is the
/// common one.
#[derive(Clone, Copy, Debug, PartialEq, Eq)]
pub enum Event {
    /// Internal work was finished.
    Done {
        /// The node that worked.
        node: u8,
        /// When it finished.
        tick: u32,
    },
    /// A listen was finished without a message.
    Timeout {
        /// The node that listened.
        node: u8,
        /// When it finished.
        tick: u32,
    },
    /// "A send finishes its listener's statement too, a message between the
    /// two".
    Message {
        /// The node that sent.
        sender: u8,
        /// The node that listened.
        receiver: u8,
        /// The channel of the message.
        channel: u8,
        /// When both finished.
        tick: u32,
    },
}

/// A run with all that it left.
#[derive(Clone, Debug, PartialEq, Eq)]
pub struct Run {
    /// How it ended.
    pub outcome: Outcome,
    /// "They stand in finishing order."
    pub observations: Vec<[u8; OBSERVATION]>,
    /// The finished works, in finishing order.
    pub log: Vec<Event>,
}

/// Runs the program of an accepted table. The schedule serves lateness alone;
/// the table gives the counts of clocks and variables. Nothing for a program
/// whose parts cannot be opened.
pub fn run(table: &Table, passages: &[Passage], program: &[u8], choices: &[u8]) -> Option<Run> {
    run_apart(table, passages, program, choices, &[])
}

/// The same with "an offset for each node: until that tick its clock stands at 0
/// and choosing it isn't allowed".
pub fn run_apart(
    table: &Table,
    passages: &[Passage],
    program: &[u8],
    choices: &[u8],
    offsets: &[u32],
) -> Option<Run> {
    let mut machine = Machine::apart(table, passages, program, offsets)?;
    let (mut observations, mut log) = (Vec::new(), Vec::new());
    let outcome = drive(&mut machine, choices, |machine, happening| {
        let tick = machine.tick();
        match happening {
            Happening::Slept { node } => observations.push(machine.observation(node)),
            Happening::Done { node } => log.push(Event::Done { node, tick }),
            Happening::Timeout { node } => log.push(Event::Timeout { node, tick }),
            Happening::Message {
                sender,
                receiver,
                channel,
            } => log.push(Event::Message {
                sender,
                receiver,
                channel,
                tick,
            }),
            Happening::Own | Happening::Ticked { .. } => {}
        }
    });
    Some(Run {
        outcome,
        observations,
        log,
    })
}

/// The same run as [`run`] with its observations written into lent bytes, and
/// their count. The bytes must hold [`OBSERVATION`] bytes for each passage.
pub fn run_into(
    table: &Table,
    passages: &[Passage],
    program: &[u8],
    choices: &[u8],
    bytes: &mut [u8],
) -> Option<(Outcome, usize)> {
    run_apart_into(table, passages, program, choices, &[], bytes)
}

/// The same of [`run_apart`].
pub fn run_apart_into(
    table: &Table,
    passages: &[Passage],
    program: &[u8],
    choices: &[u8],
    offsets: &[u32],
    bytes: &mut [u8],
) -> Option<(Outcome, usize)> {
    let machine = Machine::apart(table, passages, program, offsets)?;
    Some(drive_into(machine, choices, bytes))
}

/// The same to a horizon "handed to the run" (document 02, wish 14), with the schedule
/// to it.
pub fn run_to_into(
    table: &Table,
    readies: Readies,
    program: &[u8],
    choices: &[u8],
    horizon: u32,
    bytes: &mut [u8],
) -> Option<(Outcome, usize)> {
    let machine = Machine::to(table, readies, program, horizon)?;
    Some(drive_into(machine, choices, bytes))
}

/// Carries out choices, writes the observations and gives how the run ended and their
/// count.
fn drive_into(mut machine: Machine, choices: &[u8], bytes: &mut [u8]) -> (Outcome, usize) {
    let mut count = 0;
    let mut places = bytes.chunks_exact_mut(OBSERVATION);
    let outcome = drive(&mut machine, choices, |machine, happening| {
        if let Happening::Slept { node } = happening {
            let place = places.next().expect("a place for each passage");
            place.copy_from_slice(&machine.observation(node));
            count += 1;
        }
    });
    (outcome, count)
}

/// Carries out choices until the run ends: "Not allowed comes before late,
/// late before horizon, horizon before used up." "The horizon stays on the common
/// tick."
pub fn drive(
    machine: &mut Machine,
    choices: &[u8],
    mut visit: impl FnMut(&Machine, Happening),
) -> Outcome {
    let mut used = 0;
    for &choice in choices {
        let Some(happening) = machine.choose(choice) else {
            return outcome(machine, End::NotAllowed, NO_COMPONENT, used);
        };
        used += 1;
        visit(machine, happening);
        if let Happening::Ticked { late } = happening {
            if let Some(node) = late {
                return outcome(machine, End::Late, node, used);
            }
            if machine.tick() == machine.horizon() {
                return outcome(machine, End::Horizon, NO_COMPONENT, used);
            }
        }
    }
    outcome(machine, End::UsedUp, NO_COMPONENT, used)
}

fn outcome(machine: &Machine, end: End, node: u8, used: u64) -> Outcome {
    Outcome {
        end,
        node,
        tick: machine.tick(),
        used,
    }
}
