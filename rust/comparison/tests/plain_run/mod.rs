//! A third implementation of the run, as short as can be and without any
//! haste, with places at which it can be made wrong.

mod node;

use node::Node;
use reference::checks::verdict;
use reference::program::{part_bytes, program};
use timed_network::RunNumbers;

/// What is wrong with it.
#[derive(Clone, Copy, Debug, PartialEq, Eq)]
pub enum Fault {
    None,
    // The choice of an edge.
    TieToLastTried,
    WindowOfOneTick,
    LowForgotten,
    HighForgotten,
    DataForgotten,
    BudgetForgotten,
    BudgetOneTickMore,
    BudgetOneTickLess,
    BudgetFromEntry,
    FailureForgotten,
    KeptNeverForgotten,
    // From one passage to the next.
    EntersWhenWorkFinishes,
    ReadyFromWorkOn,
    AgesByWindow,
    AgesByReady,
    ZeroForgotten,
    ClocksOf16Bits,
    PairedForgotten,
    PairedNeverForgotten,
    PairsRun,
    // What is allowed.
    SleepsShorter,
    ListensShorter,
    TickWhileSleepDue,
    TickWhileListenDue,
    AbsentNodeWaits,
    OtherByteIsTick,
    ListenerListensOn,
    // Late.
    NeverLateAtWork,
    NeverLateForSleep,
    LateAtEnd,
    LateOneTickLater,
    LateOnceWorkIsDone,
    HighestLateNode,
    LateBeforeNotAllowed,
    HorizonBeforeLate,
    LateTickNotCounted,
    // The end.
    UsedUpBeforeHorizon,
    GoesOnBehindHorizon,
    HorizonOneTickLater,
    ForbiddenIsCounted,
    NodeOfForbidden,
    // Observations.
    ClocksAtEntry,
    ClocksAtEnd,
    AbsentClocksGrow,
    DestinationShown,
    WrittenAfterWork,
    VariablesLittleEndian,
    // Finish ticks.
    FirstFinish0,
    FinishOfTheFirstUpdate,
    FinishAtReady,
    FinishAtEnd,
    FinishNotNotedForTimeout,
    FinishNotNotedForMessage,
    FinishOfTheWorkBefore,
    FinishLittleEndian,
    RoomFor32Bytes,
}

/// The bytes of an observation.
const WIDTH: usize = 36;

/// The run under way.
struct Run {
    nodes: Vec<Node>,
    /// The readies of each node's passages in the schedule.
    readies: Vec<Vec<i64>>,
    tick: i64,
    used: u32,
    fault: Fault,
}

/// The call `run`.
pub fn run(bytes: &[u8], choices: &[u8], lent: &mut [u8], fault: Fault) -> RunNumbers {
    let (table, passages) = match verdict(bytes) {
        Ok(accepted) => accepted,
        Err(refusal) => return refused(refusal.number, refusal.component),
    };
    let asked = match fault {
        Fault::RoomFor32Bytes => 32,
        _ => WIDTH,
    };
    if lent.len() < asked * passages.len() {
        return refused(13, 255);
    }
    if choices.len() > 1_000_000 {
        return refused(14, 255);
    }
    let program = program(&table);
    let numbers = 0..table.components.len();
    let node = |c| Node::new(part_bytes(&program, c), table.components[c].clocks, fault);
    let own = |c: usize| {
        passages
            .iter()
            .filter(move |p| usize::from(p.component) == c)
    };
    let mut run = Run {
        nodes: numbers.clone().map(node).collect(),
        readies: numbers
            .map(|c| own(c).map(|p| p.ready.into()).collect())
            .collect(),
        tick: 0,
        used: 0,
        fault,
    };
    let (end, late) = run.carry_out(choices, i64::from(table.horizon));
    run.answer(end, late, lent)
}

fn refused(number: u8, component: u8) -> RunNumbers {
    RunNumbers {
        number,
        component,
        end: 0,
        node: 255,
        tick: 0,
        used: 0,
        size: 0,
    }
}

impl Run {
    fn answer(self, end: u8, node: u8, lent: &mut [u8]) -> RunNumbers {
        let mut all: Vec<(usize, [u8; WIDTH])> = Vec::new();
        for (number, node) in self.nodes.iter().enumerate() {
            for (when, mut bytes) in node.written.iter().copied() {
                bytes[0] = number as u8;
                all.push((when, bytes));
            }
        }
        all.sort_by_key(|(when, _)| *when);
        let places = lent.chunks_exact_mut(WIDTH);
        for (place, (_, bytes)) in places.zip(&all) {
            place.copy_from_slice(bytes);
        }
        RunNumbers {
            number: 0,
            component: 255,
            end,
            node,
            tick: self.tick as u32,
            used: self.used,
            size: all.len() as u32,
        }
    }

    /// How the run ends, and with which node.
    fn carry_out(&mut self, choices: &[u8], horizon: i64) -> (u8, u8) {
        let horizon = horizon + i64::from(self.fault == Fault::HorizonOneTickLater);
        for (index, &choice) in choices.iter().enumerate() {
            let strange = choice > 7 && self.fault == Fault::OtherByteIsTick;
            let allowed = match choice {
                255 => self.may_tick(),
                _ if strange => self.may_tick(),
                node => self.finish(usize::from(node)),
            };
            if !allowed {
                self.used += u32::from(self.fault == Fault::ForbiddenIsCounted);
                let shown = self.fault == Fault::NodeOfForbidden && choice < 8;
                return (3, if shown { choice } else { 255 });
            }
            self.used += 1;
            if choice == 255 || strange {
                if let Some(end) = self.tick(horizon) {
                    let last = index + 1 == choices.len() && end.0 == 0;
                    match self.fault {
                        Fault::UsedUpBeforeHorizon if last => return (1, 255),
                        Fault::GoesOnBehindHorizon if end.0 == 0 => {}
                        _ => return end,
                    }
                }
            }
        }
        (1, 255)
    }

    fn may_tick(&self) -> bool {
        let due = |node: &Node| match node.op() {
            0 => node.t == self.tick && self.fault != Fault::TickWhileSleepDue,
            5 => node.t + node.d == self.tick && self.fault != Fault::TickWhileListenDue,
            _ => false,
        };
        let late =
            self.fault == Fault::LateBeforeNotAllowed && !self.late(self.tick + 1).is_empty();
        late || !self.nodes.iter().any(due)
    }

    fn late(&self, now: i64) -> Vec<usize> {
        let now = now + i64::from(self.fault == Fault::LateAtEnd)
            - i64::from(self.fault == Fault::LateOneTickLater);
        let is_late = |number: &usize| {
            let node = &self.nodes[*number];
            let ready = self.readies[*number].get(node.sleeps);
            match (node.op(), self.fault) {
                (0, _) => false,
                (1..=5, Fault::NeverLateAtWork) => false,
                (1..=5, _) => node.t + node.d < now,
                (_, Fault::NeverLateForSleep) => false,
                (_, Fault::LateOnceWorkIsDone) => node.t + node.d < now,
                _ => ready.is_some_and(|ready| *ready < now),
            }
        };
        (0..self.nodes.len()).filter(is_late).collect()
    }

    /// A tick that is allowed: whether the run ends, and how.
    fn tick(&mut self, horizon: i64) -> Option<(u8, u8)> {
        self.tick += 1;
        let late = self.late(self.tick);
        let node = match self.fault {
            Fault::HighestLateNode => late.last(),
            _ => late.first(),
        };
        match node {
            Some(_) if self.fault == Fault::HorizonBeforeLate && self.tick == horizon => {
                Some((0, 255))
            }
            Some(node) => {
                let back = self.fault == Fault::LateTickNotCounted;
                self.tick -= i64::from(back);
                self.used -= u32::from(back);
                Some((2, *node as u8))
            }
            None => (self.tick == horizon).then_some((0, 255)),
        }
    }

    /// A node finishes its statement, if it may.
    fn finish(&mut self, number: usize) -> bool {
        let count: usize = self.nodes.iter().map(|node| node.written.len()).sum();
        let Some(node) = self.nodes.get(number) else {
            return self.fault == Fault::AbsentNodeWaits && number < 8;
        };
        if node.op() != 4 {
            return self.nodes[number].finish(self.tick, count);
        }
        let (channel, since) = (node.statement()[1], node.t);
        let hears = |node: &Node| node.names(channel).is_some() && node.t <= since;
        match self.nodes.iter().position(hears) {
            Some(listener) => {
                self.nodes[number].work_done(self.tick, 1);
                if self.fault != Fault::ListenerListensOn {
                    self.nodes[listener].hear(channel, self.tick);
                }
                true
            }
            None => false,
        }
    }
}
