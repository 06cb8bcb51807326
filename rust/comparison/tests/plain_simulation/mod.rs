//! A simulation of its own over the nodes of the second implementation, with a fault to
//! be found.
#![allow(dead_code)]

use comparison::readers::{refused_simulation, second_simulate};
use comparison::simulations::Experiment;
use reference::checks::verdict;
use reference::program::{program, Op};
use reference::run::{Happening, Machine, TICK};
use timed_network::SimulationNumbers;

/// What is wrong.
#[derive(Clone, Copy, Debug, PartialEq, Eq)]
pub enum Fault {
    /// Nothing.
    None,
    /// The state before the shifts is drawn.
    DrawsStateBefore,
    /// The last shift is by 7.
    LastShiftBy7,
    /// The second shift is to the left.
    SecondShiftLeft,
    /// The least ticks of work are not added.
    LoForgotten,
    /// hi itself is never drawn.
    HiNeverDrawn,
    /// Work is counted from the tick after its sleep.
    WorkFromNextTick,
    /// A tick is drawn before a listen too.
    DrawsBeforeListen,
    /// No tick is drawn before a send.
    NoDrawBeforeSend,
    /// No tick is drawn before internal work.
    NoDrawBeforeInternal,
    /// A send is made at once.
    SendsAtOnce,
    /// Internal work is done at once.
    DoneAtOnce,
    /// Each node has a generator of its own.
    GeneratorPerNode,
    /// Nodes take their turns from the last to the first.
    FromLastToFirst,
    /// A node finishes one statement in its turn.
    OneStatementATurn,
    /// The generator starts anew in each run.
    SameSeedForEachRun,
    /// The given seed is not taken.
    FixedSeedAlways,
    /// The highest late node is counted.
    HighestLateNode,
    /// Each late node is counted.
    AllLateNodes,
    /// Late runs are counted for node 0.
    CountedForNode0,
    /// Only the last run is counted.
    LastRunOnly,
    /// No run is counted.
    AllInTime,
    /// A run at the horizon is not late.
    HorizonBeforeLate,
    /// Work that is not finished at the end of its window is late there.
    LateAtEnd,
    /// Nodes move at the horizon.
    MovesAtHorizon,
    /// One run too few.
    OneRunLess,
    /// The seed is told in the place of the generator.
    SeedTold,
}

/// Counts the late ones of so many runs. What is refused is refused rightly.
pub fn simulate(bytes: &[u8], experiment: &Experiment, fault: Fault) -> SimulationNumbers {
    let right = second_simulate(bytes, experiment);
    let (0, Ok((table, passages))) = (right.number, verdict(bytes)) else {
        return right;
    };
    let start = match fault {
        Fault::FixedSeedAlways => 2_463_534_242,
        _ => experiment.start(),
    };
    let mut answer = refused_simulation(0, 255);
    let program = program(&table);
    let mut states = [start; 8];
    let runs = experiment.runs - u32::from(fault == Fault::OneRunLess);
    for number in 0..runs {
        if fault == Fault::SameSeedForEachRun {
            states = [start; 8];
        }
        let machine = Machine::new(&table, &passages, &program);
        let mut nodes = Nodes {
            machine: machine.expect("the program of an accepted table can be opened"),
            over: [0; 8],
            states,
            experiment,
            fault,
        };
        let late = nodes.run();
        states = nodes.states;
        let counted = match fault {
            Fault::LastRunOnly => number + 1 == runs,
            Fault::AllInTime => false,
            _ => true,
        };
        if counted {
            count(&mut answer, late, fault);
        }
    }
    answer.state = match fault {
        Fault::SeedTold => start,
        _ => states[0],
    };
    answer
}

/// Counts a run by the bits of its late nodes.
fn count(answer: &mut SimulationNumbers, late: u8, fault: Fault) {
    if late == 0 {
        return;
    }
    answer.late += 1;
    let node = match fault {
        Fault::HighestLateNode => 7 - late.leading_zeros(),
        Fault::CountedForNode0 => 0,
        _ => late.trailing_zeros(),
    };
    for number in 0..8 {
        let own = number == node || fault == Fault::AllLateNodes && late >> number & 1 == 1;
        answer.nodes[number as usize] += u32::from(own);
    }
}

/// The nodes of a run under way.
struct Nodes<'a> {
    machine: Machine<'a>,
    over: [u32; 8],
    /// The generators' states; all nodes have that of node 0, unless each has its own.
    states: [u32; 8],
    experiment: &'a Experiment,
    fault: Fault,
}

impl Nodes<'_> {
    /// The bits of the late nodes, 0 at the horizon.
    fn run(&mut self) -> u8 {
        loop {
            self.finish_all();
            let late = self.late_by_next_tick();
            let Some(Happening::Ticked { late: lowest }) = self.machine.choose(TICK) else {
                panic!("the tick is not allowed");
            };
            let horizon = self.machine.tick() == self.machine.horizon();
            if horizon && self.fault == Fault::HorizonBeforeLate {
                return 0;
            }
            if let Some(lowest) = lowest {
                return late | 1 << lowest;
            }
            if horizon {
                if self.fault == Fault::MovesAtHorizon {
                    self.finish_all();
                }
                return 0;
            }
            if self.fault == Fault::LateAtEnd && self.late_by_next_tick() != 0 {
                return self.late_by_next_tick();
            }
        }
    }

    fn finish_all(&mut self) {
        let count = self.machine.nodes().len();
        let mut moved = true;
        while moved {
            moved = false;
            for turn in 0..count {
                let number = match self.fault {
                    Fault::FromLastToFirst => count - 1 - turn,
                    _ => turn,
                };
                while self.finish_one(number) {
                    moved = true;
                    if self.fault == Fault::OneStatementATurn {
                        break;
                    }
                }
            }
        }
    }

    fn finish_one(&mut self, number: usize) -> bool {
        let waits = match self.op(number) {
            Op::Send => self.fault != Fault::SendsAtOnce,
            Op::Done => self.fault != Fault::DoneAtOnce,
            _ => false,
        };
        if waits && self.machine.tick() < self.over[number] {
            return false;
        }
        match self.machine.choose(number as u8) {
            Some(Happening::Slept { .. }) => {
                self.draw(number);
                true
            }
            happening => happening.is_some(),
        }
    }

    /// What is drawn behind a sleep.
    fn draw(&mut self, number: usize) {
        let tick = self.machine.tick();
        let undrawn = match self.op(number) {
            Op::Listen => self.fault != Fault::DrawsBeforeListen,
            Op::Send => self.fault == Fault::NoDrawBeforeSend,
            _ => self.fault == Fault::NoDrawBeforeInternal,
        };
        if undrawn {
            self.over[number] = tick;
            return;
        }
        let own = match self.fault {
            Fault::GeneratorPerNode => number,
            _ => 0,
        };
        let (before, after) = (self.states[own], shifted(self.states[own], self.fault));
        self.states[own] = after;
        let drawn = match self.fault {
            Fault::DrawsStateBefore => before,
            _ => after,
        };
        self.over[number] = tick + self.ticks(drawn);
    }

    /// The ticks of work for a number drawn.
    fn ticks(&self, drawn: u32) -> u32 {
        let Experiment { lo, hi, .. } = *self.experiment;
        let span = match self.fault {
            Fault::HiNeverDrawn => (hi - lo).max(1),
            _ => hi - lo + 1,
        };
        match self.fault {
            Fault::LoForgotten => drawn % span,
            Fault::WorkFromNextTick => lo + drawn % span + 1,
            _ => lo + drawn % span,
        }
    }

    /// The nodes whose window ends at this tick with their work unfinished, as bits.
    fn late_by_next_tick(&self) -> u8 {
        let nodes = self.machine.nodes().iter().enumerate();
        let late = nodes.filter(|(number, node)| {
            let ended = node.window_end() <= self.machine.tick();
            node.registers.working && ended && self.op(*number) != Op::Listen
        });
        late.fold(0, |bits, (number, _)| bits | 1 << number)
    }

    fn op(&self, number: usize) -> Op {
        self.machine.nodes()[number].statement().unwrap().op
    }
}

/// The three shifts.
fn shifted(mut state: u32, fault: Fault) -> u32 {
    state ^= state << 13;
    state ^= match fault {
        Fault::SecondShiftLeft => state << 17,
        _ => state >> 17,
    };
    state ^= match fault {
        Fault::LastShiftBy7 => state << 7,
        _ => state << 5,
    };
    state
}
