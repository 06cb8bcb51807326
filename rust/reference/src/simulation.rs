//! Runs with drawn work times: document 02's wish 10, tick by tick.

use crate::program::{program, Op};
use crate::run::{End, Happening, Machine, Outcome, TICK};
use crate::schedule::Passage;
use crate::table::{Refusal, Table, MAX_COMPONENTS, NO_COMPONENT};
use std::fmt;

/// "hi above 60,000 [...] with 23".
pub const MAX_WORK: u32 = 60_000;
/// "runs outside 1 to 10,000".
pub const RUNS: std::ops::RangeInclusive<u32> = 1..=10_000;

/// "Marsaglia's 32-bit xorshift (13, 17, 5)".
#[derive(Clone, Copy, Debug, PartialEq, Eq)]
pub struct Generator {
    state: u32,
}

impl Generator {
    /// "its fixed seed 2463534242".
    pub const SEED: u32 = 2_463_534_242;

    /// "the generator starts from its fixed seed [...] unless one is given".
    pub fn new() -> Generator {
        Generator::seeded(Generator::SEED)
    }

    /// A generator that starts from another seed.
    pub fn seeded(seed: u32) -> Generator {
        Generator { state: seed }
    }

    /// The number drawn last, the seed before the first one.
    pub fn state(&self) -> u32 {
        self.state
    }

    /// Draws a number: the state after the three shifts.
    pub fn draw(&mut self) -> u32 {
        self.state ^= self.state << 13;
        self.state ^= self.state >> 17;
        self.state ^= self.state << 5;
        self.state
    }
}

impl Default for Generator {
    fn default() -> Generator {
        Generator::new()
    }
}

/// The least and the greatest number of ticks that work may take.
#[derive(Clone, Copy, Debug, PartialEq, Eq)]
pub struct WorkTimes {
    /// The least.
    pub lo: u32,
    /// The greatest.
    pub hi: u32,
}

impl WorkTimes {
    /// "lo + (draw modulo (hi − lo + 1)) ticks of work".
    fn drawn(&self, generator: &mut Generator) -> u32 {
        self.lo + generator.draw() % (self.hi - self.lo + 1)
    }
}

/// "seed 0 is refused with 22, and lo above hi, hi above 60,000 or runs outside 1 to
/// 10,000 with 23."
pub fn check_request(work: &WorkTimes, runs: u32, seed: Option<u32>) -> Result<(), Refusal> {
    if seed == Some(0) {
        return Err(Refusal::whole(22));
    }
    if work.lo > work.hi || work.hi > MAX_WORK || !RUNS.contains(&runs) {
        return Err(Refusal::whole(23));
    }
    Ok(())
}

/// What simulated runs came to. "Reported are the runs that ended late, in all and
/// per node."
#[derive(Clone, Debug, PartialEq, Eq)]
pub struct Simulation {
    /// The runs that ended late.
    pub late: u32,
    /// For each node those that ended with its number, the lowest late one.
    pub nodes: Vec<u32>,
    /// The generator after the last run.
    pub generator: Generator,
}

/// As the vectors write it.
impl fmt::Display for Simulation {
    fn fmt(&self, out: &mut fmt::Formatter<'_>) -> fmt::Result {
        write!(out, "{}", self.late)?;
        for count in &self.nodes {
            write!(out, " {count}")?;
        }
        write!(out, "|state {}", self.generator.state())
    }
}

/// One simulated run: "Each is proved to be a run of some choice list".
#[derive(Clone, Debug, PartialEq, Eq)]
pub struct SimulatedRun {
    /// All choices carried out, the last tick included.
    pub choices: Vec<u8>,
    /// How it ended: late or at the horizon.
    pub outcome: Outcome,
}

/// Simulated runs of an accepted table, one after the other.
#[derive(Clone, Debug)]
pub struct Simulator<'a> {
    table: &'a Table,
    passages: &'a [Passage],
    program: Vec<u8>,
    work: WorkTimes,
    /// It "goes on from run to run".
    generator: Generator,
}

impl<'a> Simulator<'a> {
    /// No run yet. The work times must have passed [`check_request`].
    pub fn new(
        table: &'a Table,
        passages: &'a [Passage],
        work: WorkTimes,
        generator: Generator,
    ) -> Simulator<'a> {
        Simulator {
            table,
            passages,
            program: program(table),
            work,
            generator,
        }
    }

    /// The generator after the runs so far.
    pub fn generator(&self) -> Generator {
        self.generator
    }

    /// The next run.
    pub fn run(&mut self) -> SimulatedRun {
        let machine = Machine::new(self.table, self.passages, &self.program);
        let mut nodes = Nodes {
            machine: machine.expect("the program of an accepted table can be opened"),
            over: [0; MAX_COMPONENTS],
            choices: Vec::new(),
            work: self.work,
            generator: &mut self.generator,
        };
        loop {
            nodes.finish_all();
            if let Some(outcome) = nodes.pass_tick() {
                let choices = nodes.choices;
                return SimulatedRun { choices, outcome };
            }
        }
    }
}

/// So many simulated runs of an accepted table.
pub fn simulate(
    table: &Table,
    passages: &[Passage],
    work: WorkTimes,
    runs: u32,
    seed: Option<u32>,
) -> Result<Simulation, Refusal> {
    check_request(&work, runs, seed)?;
    let generator = seed.map_or(Generator::new(), Generator::seeded);
    let mut simulator = Simulator::new(table, passages, work, generator);
    let mut nodes = vec![0; table.components.len()];
    let mut late = 0;
    for _ in 0..runs {
        let outcome = simulator.run().outcome;
        if outcome.end == End::Late {
            late += 1;
            nodes[usize::from(outcome.node)] += 1;
        }
    }
    Ok(Simulation {
        late,
        nodes,
        generator: simulator.generator(),
    })
}

/// The choices of a run by its number, from 0, among so many as a simulation may have.
pub fn choices_of_run(
    table: &Table,
    passages: &[Passage],
    work: WorkTimes,
    number: u32,
    seed: Option<u32>,
) -> Result<Vec<u8>, Refusal> {
    check_request(&work, number.saturating_add(1), seed)?;
    let generator = seed.map_or(Generator::new(), Generator::seeded);
    let mut simulator = Simulator::new(table, passages, work, generator);
    for _ in 0..number {
        simulator.run();
    }
    Ok(simulator.run().choices)
}

/// The nodes of a run under way.
struct Nodes<'a, 'g> {
    machine: Machine<'a>,
    /// For each node the tick at which the work drawn last is over.
    over: [u32; MAX_COMPONENTS],
    choices: Vec<u8>,
    work: WorkTimes,
    generator: &'g mut Generator,
}

impl Nodes<'_, '_> {
    /// "In each tick, components in number order each finish all that is due and
    /// allowed [...]; this is repeated until no component moves".
    fn finish_all(&mut self) {
        let mut moved = true;
        while moved {
            moved = false;
            for number in 0..self.machine.nodes().len() {
                while self.finish_one(number) {
                    moved = true;
                }
            }
        }
    }

    /// A node finishes its statement, if that is due and allowed: "drawn work with its
    /// last statement, everything else with no delay".
    fn finish_one(&mut self, number: usize) -> bool {
        let ends_work = self.stands_at(number, Op::Send) || self.stands_at(number, Op::Done);
        if ends_work && self.machine.tick() < self.over[number] {
            return false;
        }
        let Some(happening) = self.choose(number as u8) else {
            return false;
        };
        let slept = matches!(happening, Happening::Slept { .. });
        if slept && !self.stands_at(number, Op::Listen) {
            self.draw(number);
        }
        true
    }

    /// "Each finished sleep before a send or an internal edge draws [...] ticks of
    /// work".
    fn draw(&mut self, number: usize) {
        self.over[number] = self.machine.tick() + self.work.drawn(self.generator);
    }

    /// "then the tick passes": how the run ends with it, if it does.
    fn pass_tick(&mut self) -> Option<Outcome> {
        let happening = self.choose(TICK);
        let Some(Happening::Ticked { late }) = happening else {
            panic!("a sleep or a listen that is due is finished before the tick");
        };
        let end = match late {
            Some(_) => End::Late,
            None if self.machine.tick() == self.machine.horizon() => End::Horizon,
            None => return None,
        };
        Some(Outcome {
            end,
            node: late.unwrap_or(NO_COMPONENT),
            tick: self.machine.tick(),
            used: self.choices.len() as u64,
        })
    }

    /// Carries out a choice and notes it, if it is allowed.
    fn choose(&mut self, choice: u8) -> Option<Happening> {
        let happening = self.machine.choose(choice)?;
        self.choices.push(choice);
        Some(happening)
    }

    /// Whether a node stands at a statement with this op.
    fn stands_at(&self, number: usize, op: Op) -> bool {
        let statement = self.machine.nodes()[number].statement();
        statement.is_some_and(|statement| statement.op == op)
    }
}
