//! Cases for nodes that wake apart: tables accepted at a spread, offsets, choices
//! and what the second implementation answers.
#![allow(dead_code)]

use comparison::random::Random;
use comparison::readers::second_run_apart;
use comparison::runs::choices::{draw_apart, spoil, Manner};
use comparison::runs::Subject;
use comparison::tables::{apart, chains};
use demand::apart::{own_work, Apart, Work};
use demand::path::Path;
use demand::{Claim, LATE, OBSERVATION};
use reference::program::{program, Op};
use reference::run::{drive, run_apart, Happening, Machine, Outcome};
use reference::schedule::Passage;
use reference::table::{write_table, Table};
use timed_network::RunNumbers;

/// What a run says.
#[derive(Clone, Debug, PartialEq, Eq)]
pub struct Answer {
    pub end: u8,
    pub node: u8,
    pub tick: u32,
    pub used: u32,
    pub observations: Vec<u8>,
}

impl Answer {
    fn new(outcome: Outcome, observations: Vec<u8>) -> Answer {
        Answer {
            end: outcome.end as u8,
            node: outcome.node,
            tick: outcome.tick,
            used: outcome.used as u32,
            observations,
        }
    }

    pub fn claim(&self) -> Claim<'_> {
        Claim {
            end: self.end,
            node: self.node,
            tick: self.tick,
            used: self.used,
            observations: &self.observations,
        }
    }
}

/// A run with its answer.
pub struct Case<'a> {
    pub subject: &'a Subject,
    pub spread: u32,
    pub offsets: Vec<u32>,
    pub choices: Vec<u8>,
    pub answer: Answer,
}

impl Case<'_> {
    /// The case in words.
    pub fn told(&self) -> String {
        format!(
            "table {:?}\nspread {}, offsets {:?}, choices {:?}\n{:?}",
            self.subject.bytes, self.spread, self.offsets, self.choices, self.answer
        )
    }

    pub fn offset(&self, node: u8) -> u32 {
        self.offsets.get(usize::from(node)).copied().unwrap_or(0)
    }

    pub fn own_clock(&self, node: u8, tick: u32) -> u32 {
        tick.saturating_sub(self.offset(node))
    }

    /// Holds the second implementation's answer to the demand.
    pub fn hold(&self) -> Result<Apart, String> {
        let demand = self.subject.demand();
        demand.hold_apart(&self.choices, &self.offsets, &self.answer.claim())
    }

    /// Holds another answer to it.
    pub fn hold_to(&self, answer: &Answer) -> Result<(), String> {
        let demand = self.subject.demand();
        let held = demand.hold_apart(&self.choices, &self.offsets, &answer.claim());
        held.map(|_| ())
    }

    /// The nodes' own clocks at the end of the path.
    fn clocks(&self) -> Vec<u32> {
        let tick = self.answer.tick - u32::from(self.answer.end == LATE);
        self.subject.demand().clocks(&self.offsets, tick)
    }

    /// The path of the works with ticks as this gives them.
    pub fn path_by(&self, tick: impl Fn(&Work) -> Work) -> Result<(), String> {
        let works: Vec<Work> = self.hold()?.works.iter().map(tick).collect();
        let demand = self.subject.demand();
        let found = demand.path_of(&works, &self.clocks());
        found.map(|_| ())
    }

    /// The works in the run's order, at the ticks of the path.
    pub fn own_works(&self) -> Vec<Work> {
        let works = self.hold().unwrap().works;
        let own = |work: &Work| own_work(&self.offsets, work);
        works.iter().map(own).collect()
    }

    /// Follows works in this order, with nothing else, to the leading clock.
    pub fn follow(&self, works: &[Work]) -> Result<(), String> {
        let Subject {
            table, passages, ..
        } = self.subject;
        let own = own(table, passages);
        let mut path = Path::new(table, &own)?;
        for work in works {
            tick_to(&mut path, work.tick)?;
            match work.message {
                None => path.alone(work.node)?,
                Some((receiver, channel)) => path.joint(work.node, receiver, channel)?,
            }
        }
        let leading = self.clocks().into_iter().max().unwrap();
        tick_to(&mut path, leading)?;
        path.finish(table.horizon.into()).map(|_| ())
    }

    /// The answer with the common tick in its observations.
    pub fn with_common_ticks(&self) -> Answer {
        let mut answer = self.answer.clone();
        for bytes in answer.observations.chunks_mut(OBSERVATION) {
            let own = u32::from_be_bytes(bytes[4..8].try_into().unwrap());
            let common = own + self.offset(bytes[0]);
            bytes[4..8].copy_from_slice(&common.to_be_bytes());
        }
        answer
    }

    /// The answer of a machine that takes a node's ready and its window's end for
    /// common ticks when it judges whether it is late.
    pub fn late_by_the_common_tick(&self) -> Answer {
        let Subject {
            table, passages, ..
        } = self.subject;
        let own = own(table, passages);
        let bytes = program(table);
        let mut machine = Machine::apart(table, passages, &bytes, &self.offsets).unwrap();
        let mut sleeps = vec![0; own.len()];
        let mut wrong = None;
        let mut observations = Vec::new();
        let mut used = 0;
        let outcome = drive(&mut machine, &self.choices, |machine, happening| {
            if wrong.is_some() {
                return;
            }
            used += 1;
            match happening {
                Happening::Slept { node } => {
                    sleeps[usize::from(node)] += 1;
                    observations.extend(machine.observation(node));
                }
                Happening::Ticked { .. } => {
                    let is_late = |node: &usize| late(machine, *node, &own[*node][sleeps[*node]..]);
                    let node = (0..own.len()).find(is_late);
                    wrong = node.map(|node| (node as u8, machine.tick(), used));
                }
                _ => {}
            }
        });
        match wrong {
            None => Answer::new(outcome, observations),
            Some((node, tick, used)) => Answer {
                end: LATE,
                node,
                tick,
                used,
                observations,
            },
        }
    }
}

/// A refused run as it is, another one as this says.
pub fn changed(
    (table, choices, spread, offsets): (&[u8], &[u8], u32, &[u32]),
    bytes: &mut [u8],
    change: impl FnOnce(&Case) -> Answer,
) -> RunNumbers {
    let mut own = bytes.to_vec();
    let right = second_run_apart(table, choices, spread, offsets, &mut own);
    let Some(subject) = Subject::within(table, spread).filter(|_| right.number == 0) else {
        return right;
    };
    let written = right.size as usize * OBSERVATION;
    let answer = change(&Case {
        subject: &subject,
        spread,
        offsets: offsets.to_vec(),
        choices: choices.to_vec(),
        answer: Answer {
            end: right.end,
            node: right.node,
            tick: right.tick,
            used: right.used,
            observations: own[..written].to_vec(),
        },
    });
    bytes[..answer.observations.len()].copy_from_slice(&answer.observations);
    RunNumbers {
        number: 0,
        component: 255,
        end: answer.end,
        node: answer.node,
        tick: answer.tick,
        used: answer.used,
        size: (answer.observations.len() / OBSERVATION) as u32,
    }
}

/// Whether a node with these passages to come is late by the common tick.
fn late(machine: &Machine, number: usize, coming: &[&Passage]) -> bool {
    let node = &machine.nodes()[number];
    if node.registers.working {
        return machine.tick() > node.window_end();
    }
    let sleeps = node.statement().is_some_and(|s| s.op == Op::Sleep);
    let over = coming.first().is_some_and(|p| machine.tick() > p.ready);
    over && !sleeps
}

/// The passages of each component.
fn own<'a>(table: &Table, passages: &'a [Passage]) -> Vec<Vec<&'a Passage>> {
    let of = |c: usize| {
        passages
            .iter()
            .filter(move |p| usize::from(p.component) == c)
    };
    let components = 0..table.components.len();
    components.map(|c| of(c).collect()).collect()
}

fn tick_to(path: &mut Path, tick: u32) -> Result<(), String> {
    while path.reached() < tick {
        path.tick()?;
    }
    Ok(())
}

/// A table that may be accepted at a spread: a chain or a plan.
fn drawn(random: &mut Random, spread: u32) -> Table {
    match random.once_in(2) {
        true => apart::planned(random, spread),
        false => chains::drawn(random, spread).table(),
    }
}

/// Offsets of 0 and of one more than the spread, both among them.
pub fn above(random: &mut Random, spread: u32, nodes: usize) -> Vec<u32> {
    let mut offsets: Vec<u32> = (0..nodes).map(|_| random.pick(&[0, spread + 1])).collect();
    offsets[0] = spread + 1;
    offsets[nodes - 1] = 0;
    random.shuffle(&mut offsets);
    offsets
}

/// Calls a test with so many runs of tables accepted at a spread.
pub fn for_each_case(
    seed: u64,
    runs: usize,
    offsets: impl Fn(&mut Random, u32, usize) -> Vec<u32>,
    mut test: impl FnMut(&Case),
) {
    let mut random = Random::new(seed);
    let mut count = 0;
    while count < runs {
        let spread = random.pick(&[0, 1, 1, 2, 2, 3, 3, 7]);
        let bytes = write_table(&drawn(&mut random, spread));
        let Some(subject) = Subject::within(&bytes, spread) else {
            continue;
        };
        for manner in Manner::ALL {
            let nodes = subject.table.components.len();
            let offsets = offsets(&mut random, spread, nodes);
            let choices = list(&mut random, &subject, &offsets, manner);
            let answer = answer(&subject, &choices, &offsets);
            test(&Case {
                subject: &subject,
                spread,
                offsets,
                choices,
                answer,
            });
            count += 1;
        }
    }
}

/// A list of choices, spoilt half of the time.
fn list(random: &mut Random, subject: &Subject, offsets: &[u32], manner: Manner) -> Vec<u8> {
    let demand = subject.demand();
    let mut choices = draw_apart(random, &demand, offsets, manner, 3000);
    if random.once_in(2) {
        spoil(random, subject.table.components.len(), &mut choices);
    }
    choices
}

fn answer(subject: &Subject, choices: &[u8], offsets: &[u32]) -> Answer {
    let Subject {
        table, passages, ..
    } = subject;
    let run = run_apart(table, passages, &program(table), choices, offsets).unwrap();
    Answer::new(run.outcome, run.observations.concat())
}
