//! Paths of the network that keep to an accepted schedule, and runs of them: the
//! converse of demand 3. Each such path is the path of some run: [`draw`] draws one
//! by the network's rules, [`follow`] finds the choices, and what the library's run
//! of them says and writes is held to the path.
//!
//! What is wrong is told with the name of the field that it breaks: of the record
//! `OnSchedule` for a path, of `RealisesBy` and `RealisesTo` for a run of it.

pub mod draw;
pub mod follow;
mod tally;

pub use tally::Paths;

use super::{alike, broken, claim, Broken, Lent, Ran, Subject};
use crate::readers::Readers;
use demand::apart::Work;
use demand::observed;
use demand::path::Observation;
use demand::{Demand, HORIZON, USED_UP};
use reference::network::{observations_on, passes_as_scheduled, trace, Step, Trace};
use reference::program::program;
use reference::run::{run, Event};
use reference::schedule::Passage;
use reference::table::{Action, Table};

/// A path that keeps to the schedule, and what lies on it.
#[derive(Clone, Debug, PartialEq, Eq)]
pub struct Path {
    /// Its steps.
    pub steps: Vec<Step>,
    /// Where it ends, and its passages.
    pub trace: Trace,
    /// The steps in on it, in their order.
    pub works: Vec<Work>,
}

/// A component's passages in a schedule.
pub fn own(subject: &Subject, component: u8) -> impl Iterator<Item = &Passage> {
    let passages = subject.passages.iter();
    passages.filter(move |passage| passage.component == component)
}

impl Path {
    /// The path of these steps, if the network allows them and they keep to the
    /// schedule of an accepted table.
    pub fn new(subject: &Subject, steps: Vec<Step>) -> Result<Path, String> {
        let trace = trace(&subject.table, &steps)
            .map_err(|place| format!("valid: the network forbids step {place} of {steps:?}"))?;
        if !passes_as_scheduled(&subject.passages, &trace) {
            return Err("scheduled: it does not pass as the schedule says".to_string());
        }
        let path = Path {
            works: works_of(&subject.table, &steps),
            steps,
            trace,
        };
        match path.missed(subject) {
            Some(component) => Err(format!("kept: component {component} misses a window")),
            None => Ok(path),
        }
    }

    /// The tick that it reaches.
    pub fn tick(&self) -> u32 {
        self.trace.state.tick
    }

    /// Whether it reaches the horizon.
    pub fn arrives(&self, subject: &Subject) -> bool {
        self.tick() == u32::from(subject.table.horizon)
    }

    /// A component with a passage in the schedule that has ended and was not stepped
    /// in on the path.
    fn missed(&self, subject: &Subject) -> Option<u8> {
        (0..self.trace.state.places.len() as u8).find(|component| {
            let ended = own(subject, *component).filter(|passage| passage.end < self.tick());
            let visits = self.trace.visits.iter();
            let own = visits.filter(|visit| visit.component == *component);
            own.filter(|visit| visit.step_in.is_some()).count() < ended.count()
        })
    }

    /// What it shows of a component. At the horizon nothing is done any more: there
    /// it is what the path shows up to the tick before.
    fn shown(&self, subject: &Subject, component: u8) -> Vec<Observation> {
        let all = observations_on(&subject.table, &subject.passages, &self.trace, component);
        let done = self.tick() - u32::from(self.arrives(subject));
        let of = |observation: reference::network::Observation| Observation {
            component,
            edge: observation.edge,
            location: observation.location,
            tick: observation.tick,
            clocks: observation.clocks,
            variables: observation.variables,
        };
        let all = all.into_iter().map(of);
        all.filter(|observation| observation.tick <= done).collect()
    }
}

/// The steps in among steps, in their order, with their ticks.
fn works_of(table: &Table, steps: &[Step]) -> Vec<Work> {
    let (mut works, mut tick) = (Vec::new(), 0);
    for step in steps {
        match *step {
            Step::Tick => tick += 1,
            Step::Alone { component, .. } => works.push(Work {
                node: component,
                tick,
                message: None,
            }),
            Step::Joint {
                sender,
                send,
                receiver,
                ..
            } => works.push(Work {
                node: sender,
                tick,
                message: channel(table, sender, send).map(|channel| (receiver, channel)),
            }),
            Step::Out { .. } => {}
        }
    }
    works
}

/// The channel of a send edge.
fn channel(table: &Table, component: u8, edge: u8) -> Option<u8> {
    let component = &table.components[usize::from(component)];
    match component.edges[usize::from(edge)].action {
        Action::Send(channel) => Some(channel),
        _ => None,
    }
}

/// The works of the second implementation's run, in finishing order.
fn works_finished(subject: &Subject, choices: &[u8]) -> Option<Vec<Work>> {
    let program = program(&subject.table);
    let run = run(&subject.table, &subject.passages, &program, choices)?;
    let work = |event: &Event| match *event {
        Event::Done { node, tick } | Event::Timeout { node, tick } => Work {
            node,
            tick,
            message: None,
        },
        Event::Message {
            sender,
            receiver,
            channel,
            tick,
        } => Work {
            node: sender,
            tick,
            message: Some((receiver, channel)),
        },
    };
    Some(run.log.iter().map(work).collect())
}

/// Runs an accepted table under choices on both sides, as [`super::compare`] does,
/// and holds the run to the path.
pub fn compare(
    readers: &Readers,
    subject: &Subject,
    demand: &Demand,
    path: &Path,
    choices: &[u8],
) -> Result<Ran, Broken> {
    let length = subject.needed();
    let library = Lent::to(&readers.library, &subject.bytes, choices, length);
    let second = Lent::to(&readers.second, &subject.bytes, choices, length);
    alike(&library, &second)?;
    let held = demand.hold(choices, &claim(&library));
    let realised = realises(subject, path, choices, &library);
    let facts = held.and_then(|facts| realised.map(|()| facts));
    let facts = facts.map_err(|problem| broken(&library, &second, Some(problem)))?;
    Ok(Ran {
        answer: library.answer,
        facts: Some(facts),
    })
}

/// The library's run of these choices is a run of the path. Its works are those of
/// the second implementation's run: the library keeps no log of them.
fn realises(subject: &Subject, path: &Path, choices: &[u8], run: &Lent) -> Result<(), String> {
    let end = match path.arrives(subject) {
        true => HORIZON,
        false => USED_UP,
    };
    let answer = &run.answer;
    demanded("end", (answer.number, answer.end), (0, end))?;
    demanded("used", answer.used as usize, choices.len())?;
    demanded("tick", answer.tick, path.tick())?;
    let works = works_finished(subject, choices);
    demanded("works", works.as_ref(), Some(&path.works))?;
    let written = observed::read(run.observations())?;
    for component in 0..subject.table.components.len() as u8 {
        let all = written.iter().map(|one| one.observation);
        let shown: Vec<Observation> = all.filter(|one| one.component == component).collect();
        demanded("shown", shown, path.shown(subject, component))?;
    }
    Ok(())
}

/// What is there has to be what the path has.
fn demanded<T: PartialEq + std::fmt::Debug>(
    field: &str,
    found: T,
    wanted: T,
) -> Result<(), String> {
    if found == wanted {
        return Ok(());
    }
    Err(format!("{field}: {found:?}, on the path {wanted:?}"))
}
