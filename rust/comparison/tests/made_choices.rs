//! The lists that `make_choices` writes: for all stored tables that are
//! accepted, for long ones, and for nodes that wake apart, they take both
//! implementations to the horizon, with every observation that is due, and each
//! work is finished when it should be, by its node's own clock.

use choices::{early, late};
use comparison::random::Random;
use comparison::requests::{requests, Request};
use comparison::runs::offsets::permitted;
use comparison::runs::{Subject, AMPLE};
use comparison::stored::{corpus, vectors};
use comparison::tables::planned::{greatest_horizon, table, Plan, Size, Style};
use comparison::tables::{apart, chains};
use demand::{Claim, Facts};
use reference::program::program;
use reference::run::{self, Event};
use reference::schedule::Passage;
use reference::table::{write_table, Action};
use timed_network::{End, OBSERVATION, TICK};

/// The tables of the corpus and of all vectors.
fn tables() -> Vec<Vec<u8>> {
    let stored = [corpus().unwrap(), vectors().unwrap()].concat();
    let mut tables: Vec<_> = stored.into_iter().map(|stored| stored.bytes).collect();
    for request in requests().unwrap() {
        if let Request::Program { table, .. } | Request::Run { table, .. } = request {
            tables.push(table);
        }
    }
    tables.sort();
    tables.dedup();
    tables
}

/// When a work may be finished: in an early list at its ready, in a late one
/// at its end.
type When = fn(&Passage) -> u32;

/// A table, accepted at a spread, and the tick at which each node wakes.
struct Waking {
    subject: Subject,
    spread: u32,
    offsets: Vec<u32>,
}

impl Waking {
    /// All nodes wake at tick 0.
    fn together(subject: Subject) -> Waking {
        Waking {
            subject,
            spread: 0,
            offsets: Vec::new(),
        }
    }

    /// A tick of a node's own clock as a common one.
    fn common(&self, node: u8, own: u32) -> u32 {
        own + self.offsets.get(usize::from(node)).copied().unwrap_or(0)
    }
}

/// Holds a list to all that is said of it.
fn hold(waking: &Waking, list: &[u8], when: When) -> Facts {
    let Waking {
        subject,
        spread,
        offsets,
    } = waking;
    let horizon = u32::from(subject.table.horizon);
    let ready = |p: &&Passage| waking.common(p.component, p.ready) < horizon;
    let due = subject.passages.iter().filter(ready).count();

    let mut bytes = vec![0; AMPLE];
    let run = timed_network::run_apart(&subject.bytes, list, *spread, offsets, &mut bytes);
    let run = run.unwrap();
    assert_eq!((run.end, run.tick), (End::Horizon, horizon));
    assert_eq!((run.used as usize, run.size), (list.len(), due));
    assert_eq!(list.last(), Some(&TICK));
    bytes.truncate(OBSERVATION * due);

    let program = program(&subject.table);
    let (table, passages) = (&subject.table, &subject.passages);
    let second = run::run_apart(table, passages, &program, list, offsets).unwrap();
    assert_eq!(second.outcome.end, run::End::Horizon);
    assert_eq!(second.outcome.used as usize, list.len());
    assert_eq!(second.observations.concat(), bytes);
    assert_eq!(works(&second.log), expected(waking, when));

    let claim = Claim {
        end: 0,
        node: 255,
        tick: horizon,
        used: run.used as u32,
        observations: &bytes,
    };
    let demand = subject.demand();
    demand.hold_apart(list, offsets, &claim).unwrap().facts
}

/// The nodes that finished internal work or a send, with the ticks, sorted.
fn works(log: &[Event]) -> Vec<(u8, u32)> {
    let mut works: Vec<_> = log
        .iter()
        .filter_map(|event| match *event {
            Event::Done { node, tick } => Some((node, tick)),
            Event::Message { sender, tick, .. } => Some((sender, tick)),
            Event::Timeout { .. } => None,
        })
        .collect();
    works.sort();
    works
}

/// The same from the schedule: those with their time before the horizon.
fn expected(waking: &Waking, when: When) -> Vec<(u8, u32)> {
    let subject = &waking.subject;
    let horizon = u32::from(subject.table.horizon);
    let listens = |p: &Passage| matches!(p.edge_in(&subject.table).action, Action::Receive(_));
    let own = subject.passages.iter().filter(|p| !listens(p));
    let work = |p: &Passage| (p.component, waking.common(p.component, when(p)));
    let mut works: Vec<_> = own.map(work).collect();
    works.retain(|(_, tick)| *tick < horizon);
    works.sort();
    works
}

/// Holds both lists of each table; the counts of tables, messages, timeouts.
fn hold_all(wakings: impl Iterator<Item = Waking>) -> [u32; 3] {
    let mut counts = [0; 3];
    for waking in wakings {
        let demand = waking.subject.demand();
        let offsets = &waking.offsets;
        let lists = [
            (early(&demand, offsets), (|passage| passage.ready) as When),
            (late(&demand, offsets), |passage| passage.end),
        ];
        counts[0] += 1;
        for (list, when) in lists {
            let facts = hold(&waking, &list, when);
            counts[1] += facts.messages;
            counts[2] += facts.timeouts;
        }
    }
    println!("tables, messages, timeouts: {counts:?}");
    counts
}

#[test]
fn lists_of_stored_tables_reach_the_horizon() {
    let tables = tables();
    let accepted = tables.iter().filter_map(|table| Subject::new(table));
    let [tables, messages, timeouts] = hold_all(accepted.map(Waking::together));
    assert!(tables > 80 && messages > 500 && timeouts > 40);
}

/// Tables from plans, with as long a horizon as they can have: up to 60,000
/// ticks or 1,024 passages.
#[test]
fn long_lists_reach_the_horizon() {
    let mut random = Random::new(21);
    let drawn = (0..40).map(|_| {
        let size = Size::any(&mut random);
        let plan = Plan::draw(&mut random, &size);
        let lanes = plan.lanes(&mut random);
        let style = Style::sparse(&mut random);
        let mut table = table(&mut random, &lanes, plan.channels, 1, &style);
        table.horizon = greatest_horizon(&table);
        Subject::new(&write_table(&table)).expect("the table is accepted")
    });
    let [_, messages, timeouts] = hold_all(drawn.map(Waking::together));
    assert!(messages > 1000 && timeouts > 1000);
}

/// Chains and plans that are accepted at a spread, with any offsets up to it.
#[test]
fn lists_of_nodes_that_wake_apart_reach_the_horizon() {
    let mut random = Random::new(22);
    let drawn = (0..1000).filter_map(|_| {
        let spread = random.pick(&[1, 2, 3, 7, 40]);
        let table = match random.once_in(2) {
            true => apart::planned(&mut random, spread),
            false => chains::drawn(&mut random, spread).table(),
        };
        let subject = Subject::within(&write_table(&table), spread)?;
        let offsets = permitted(&mut random, spread, subject.table.components.len());
        Some(Waking {
            subject,
            spread,
            offsets,
        })
    });
    let [tables, messages, timeouts] = hold_all(drawn);
    assert!(tables > 500 && messages > 1000 && timeouts > 200);
}
