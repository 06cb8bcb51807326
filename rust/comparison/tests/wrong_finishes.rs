//! Runs with wrong finish ticks in their observations are found out; those that are
//! wrong on both sides too, since each is held to the works, the previous windows and
//! the path.

mod apart_cases;
mod finding;

use apart_cases::{changed, Answer, Case};
use comparison::difference::Difference;
use comparison::readers::Reader;
use comparison::runs::Subject;
use reference::program::program;
use reference::run::{drive, Happening, Machine, FINISH_TICK, NO_WORK};
use reference::schedule::Passage;
use timed_network::OBSERVATION;

/// The first difference in the classes of finish ticks.
fn difference(library: Reader, second: Reader) -> Option<Difference> {
    finding::difference(|name| name.starts_with("finish ticks: "), library, second)
}

#[test]
fn the_second_agrees_with_itself() {
    assert_eq!(difference(Reader::second(), Reader::second()), None);
}

/// A work of one node, at common ticks.
#[derive(Clone, Copy)]
struct Work {
    tick: u32,
    /// When its first statement was finished.
    begun: u32,
    /// Of a message taken its sender.
    sender: Option<u8>,
    timed_out: bool,
}

/// The works of each node of a run.
fn works(case: &Case) -> Vec<Vec<Work>> {
    let Subject {
        table, passages, ..
    } = case.subject;
    let bytes = program(table);
    let mut machine = Machine::apart(table, passages, &bytes, &case.offsets).unwrap();
    let nodes = table.components.len();
    let (mut works, mut begun) = (vec![Vec::new(); nodes], vec![None; nodes]);
    let mut choices = case.choices.iter();
    drive(&mut machine, &case.choices, |machine, happening| {
        let (choice, tick) = (*choices.next().unwrap(), machine.tick());
        let mut finish = |node: u8, sender, timed_out| {
            works[usize::from(node)].push(Work {
                tick,
                begun: begun[usize::from(node)].take().unwrap_or(tick),
                sender,
                timed_out,
            });
        };
        match happening {
            Happening::Done { node } => finish(node, None, false),
            Happening::Timeout { node } => finish(node, None, true),
            Happening::Message {
                sender, receiver, ..
            } => {
                finish(sender, None, false);
                finish(receiver, Some(sender), false);
            }
            Happening::Own if machine.nodes()[usize::from(choice)].registers.working => {
                begun[usize::from(choice)].get_or_insert(tick);
            }
            _ => {}
        }
    });
    works
}

/// Where a finish tick stands: in which observation of the run, of which node, in which
/// of the node's own.
struct Place {
    observation: usize,
    node: u8,
    number: usize,
}

/// The answer of a run with each finish tick as this says.
fn with(case: &Case, finish: fn(&Case, &[Vec<Work>], &Place) -> u32) -> Answer {
    let works = works(case);
    let mut answer = case.answer.clone();
    let mut counts = vec![0; works.len()];
    let places = answer.observations.chunks_mut(OBSERVATION).enumerate();
    for (observation, bytes) in places {
        let node = bytes[0];
        let place = Place {
            observation,
            node,
            number: counts[usize::from(node)],
        };
        counts[usize::from(node)] += 1;
        let tick = finish(case, &works, &place);
        bytes[FINISH_TICK..].copy_from_slice(&tick.to_be_bytes());
    }
    answer
}

/// The work before the observation at a place, if there is one.
fn previous(works: &[Vec<Work>], place: &Place) -> Option<Work> {
    let before = place.number.checked_sub(1)?;
    Some(works[usize::from(place.node)][before])
}

/// The right finish tick.
fn right(case: &Case, works: &[Vec<Work>], place: &Place) -> u32 {
    let work = previous(works, place);
    work.map_or(NO_WORK, |work| case.own_clock(place.node, work.tick))
}

fn first_0(case: &Case, works: &[Vec<Work>], place: &Place) -> u32 {
    match place.number {
        0 => 0,
        _ => right(case, works, place),
    }
}

/// Only the first observation of the run has none.
fn first_of_the_run(case: &Case, works: &[Vec<Work>], place: &Place) -> u32 {
    match (place.number, place.observation) {
        (0, 1..) => 0,
        _ => right(case, works, place),
    }
}

fn sender_for_both(case: &Case, works: &[Vec<Work>], place: &Place) -> u32 {
    match previous(works, place) {
        Some(Work {
            tick,
            sender: Some(sender),
            ..
        }) => case.own_clock(sender, tick),
        _ => right(case, works, place),
    }
}

fn common_tick(_: &Case, works: &[Vec<Work>], place: &Place) -> u32 {
    previous(works, place).map_or(NO_WORK, |work| work.tick)
}

fn first_update(case: &Case, works: &[Vec<Work>], place: &Place) -> u32 {
    let work = previous(works, place);
    work.map_or(NO_WORK, |work| case.own_clock(place.node, work.begun))
}

fn no_timeouts(case: &Case, works: &[Vec<Work>], place: &Place) -> u32 {
    let before = &works[usize::from(place.node)][..place.number];
    let noted = before.iter().rev().find(|work| !work.timed_out);
    noted.map_or(NO_WORK, |work| case.own_clock(place.node, work.tick))
}

fn previous_but_one(case: &Case, works: &[Vec<Work>], place: &Place) -> u32 {
    let number = place.number.saturating_sub(1);
    right(case, works, &Place { number, ..*place })
}

/// The passage before the observation at a place.
fn passage<'a>(case: &'a Case, place: &Place) -> Option<&'a Passage> {
    let passages = case.subject.passages.iter();
    let mut own = passages.filter(|passage| passage.component == place.node);
    own.nth(place.number.checked_sub(1)?)
}

fn at_ready(case: &Case, _: &[Vec<Work>], place: &Place) -> u32 {
    passage(case, place).map_or(NO_WORK, |passage| passage.ready)
}

fn at_end(case: &Case, _: &[Vec<Work>], place: &Place) -> u32 {
    passage(case, place).map_or(NO_WORK, |passage| passage.end)
}

/// Implementations with finish ticks as these functions say.
macro_rules! readers {
    ($($finish:ident)*) => {
        [$((
            stringify!($finish),
            Reader {
                run: |t, c, b| changed((t, c, 0, &[]), b, |case| with(case, $finish)),
                run_apart: |t, c, g, o, b| changed((t, c, g, o), b, |case| with(case, $finish)),
                ..Reader::second()
            },
        )),*]
    };
}

#[test]
fn the_right_ticks_are_those_of_the_second() {
    for (_, reader) in readers![right] {
        assert_eq!(difference(reader, Reader::second()), None);
    }
}

#[test]
fn wrong_ticks_are_found_out() {
    for (name, reader) in readers![
        first_0 first_of_the_run sender_for_both common_tick first_update no_timeouts
        previous_but_one at_ready at_end
    ] {
        assert!(difference(reader, Reader::second()).is_some(), "{name}");
        let both = difference(reader, reader);
        let both = both.unwrap_or_else(|| panic!("{name}: not found on both sides"));
        let expected = both.expected.clone().unwrap_or_default();
        assert!(expected.starts_with("Finishes.ticks: "), "{name}: {both}");
    }
}
