//! Paths within a schedule are found again in runs, and what is wrong with a path or
//! with its choices is found out, by the name of the sentence that it breaks.

use comparison::random::Random;
use comparison::readers::Readers;
use comparison::runs::paths::draw::draw;
use comparison::runs::paths::follow::choices;
use comparison::runs::paths::{compare, own, Path};
use comparison::runs::Subject;
use comparison::stored;
use comparison::tables::WORKED_EXAMPLE;
use demand::TICK;
use reference::network::Step;
use reference::program::{program, Op};
use reference::run::Machine;
use reference::table::Action;

const MOST: usize = 400;

/// The accepted tables of the vectors and the corpus.
fn subjects() -> Vec<Subject> {
    let stored = [stored::vectors().unwrap(), stored::corpus().unwrap()].concat();
    let subjects = stored.iter().filter_map(|table| Subject::new(&table.bytes));
    subjects.collect()
}

/// A path of a table with its choices.
fn drawn(random: &mut Random, subject: &Subject) -> (Path, Vec<u8>) {
    let steps = draw(random, subject, MOST);
    let choices = choices(random, subject, &steps).unwrap();
    (Path::new(subject, steps).unwrap(), choices)
}

/// The sentence that is broken where the library's run of these choices is held to
/// this path, if one is.
fn broken(subject: &Subject, path: &Path, choices: &[u8]) -> Option<String> {
    let demand = subject.demand();
    let compared = compare(&Readers::real(), subject, &demand, path, choices);
    let told = compared.err()?.demand.unwrap_or_default();
    Some(first_word(&told))
}

fn first_word(told: &str) -> String {
    let end = told.find(':').unwrap_or(told.len());
    told[..end].to_string()
}

/// The sentence that these steps break, if they break one.
fn off(subject: &Subject, steps: Vec<Step>) -> Option<String> {
    Path::new(subject, steps)
        .err()
        .map(|told| first_word(&told))
}

/// The component that steps in first of all with a step.
fn steps_in(step: Step) -> Option<u8> {
    match step {
        Step::Alone { component, .. } => Some(component),
        Step::Joint { sender, .. } => Some(sender),
        _ => None,
    }
}

/// The places of the steps in, each with the component's passage and the tick.
fn entering(subject: &Subject, path: &Path) -> Vec<(usize, u32, [u32; 2])> {
    let mut passed = [0; 8];
    let (mut tick, mut places) = (0, Vec::new());
    for (place, step) in path.steps.iter().enumerate() {
        match *step {
            Step::Tick => tick += 1,
            Step::Out { component } => passed[usize::from(component)] += 1,
            step => {
                let component = steps_in(step).unwrap();
                let number = passed[usize::from(component)];
                let passage = own(subject, component).nth(number).unwrap();
                places.push((place, tick, [passage.ready, passage.end]));
            }
        }
    }
    places
}

/// The steps with the one at a place behind the next tick.
fn moved_later(steps: &[Step], place: usize) -> Option<Vec<Step>> {
    let ahead = steps[place..].iter().position(|step| *step == Step::Tick)?;
    let mut steps = steps.to_vec();
    let step = steps.remove(place);
    steps.insert(place + ahead, step);
    Some(steps)
}

/// The steps with the one at a place before the last tick.
fn moved_earlier(steps: &[Step], place: usize) -> Option<Vec<Step>> {
    let before = steps[..place]
        .iter()
        .rposition(|step| *step == Step::Tick)?;
    let mut steps = steps.to_vec();
    let step = steps.remove(place);
    steps.insert(before, step);
    Some(steps)
}

#[test]
fn every_path_drawn_is_found_again() {
    let mut random = Random::new(11);
    for subject in subjects() {
        for _ in 0..3 {
            let (path, choices) = drawn(&mut random, &subject);
            assert_eq!(broken(&subject, &path, &choices), None);
        }
    }
}

/// A step in one tick past its window, one tick before it, and left out: the path is
/// no path, or keeps no longer to the schedule.
#[test]
fn a_step_outside_its_window_is_found_out() {
    let mut random = Random::new(12);
    let mut found = [0; 3];
    for subject in subjects() {
        let (path, _) = drawn(&mut random, &subject);
        for (place, tick, [ready, end]) in entering(&subject, &path) {
            let wrong = [
                moved_later(&path.steps, place).filter(|_| tick == end),
                moved_earlier(&path.steps, place).filter(|_| tick == ready),
                moved_later(&path.steps, place)
                    .filter(|_| tick == end)
                    .map(|mut steps| {
                        let step = path.steps[place];
                        let place = steps.iter().rposition(|other| *other == step).unwrap();
                        steps.truncate(place);
                        steps
                    }),
            ];
            for (count, steps) in found.iter_mut().zip(wrong) {
                if let Some(steps) = steps {
                    assert_ne!(off(&subject, steps), None);
                    *count += 1;
                }
            }
        }
    }
    assert!(found.iter().all(|count| *count > 20), "{found:?}");
}

/// A timeout in the place of a message is a step of the network at the window's end,
/// but not of the schedule.
#[test]
fn a_timeout_in_place_of_a_message_is_found_out() {
    let subject = Subject::new(&WORKED_EXAMPLE).unwrap();
    let hears = |passage: &&reference::schedule::Passage| {
        let receives = matches!(passage.edge_in(&subject.table).action, Action::Receive(_));
        receives && passage.message.is_some()
    };
    let passage = subject.passages.iter().find(hears).unwrap();
    let mut steps = vec![Step::Tick; passage.end as usize];
    steps.push(Step::Alone {
        component: passage.component,
        edge: passage.edge,
    });
    let told = off(&subject, steps).unwrap();
    assert!(["valid", "scheduled"].contains(&told.as_str()), "{told}");
}

/// Two components with one and the same window: their works in either order.
fn two_orders(random: &mut Random) -> (Subject, [(Path, Vec<u8>); 2]) {
    for subject in subjects() {
        for _ in 0..20 {
            let (path, _) = drawn(random, &subject);
            let alone = |step: Step| matches!(step, Step::Alone { .. });
            let pairs = path.steps.windows(2);
            let place = pairs
                .into_iter()
                .position(|pair| pair.iter().all(|step| alone(*step)));
            let Some(place) = place else { continue };
            let first = path.steps[..place + 2].to_vec();
            let mut second = first.clone();
            second.swap(place, place + 1);
            let of = |random: &mut Random, steps: Vec<Step>| {
                let choices = choices(random, &subject, &steps).unwrap();
                (Path::new(&subject, steps).unwrap(), choices)
            };
            let both = [of(random, first), of(random, second)];
            return (subject, both);
        }
    }
    unreachable!("no stored table has two works in one tick");
}

/// The choices of a path realise no other: the works come in another order, at
/// another tick, or not at all.
#[test]
fn the_choices_of_another_path_are_found_out() {
    let mut random = Random::new(13);
    let (subject, [one, other]) = two_orders(&mut random);
    assert_eq!(broken(&subject, &one.0, &one.1), None);
    assert_eq!(broken(&subject, &other.0, &other.1), None);
    let works = Some("works".to_string());
    assert_eq!(broken(&subject, &one.0, &other.1), works);
    assert_eq!(broken(&subject, &other.0, &one.1), works);
    let (mut same, mut told) = (0, Vec::new());
    for subject in subjects() {
        let (path, choices) = drawn(&mut random, &subject);
        let (second, _) = drawn(&mut random, &subject);
        match broken(&subject, &second, &choices) {
            None => {
                same += 1;
                let ends = |path: &Path| (path.tick(), path.works.clone());
                assert_eq!(ends(&second), ends(&path));
            }
            Some(word) => told.push(word),
        }
    }
    let sentences = ["end", "used", "tick", "works", "shown"];
    assert!(told.iter().all(|word| sentences.contains(&word.as_str())));
    assert!(told.len() > 2 * same, "{told:?}");
}

/// Of each node that stands at a sleep that is due, at the end of these choices.
fn due_sleeps(subject: &Subject, choices: &[u8]) -> Vec<u8> {
    let program = program(&subject.table);
    let machine = Machine::new(&subject.table, &subject.passages, &program);
    let mut machine = machine.unwrap();
    for choice in choices {
        machine.choose(*choice).unwrap();
    }
    let nodes = (0..).zip(machine.nodes());
    let due = nodes.filter(|(_, node)| {
        let sleeps = node.statement().is_some_and(|one| one.op == Op::Sleep);
        sleeps && node.registers.t == machine.tick()
    });
    due.map(|(node, _)| node).collect()
}

/// The statements up to a node's next sleep, and the sleep.
fn to_its_sleep(subject: &Subject, choices: &[u8], node: u8) -> Option<Vec<u8>> {
    let mut choices = choices.to_vec();
    for _ in 0..200 {
        if due_sleeps(subject, &choices).contains(&node) {
            choices.push(node);
            return Some(choices);
        }
        choices.push(node);
        let answer =
            comparison::readers::second_run(&subject.bytes, &choices, &mut vec![0; 40_000]);
        if answer.end != 1 {
            return None;
        }
    }
    None
}

/// A choice less or more: an observation is missing, or one is there that the
/// component has not come to; a tick more; a choice that is not allowed.
#[test]
fn a_choice_less_or_more_is_found_out() {
    let mut random = Random::new(14);
    let mut found = [0; 4];
    for subject in subjects() {
        let (path, choices) = drawn(&mut random, &subject);
        if path.arrives(&subject) {
            continue;
        }
        let mut tick = choices.clone();
        tick.push(TICK);
        let told = broken(&subject, &path, &tick);
        assert!(told.is_some());
        found[0] += 1;
        let mut absent = choices.clone();
        absent.push(8);
        assert_eq!(broken(&subject, &path, &absent), Some("end".to_string()));
        found[1] += 1;
        let slept = choices.last().filter(|last| **last != TICK);
        if let Some(node) = slept {
            let less = &choices[..choices.len() - 1];
            if due_sleeps(&subject, less).contains(node) {
                let told = broken(&subject, &path, less);
                assert_eq!(told, Some("shown".to_string()));
                found[2] += 1;
            }
        }
        let waiting = (0..).zip(&path.trace.state.places);
        for (node, _) in waiting.filter(|(_, place)| place.waiting.is_some()) {
            if let Some(more) = to_its_sleep(&subject, &choices, node) {
                let told = broken(&subject, &path, &more);
                assert_eq!(told, Some("shown".to_string()));
                found[3] += 1;
            }
        }
    }
    assert!(found.iter().all(|count| *count > 0), "{found:?}");
}
