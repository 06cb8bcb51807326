//! A pair in words. Where there is none it is told what never comes back, as far as it is
//! one component, and of that one location, clock or variable: the states are those of
//! the second implementation's schedule.

use super::horizon_of;
use reference::checks::verdict;
use reference::schedule::Passage;
use timed_network::Pair;

/// So many of the ticks at which all nodes enter are listed.
const LISTED: usize = 8;

/// The lines of an accepted table.
pub fn told(table: &[u8], pair: Option<Pair>) -> String {
    match pair {
        Some(pair) => format!(
            "{} {}\nfrom tick {} on everything comes again every {}: a run can go to any horizon\n",
            pair.from,
            pair.to,
            pair.from,
            ticks(pair.ticks())
        ),
        None => format!(
            "none\nup to its horizon of {} no state of all nodes comes again: \
             a run cannot go further\n{}",
            horizon_of(table),
            why(table)
        ),
    }
}

fn ticks(count: u32) -> String {
    match count {
        1 => "tick".to_string(),
        count => format!("{count} ticks"),
    }
}

/// What one component enters with, each thing by its name.
type State = Vec<(String, i64)>;

fn state(passage: &Passage, clocks: u8, variables: u8) -> State {
    let mut state = vec![("its location".to_string(), passage.location.into())];
    for (number, clock) in passage.clocks.iter().enumerate().take(clocks.into()) {
        state.push((format!("clock x{number}"), (*clock).into()));
    }
    for (number, value) in passage.variables.iter().enumerate().take(variables.into()) {
        state.push((format!("variable v{number}"), (*value).into()));
    }
    state
}

/// What keeps everything from coming again.
fn why(table: &[u8]) -> String {
    let Ok((table, passages)) = verdict(table) else {
        return String::new();
    };
    let entered = |number: usize, tick: u32| {
        let own = |p: &&Passage| usize::from(p.component) == number && p.entry == tick;
        let component = &table.components[number];
        let passage = passages.iter().find(own)?;
        Some(state(passage, component.clocks, component.variables))
    };
    let first = passages.iter().filter(|passage| passage.component == 0);
    let mut joint: Vec<(u32, Vec<State>)> = Vec::new();
    for tick in first.map(|passage| passage.entry) {
        let states: Option<Vec<State>> = (0..table.components.len())
            .map(|number| entered(number, tick))
            .collect();
        joint.extend(states.map(|states| (tick, states)));
    }
    reasons(&joint)
}

/// The lines about the ticks at which all nodes enter, with their states.
fn reasons(joint: &[(u32, Vec<State>)]) -> String {
    let [_, _, ..] = joint else {
        return "all nodes enter together at tick 0 alone\n".to_string();
    };
    let listed: Vec<String> = joint.iter().map(|(tick, _)| tick.to_string()).collect();
    let more = if listed.len() > LISTED { ", .." } else { "" };
    let listed = listed[..listed.len().min(LISTED)].join(", ");
    let mut told = format!("all nodes enter together at ticks {listed}{more}\n");
    let mut alone = false;
    for component in 0..joint[0].1.len() {
        let states: Vec<&State> = joint.iter().map(|(_, all)| &all[component]).collect();
        if !all_differ(&states) {
            continue;
        }
        alone = true;
        let things: Vec<&str> = differing(&states);
        told += &match things[..] {
            [] => format!("component {component} is never as it was at an earlier one of them\n"),
            _ => format!(
                "component {component}: {} never has a value again that it had at one of them\n",
                things.join(" and ")
            ),
        };
    }
    if !alone {
        told += "each component comes back by itself, but never all of them at one tick\n";
    }
    told
}

/// The things of a component that have another value at each of these ticks.
fn differing<'a>(states: &[&'a State]) -> Vec<&'a str> {
    let things = 0..states[0].len();
    let differs = |thing: &usize| {
        let values: Vec<i64> = states.iter().map(|state| state[*thing].1).collect();
        all_differ(&values)
    };
    things
        .filter(differs)
        .map(|thing| states[0][thing].0.as_str())
        .collect()
}

/// Whether no two are equal.
fn all_differ<T: PartialEq>(all: &[T]) -> bool {
    let before = |place: usize| all[..place].contains(&all[place]);
    !(0..all.len()).any(before)
}

#[cfg(test)]
mod tests {
    use super::*;

    fn joint(values: &[&[(i64, i64)]]) -> Vec<(u32, Vec<State>)> {
        let state = |(x0, v0): &(i64, i64)| {
            vec![
                ("its location".to_string(), 0),
                ("clock x0".to_string(), *x0),
                ("variable v0".to_string(), *v0),
            ]
        };
        let at = |(number, all): (usize, &&[(i64, i64)])| {
            (10 * number as u32, all.iter().map(state).collect())
        };
        values.iter().enumerate().map(at).collect()
    }

    #[test]
    fn what_never_comes_back() {
        let alone = "all nodes enter together at tick 0 alone\n";
        assert_eq!(reasons(&joint(&[&[(0, 0)]])), alone);
        let ticks = "all nodes enter together at ticks 0, 10, 20\n";
        assert_eq!(
            reasons(&joint(&[&[(0, 0), (0, 0)], &[(0, 0), (0, 1)], &[(0, 0), (0, 2)]])),
            format!("{ticks}component 1: variable v0 never has a value again that it had at one of them\n")
        );
        assert_eq!(
            reasons(&joint(&[&[(0, 0)], &[(0, 1)], &[(1, 1)]])),
            format!("{ticks}component 0 is never as it was at an earlier one of them\n")
        );
        assert_eq!(
            reasons(&joint(&[
                &[(0, 0), (0, 0)],
                &[(0, 0), (0, 1)],
                &[(0, 1), (0, 0)]
            ])),
            format!(
                "{ticks}each component comes back by itself, but never all of them at one tick\n"
            )
        );
    }
}
