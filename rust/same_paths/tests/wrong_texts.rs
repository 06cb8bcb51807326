//! Texts of exporters that are wrong in one place: each is found out by some table.

mod common;

use common::*;
use reference::uppaal::text;
use same_paths::{same_paths, Difference, Reach};

const REACH: Reach = Reach {
    ticks: 14,
    states: 400,
};

/// How many of so many tables tell the texts of a wrong exporter from right ones, and
/// how the first of them does.
fn found_out(tables: usize, wrong: impl Fn(&str) -> String) -> (usize, Option<Difference>) {
    let mut numbers = Numbers(2_463_534_242);
    let (mut count, mut first) = (0, None);
    for _ in 0..tables {
        let table = small_table(&mut numbers);
        let changed = wrong(&text(&table));
        let system = xta::read(changed.as_bytes()).unwrap();
        if let Err(difference) = same_paths(&table, &system, REACH) {
            count += 1;
            first.get_or_insert(difference);
        }
    }
    (count, first)
}

/// Changes each line of a text.
fn each_line(text: &str, change: impl Fn(&str) -> String) -> String {
    let lines: Vec<String> = text.split('\n').map(change).collect();
    lines.join("\n")
}

fn steps_out(line: &str) -> bool {
    line.starts_with("  W") && line.contains("->")
}

fn steps_in(line: &str) -> bool {
    line.starts_with("  L") && line.contains("->")
}

fn demand_found(name: &str, wrong: impl Fn(&str) -> String) {
    let (count, first) = found_out(400, wrong);
    assert!(count > 0, "{name} is not found out: {first:?}");
}

/// The invariant of a waiting location is that of its location alone, the first one.
#[test]
fn waits_with_its_locations_invariant() {
    let short = |line: &str| match (line.starts_with("  W"), line.split_once(" && ")) {
        (true, Some((front, rest))) if !line.contains("->") => {
            let end = rest.rsplit_once(" }").unwrap().1;
            format!("{front} }}{end}")
        }
        _ => line.to_string(),
    };
    demand_found("one bound alone", |text| each_line(text, short));
}

/// Two bounds that are reached in one tick give two transitions.
#[test]
fn every_bound_reached() {
    let every = |line: &str| match steps_out(line) {
        true => line.replace(" < ", " <= "),
        false => line.to_string(),
    };
    demand_found("every bound reached", |text| each_line(text, every));
}

/// The step out a tick before the end, or anywhere before it.
#[test]
fn not_at_the_end() {
    let anywhere = |line: &str| match steps_out(line) {
        true => line.replace(" == ", " <= "),
        false => line.to_string(),
    };
    demand_found("out anywhere", |text| each_line(text, anywhere));
    let earlier = |line: &str| match steps_out(line) {
        true => line.replace(" == ", " < "),
        false => line.to_string(),
    };
    demand_found("out earlier", |text| each_line(text, earlier));
}

/// A timeout anywhere in the window.
#[test]
fn timeout_anywhere() {
    let anywhere = |line: &str| match steps_in(line) {
        true => line.replace(" == ", " <= "),
        false => line.to_string(),
    };
    demand_found("timeout anywhere", |text| each_line(text, anywhere));
}

/// The step in asks for less than it should.
#[test]
fn a_step_in_without_one_of_its_conditions() {
    let without = |sign: &'static str| {
        move |line: &str| {
            if !steps_in(line) {
                return line.to_string();
            }
            let (front, rest) = line.split_once("guard ").unwrap();
            let (guard, behind) = rest.split_once(';').unwrap();
            let kept: Vec<&str> = guard.split(" && ").filter(|a| !a.contains(sign)).collect();
            let guard = match kept.is_empty() {
                true => "true".to_string(),
                false => kept.join(" && "),
            };
            format!("{front}guard {guard};{behind}")
        }
    };
    // A low, a data bound, the upper and the lower end of a sum, a sum that is known.
    for sign in ["x0 >= 3", "v0 <= ", " <= 32767", " >= -32768", "false"] {
        demand_found(sign, |text| each_line(text, without(sign)));
    }
}

/// Resets at the step in, or not at all; updates not at all.
#[test]
fn changes_at_the_wrong_step() {
    let none = |line: &str| match (steps_out(line), line.split_once(" assign ")) {
        (true, Some((front, rest))) => format!("{front} }}{}", rest.rsplit_once('}').unwrap().1),
        _ => line.to_string(),
    };
    demand_found("nothing is changed", |text| each_line(text, none));
    let early = |line: &str| match steps_in(line) {
        true => line.replace("; }", "; assign x0 := 0; }"),
        false => line.to_string(),
    };
    demand_found("x0 becomes 0 at the step in", |text| each_line(text, early));
}

/// Each other small fault: a message leads elsewhere, sides of a channel changed, names.
#[test]
fn other_places() {
    demand_found("channels turned round", |text| {
        text.replace('!', "#").replace('?', "!").replace('#', "?")
    });
    demand_found("another channel", |text| text.replace("sync c1", "sync c0"));
    demand_found("to the first location", |text| {
        text.replace("-> L1", "-> L0")
    });
    demand_found("from the first location", |text| {
        text.replace("L1 ->", "L0 ->")
    });
    demand_found("another start", |text| text.replace("init L1", "init L0"));
    demand_found("other names", |text| text.replace("P0", "Q0"));
    demand_found("a set is an add", |text| {
        text.replace("v0 := -1", "v0 := v0 - 1")
    });
    demand_found("an invariant less", |text| {
        each_line(text, |line| match line.starts_with("  L0 {") {
            true => line.replace("<= 4", "<= 40"),
            false => line.to_string(),
        })
    });
}

/// Without the guards on their ranges variables leave them.
#[test]
fn a_range_is_left() {
    let careless = |text: &str| {
        each_line(text, |line| match line.find("+ 32766 >= -32768") {
            Some(at) if steps_in(line) => {
                let kept = line[..at].rsplit_once(" && ").unwrap().0;
                format!("{kept}; }}{}", line.rsplit_once('}').unwrap().1)
            }
            _ => line.to_string(),
        })
    };
    demand_found("no range", careless);
}
