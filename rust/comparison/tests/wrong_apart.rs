//! Runs of nodes that wake apart that are wrong in one point are found out; those
//! that are wrong on both sides too, since each is held to the demand in the nodes'
//! own clocks.

mod apart_cases;
mod finding;

use apart_cases::{changed, Answer, Case};
use comparison::difference::Difference;
use comparison::readers::{second_run_apart, Reader, RunApart};
use comparison::runs::Subject;
use reference::program::program;
use reference::run::{Happening, Machine};
use timed_network::{RunNumbers, MAX_CHOICES, NO_NODE, OBSERVATION, TICK};

/// The first difference in the classes of runs of nodes that wake apart.
fn difference(library: Reader, second: Reader) -> Option<Difference> {
    finding::difference(|name| name.starts_with("apart: "), library, second)
}

fn with_run(run_apart: RunApart) -> Reader {
    Reader {
        run_apart,
        ..Reader::second()
    }
}

fn found_out(run: RunApart) -> bool {
    difference(with_run(run), Reader::second()).is_some()
}

#[test]
fn the_second_agrees_with_itself() {
    assert_eq!(difference(Reader::second(), Reader::second()), None);
}

/// A machine that asks before each choice whether it is allowed.
fn asks_first(case: &Case, allowed: impl Fn(u32, u8) -> bool) -> Answer {
    let Subject {
        table, passages, ..
    } = case.subject;
    let bytes = program(table);
    let mut machine = Machine::apart(table, passages, &bytes, &case.offsets).unwrap();
    let mut answer = Answer {
        end: 1,
        node: NO_NODE,
        tick: 0,
        used: 0,
        observations: Vec::new(),
    };
    for &choice in &case.choices {
        let happening = match choice {
            node if node != TICK && !allowed(machine.tick(), node) => None,
            choice => machine.choose(choice),
        };
        let Some(happening) = happening else {
            answer.end = 3;
            break;
        };
        answer.used += 1;
        match happening {
            Happening::Slept { node } => answer.observations.extend(machine.observation(node)),
            Happening::Ticked { late: Some(node) } => {
                (answer.end, answer.node) = (2, node);
                break;
            }
            Happening::Ticked { .. } if machine.tick() == machine.horizon() => {
                answer.end = 0;
                break;
            }
            _ => {}
        }
    }
    answer.tick = machine.tick();
    answer
}

/// Runs that are wrong where they take place: late judged by the common tick,
/// observations at the common tick, a node that may be chosen only after the tick
/// at which it wakes, observations in the order of their ticks, the first node's
/// offset for all, none after a late node's, and no offsets at all.
const WRONG: [RunApart; 7] = [
    |t, c, g, o, b| changed((t, c, g, o), b, |case| case.late_by_the_common_tick()),
    |t, c, g, o, b| changed((t, c, g, o), b, |case| case.with_common_ticks()),
    |t, c, g, o, b| {
        changed((t, c, g, o), b, |case| {
            asks_first(case, |tick, node| {
                tick > case.offset(node) || case.offset(node) == 0
            })
        })
    },
    |t, c, g, o, b| {
        changed((t, c, g, o), b, |case| {
            let mut answer = case.answer.clone();
            let mut all: Vec<&[u8]> = case.answer.observations.chunks(OBSERVATION).collect();
            all.sort_by_key(|observation| observation[4..8].to_vec());
            answer.observations = all.concat();
            answer
        })
    },
    |t, c, g, o, b| {
        let first = vec![o.first().copied().unwrap_or(0); 8];
        let right = second_run_apart(t, c, g, o, &mut b.to_vec());
        match right.number {
            0 => second_run_apart(t, c, g, &first, b),
            _ => right,
        }
    },
    |t, c, g, o, b| {
        changed((t, c, g, o), b, |case| {
            let mut answer = case.answer.clone();
            if answer.end == 2 {
                let kept = answer.observations.len().saturating_sub(OBSERVATION);
                answer.observations.truncate(kept);
            }
            answer
        })
    },
    |t, c, g, o, b| {
        let right = second_run_apart(t, c, g, o, &mut b.to_vec());
        match right.number {
            0 => second_run_apart(t, c, g, &[], b),
            _ => right,
        }
    },
];

#[test]
fn wrong_runs_are_found_out() {
    for (place, run) in WRONG.into_iter().enumerate() {
        assert!(found_out(run), "{place}");
    }
}

#[test]
fn runs_that_are_wrong_on_both_sides_are_found_out() {
    for (place, run) in WRONG.into_iter().enumerate() {
        let difference = difference(with_run(run), with_run(run));
        let difference = difference.unwrap_or_else(|| panic!("{place}"));
        assert!(
            difference.expected.is_some() || difference.call.contains("the offsets []"),
            "{place}: {difference}"
        );
    }
}

/// The offsets of the nodes that there are.
fn own<'a>(table: &[u8], offsets: &'a [u32]) -> &'a [u32] {
    let nodes = table.get(3).map_or(0, |count| usize::from(*count));
    &offsets[..offsets.len().min(nodes)]
}

/// A run refused with this number.
fn refused(number: u8) -> RunNumbers {
    RunNumbers {
        number,
        component: 255,
        end: 0,
        node: NO_NODE,
        tick: 0,
        used: 0,
        size: 0,
    }
}

/// A run that is right, or refused with 20 where this says so.
fn refuses(
    (table, choices, spread, offsets): (&[u8], &[u8], u32, &[u32]),
    bytes: &mut [u8],
    twenty: bool,
) -> RunNumbers {
    let right = second_run_apart(table, choices, spread, offsets, &mut bytes.to_vec());
    match right.number == 0 && twenty {
        true => refused(20),
        false => second_run_apart(table, choices, spread, offsets, bytes),
    }
}

/// Refusals that are wrong: an offset at the spread, one behind the last node, a
/// missing one; an offset above the spread that is let pass by one, or cut to eight
/// bits; 20 before 14, before 13, before the table's; the table judged at spread 0;
/// a tick after a refusal.
const REFUSALS: [RunApart; 10] = [
    |t, c, g, o, b| {
        refuses(
            (t, c, g, o),
            b,
            own(t, o).iter().any(|own| *own >= g.max(1)),
        )
    },
    |t, c, g, o, b| refuses((t, c, g, o), b, o.iter().any(|own| *own > g)),
    |t, c, g, o, b| {
        let missing = own(t, o).len() < usize::from(t[3]);
        refuses((t, c, g, o), b, missing)
    },
    |t, c, g, o, b| {
        let less: Vec<u32> = o
            .iter()
            .map(|own| if *own == g + 1 { g } else { *own })
            .collect();
        second_run_apart(t, c, g, &less, b)
    },
    |t, c, g, o, b| {
        let bytes: Vec<u32> = o.iter().map(|own| own & 255).collect();
        match own(t, o).iter().any(|own| *own > g) {
            true => second_run_apart(t, c, g, &bytes, b),
            false => second_run_apart(t, c, g, o, b),
        }
    },
    |t, c, g, o, b| {
        let right = second_run_apart(t, c, g, o, b);
        match right.number == 14 && c.len() > MAX_CHOICES && own(t, o).iter().any(|own| *own > g) {
            true => refused(20),
            false => right,
        }
    },
    |t, c, g, o, b| {
        let right = second_run_apart(t, c, g, o, b);
        match right.number == 13 && own(t, o).iter().any(|own| *own > g) {
            true => refused(20),
            false => right,
        }
    },
    |t, c, g, o, b| {
        let above = own(t, o).iter().any(|own| *own > g);
        match above {
            true => refused(20),
            false => second_run_apart(t, c, g, o, b),
        }
    },
    |t, c, g, o, b| {
        let most = own(t, o).iter().copied().max().unwrap_or(0);
        match most <= g && g <= 1000 {
            true => second_run_apart(t, c, most, o, b),
            false => second_run_apart(t, c, g, o, b),
        }
    },
    |t, c, g, o, b| {
        let right = second_run_apart(t, c, g, o, b);
        match right.number {
            20 => RunNumbers { tick: 1, ..right },
            _ => right,
        }
    },
];

#[test]
fn wrong_refusals_are_found_out() {
    for (place, run) in REFUSALS.into_iter().enumerate() {
        assert!(found_out(run), "{place}");
    }
}

/// Writes past the observations, and after a refusal.
#[test]
fn bytes_that_should_stay_are_looked_at() {
    let past: RunApart = |t, c, g, o, b| {
        let right = second_run_apart(t, c, g, o, b);
        if let Some(byte) = b.get_mut(right.size as usize * OBSERVATION) {
            *byte = 0;
        }
        right
    };
    let after: RunApart = |t, c, g, o, b| {
        let right = second_run_apart(t, c, g, o, b);
        if right.number == 20 && !b.is_empty() {
            b[0] = 0;
        }
        right
    };
    for run in [past, after] {
        assert!(found_out(run));
    }
}

/// Without a spread and offsets it has to be the run.
#[test]
fn another_run_together_is_found_out() {
    let library = Reader {
        run: |table, choices, bytes| {
            let answer = (Reader::second().run)(table, choices, bytes);
            let tick = answer.tick + u32::from(answer.end == 1);
            RunNumbers { tick, ..answer }
        },
        ..Reader::second()
    };
    assert!(difference(library, Reader::second()).is_some());
}
