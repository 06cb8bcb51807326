//! The yardstick of speed as an implementation to be compared. One yardstick
//! a thread answers all calls, so that what a call leaves in its buffers is
//! there when the next one is made.

mod periods;
mod sites;

use crate::readers::{
    refused, refused_simulation, second_edge_choice, OpeningNumbers, PlaceNumbers, Reader,
};
use crate::simulations::Experiment;
use std::cell::RefCell;
use timed_network::{
    Call, Meetings, Positioned, RunNumbers, SimulationNumbers, Slots, Told, Verdict, NO_NODE,
};
use yardstick::{Place, Refusal, RefusedOpening, Run, Yardstick};

thread_local! {
    static YARDSTICK: RefCell<Yardstick> = RefCell::new(Yardstick::new());
}

/// Makes a call of this thread's yardstick.
fn with<T>(call: impl FnOnce(&mut Yardstick) -> T) -> T {
    YARDSTICK.with(|yardstick| call(&mut yardstick.borrow_mut()))
}

/// The yardstick's calls. It has none for an edge choice: the second
/// implementation's stands in its place.
pub(crate) const READER: Reader = Reader {
    check,
    schedule,
    translate,
    timing_chart,
    uppaal,
    plan,
    edge_choice: second_edge_choice,
    reasons,
    positions,
    part,
    run,
    period: periods::period,
    run_to: periods::run_to,
    simulate,
    airtime: sites::airtime,
    site: sites::site,
    meetings,
    check_spread,
    largest_spread,
    meetings_spread,
    run_apart,
    refusal_place,
    refused_opening,
};

fn check(table: &[u8]) -> Verdict {
    verdict_of(with(|yardstick| yardstick.check(table)))
}

fn check_spread(table: &[u8], spread: u32) -> Verdict {
    verdict_of(with(|yardstick| yardstick.check_spread(table, spread)))
}

fn largest_spread(table: &[u8]) -> Result<u32, Verdict> {
    with(|yardstick| yardstick.largest_spread(table)).map_err(verdict)
}

fn meetings(table: &[u8], list: &mut [u32]) -> Meetings {
    meetings_spread(table, 0, list)
}

fn meetings_spread(table: &[u8], spread: u32, list: &mut [u32]) -> Meetings {
    let answer = with(|yardstick| yardstick.meetings_spread(table, spread, list));
    Meetings {
        table: verdict_of(answer.table),
        verdict: verdict_of(answer.listed.map(|_| ())),
        size: answer.listed.unwrap_or(0),
    }
}

fn schedule(table: &[u8], list: &mut [u32]) -> Call {
    answer(with(|yardstick| yardstick.schedule(table, list)))
}

fn translate(table: &[u8], program: &mut [u8]) -> Call {
    answer(with(|yardstick| yardstick.translate(table, program)))
}

fn timing_chart(table: &[u8], chart: &mut [u8]) -> Call {
    answer(with(|yardstick| yardstick.timing_chart(table, chart)))
}

fn uppaal(table: &[u8], text: &mut [u8]) -> Call {
    answer(with(|yardstick| yardstick.uppaal(table, text)))
}

fn plan(slots: Slots, table: &mut [u8]) -> Call {
    let numbers = [slots.probes, slots.slot, slots.guard, slots.period];
    answer(yardstick::plan(numbers, table))
}

fn part(program: &[u8], node: u8) -> &[u8] {
    &program[yardstick::part(program, node)]
}

fn reasons(table: &[u8], component: u32, tick: u32, told: &mut [u8]) -> Told {
    match with(|yardstick| yardstick.reasons(table, component, tick, told)) {
        Ok(answer) => Told {
            verdict: Verdict::Accepted,
            passage: answer.passage,
            size: answer.size,
        },
        Err(refusal) => Told {
            verdict: verdict(refusal),
            passage: 0,
            size: 0,
        },
    }
}

fn positions(table: &[u8], numbers: &[u32], answers: &mut [u8]) -> Positioned {
    match with(|yardstick| yardstick.positions(table, numbers, answers)) {
        Ok(read) => Positioned {
            verdict: Verdict::Accepted,
            read,
        },
        Err(refusal) => Positioned {
            verdict: verdict(refusal),
            read: 0,
        },
    }
}

fn run(table: &[u8], choices: &[u8], observations: &mut [u8]) -> RunNumbers {
    run_numbers(with(|yardstick| {
        yardstick.run(table, choices, observations)
    }))
}

fn simulate(table: &[u8], experiment: &Experiment) -> SimulationNumbers {
    let Experiment { lo, hi, runs, seed } = *experiment;
    let answer = with(|yardstick| match seed {
        None => yardstick.simulate(table, lo, hi, runs),
        Some(seed) => yardstick.simulate_from(table, lo, hi, runs, seed),
    });
    match answer {
        Ok(counts) => SimulationNumbers {
            number: 0,
            component: 255,
            late: counts.late,
            nodes: counts.nodes,
            state: counts.state,
        },
        Err(refusal) => refused_simulation(refusal.number, refusal.component),
    }
}

fn run_apart(
    table: &[u8],
    choices: &[u8],
    spread: u32,
    offsets: &[u32],
    observations: &mut [u8],
) -> RunNumbers {
    run_numbers(with(|yardstick| {
        yardstick.run_apart(table, choices, spread, offsets, observations)
    }))
}

fn refusal_place(table: &[u8]) -> Option<PlaceNumbers> {
    let place = with(|yardstick| yardstick.refusal_place(table))?;
    let Place {
        number,
        component,
        part,
        edge,
        index,
        unbounded,
        start,
        offset,
        width,
        value,
        least,
        limit,
    } = place;
    let [number, component, part, edge, index] =
        [number, component, part, edge, index].map(u32::from);
    let unbounded = unbounded.into();
    Some([
        number, component, part, edge, index, start, offset, width, value, least, limit, unbounded,
    ])
}

fn refused_opening(table: &[u8]) -> Option<OpeningNumbers> {
    let opening = with(|yardstick| yardstick.refused_opening(table))?;
    let RefusedOpening {
        number,
        component,
        location,
        leaving,
        blocked,
        windowless,
        edge,
        update,
        passage,
        tick,
        clocks,
        variables,
    } = opening;
    let [number, component, location] = [number, component, location].map(i64::from);
    let [passage, tick] = [passage, tick].map(i64::from);
    let [x0, x1, x2, x3] = clocks.map(i64::from);
    let [v0, v1, v2, v3] = variables.map(i64::from);
    let [leaving, blocked, windowless] = [leaving, blocked, windowless].map(i64::from);
    let [edge, update] = [edge, update].map(i64::from);
    Some([
        number, component, passage, tick, location, x0, x1, x2, x3, v0, v1, v2, v3, leaving,
        blocked, windowless, edge, update,
    ])
}

fn run_numbers(answer: Result<Run, Refusal>) -> RunNumbers {
    match answer {
        Ok(run) => ran(&run),
        Err(refusal) => RunNumbers {
            number: refusal.number,
            component: refusal.component,
            end: 0,
            node: NO_NODE,
            tick: 0,
            used: 0,
            size: 0,
        },
    }
}

fn ran(run: &Run) -> RunNumbers {
    RunNumbers {
        number: 0,
        component: 255,
        end: run.end as u8,
        node: run.node,
        tick: run.tick,
        used: run.used as u32,
        size: run.size as u32,
    }
}

fn answer(size: Result<usize, Refusal>) -> Call {
    match size {
        Ok(size) => Call {
            verdict: Verdict::Accepted,
            size,
        },
        Err(refusal) => Call {
            verdict: verdict(refusal),
            size: 0,
        },
    }
}

fn verdict_of(answer: Result<(), Refusal>) -> Verdict {
    match answer {
        Ok(()) => Verdict::Accepted,
        Err(refusal) => verdict(refusal),
    }
}

fn verdict(refusal: Refusal) -> Verdict {
    refused(refusal.number, refusal.component)
}
