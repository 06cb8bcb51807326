//! Pairs and runs to a horizon that are wrong in one point: the pair is sought by trying
//! all, over the schedule of the second implementation, and its machine runs with the
//! readies and the horizon that a wrong version goes by.
#![allow(dead_code)]

use comparison::readers::{refused, refused_run_to, second_run_to};
use reference::checks::verdict;
use reference::horizon::{readies_of, schedule_to};
use reference::period;
use reference::program::program;
use reference::run::{run_to_into, Readies};
use reference::schedule::Passage;
use reference::table::Table;
use timed_network::{Pair, RunToNumbers, Verdict, OBSERVATION};

/// What is wrong.
#[derive(Clone, Copy, Debug, PartialEq, Eq)]
pub enum Fault {
    /// Nothing.
    None,
    // Of the pair.
    LastClockForgotten,
    AbsentClocksCompared,
    VariablesForgotten,
    FirstLocationAlone,
    LocationsForgotten,
    MessagesCompared,
    StartLeftOut,
    FirstComponentAlone,
    UpToTheHorizon,
    LastPair,
    LeastFromFirst,
    TicksInPlaceOfTo,
    // Of the run.
    EndsAtOwnHorizon,
    OneTickLess,
    SixteenBits,
    NeverLateBeyond,
    ReadiesNotMoved,
    ReadiesFromRowZero,
    ReadiesOneRowTooMany,
    CountsOwnPassages,
    CountsAPeriodMore,
    CountsEndsBelow,
    ThirteenFirst,
    OwnHorizonRefused,
    BeyondWithoutPair,
    ZeroIsOwn,
    FourteenApplies,
}

/// What a component enters with, as a wrong version sees it.
type State = (u8, Vec<u32>, Vec<i16>, Option<u8>);

fn state(table: &Table, passage: &Passage, fault: Fault) -> State {
    let component = &table.components[usize::from(passage.component)];
    let clocks = usize::from(component.clocks);
    let mut seen = match fault {
        Fault::LastClockForgotten => passage.clocks[..clocks - 1].to_vec(),
        _ => passage.clocks[..clocks].to_vec(),
    };
    if fault == Fault::AbsentClocksCompared {
        // What nothing ever resets has grown since the start.
        seen.extend(vec![passage.entry; 4 - clocks]);
    }
    let variables = match fault {
        Fault::VariablesForgotten => Vec::new(),
        _ => passage.variables.to_vec(),
    };
    let location = match fault {
        Fault::LocationsForgotten => 0,
        Fault::FirstLocationAlone if passage.component > 0 => 0,
        _ => passage.location,
    };
    let message = passage.message.filter(|_| fault == Fault::MessagesCompared);
    (location, seen, variables, message)
}

/// The ticks at which all components enter, with their states.
fn joints(table: &Table, passages: &[Passage], fault: Fault) -> Vec<(u32, Vec<State>)> {
    let count = match fault {
        Fault::FirstComponentAlone => 1,
        _ => table.components.len(),
    };
    let least = u32::from(fault == Fault::StartLeftOut);
    let first = passages
        .iter()
        .filter(|p| p.component == 0 && p.entry >= least);
    let entered = first.filter_map(|first| {
        let own = |c: usize| {
            let entered = |p: &&Passage| usize::from(p.component) == c && p.entry == first.entry;
            let passage = passages.iter().find(entered)?;
            Some(state(table, passage, fault))
        };
        let states: Option<Vec<State>> = (0..count).map(own).collect();
        Some((first.entry, states?))
    });
    entered.collect()
}

fn pair(table: &Table, passages: &[Passage], fault: Fault) -> Option<Pair> {
    let longer = Table {
        horizon: table.horizon + 1,
        ..table.clone()
    };
    let more = match fault {
        Fault::UpToTheHorizon => reference::schedule::schedule(&longer).ok(),
        _ => None,
    };
    let joints = joints(table, more.as_deref().unwrap_or(passages), fault);
    let mut pairs = Vec::new();
    for (to, at_b) in &joints {
        for (from, at_a) in &joints {
            if from < to && at_a == at_b {
                let (from, to) = (*from, *to);
                pairs.push(Pair { from, to });
            }
        }
    }
    match fault {
        Fault::LastPair => pairs.last().copied(),
        Fault::LeastFromFirst => pairs.iter().max_by_key(|pair| pair.to).copied(),
        Fault::TicksInPlaceOfTo => pairs.first().map(|pair| Pair {
            to: pair.ticks(),
            ..*pair
        }),
        _ => pairs.first().copied(),
    }
}

/// The pair of a table.
pub fn asked(table: &[u8], fault: Fault) -> Result<Option<Pair>, Verdict> {
    match verdict(table) {
        Ok((table, passages)) => Ok(pair(&table, &passages, fault)),
        Err(refusal) => Err(refused(refusal.number, refusal.component)),
    }
}

/// The readies of the rows that come again, as a wrong version has them.
fn readies(table: &Table, passages: &[Passage], horizon: u32, fault: Fault) -> Readies {
    let right = || {
        let stays = schedule_to(table, horizon.into(), usize::MAX);
        readies_of(&stays.unwrap_or_default())
    };
    let own = u32::from(table.horizon);
    let Some(period::Pair { from, to }) = period::pair(table, passages) else {
        return right();
    };
    if horizon <= own {
        return right();
    }
    let rows = |from: u32, to: u32| {
        let between = move |p: &&Passage| (from..to).contains(&p.entry);
        passages.iter().filter(between)
    };
    let mut readies = Readies::default();
    let mut put = |p: &Passage, moved: u32| {
        let ready = u64::from(p.ready) + u64::from(moved);
        readies[usize::from(p.component)].push(ready);
    };
    let last = match fault {
        Fault::NeverLateBeyond => own,
        Fault::ReadiesOneRowTooMany => to + 1,
        _ => to,
    };
    rows(0, last).for_each(|p| put(p, 0));
    let again = match fault {
        Fault::ReadiesFromRowZero => 0,
        _ => from,
    };
    let turns = (horizon - from) / (to - from);
    for turn in 1..=turns {
        let moved = match fault {
            Fault::NeverLateBeyond => break,
            Fault::ReadiesNotMoved => 0,
            _ => turn * (to - from),
        };
        rows(again, to).for_each(|p| put(p, moved));
    }
    readies
}

/// The passages that a wrong version counts for 13.
fn counted(table: &Table, passages: &[Passage], horizon: u32, fault: Fault) -> u64 {
    let stays = schedule_to(table, horizon.into(), usize::MAX).unwrap_or_default();
    match fault {
        Fault::CountsOwnPassages => passages.len() as u64,
        Fault::CountsAPeriodMore => {
            let pair = period::pair(table, passages);
            let round = pair.map_or(0, |pair| {
                let between = |p: &&Passage| (pair.from..pair.to).contains(&p.entry);
                passages.iter().filter(between).count() as u64
            });
            stays.len() as u64 + round * u64::from(horizon > u32::from(table.horizon))
        }
        Fault::CountsEndsBelow => {
            let ended = stays.iter().filter(|stay| stay.end() < horizon.into());
            ended.count() as u64
        }
        _ => stays.len() as u64,
    }
}

/// The horizon that a wrong version goes by.
fn gone_by(table: &Table, horizon: u32, fault: Fault) -> u32 {
    let own = u32::from(table.horizon);
    match fault {
        Fault::EndsAtOwnHorizon => horizon.min(own),
        Fault::OneTickLess if horizon > 1 => horizon - 1,
        Fault::SixteenBits => u32::from(horizon as u16),
        Fault::ZeroIsOwn if horizon == 0 => own,
        _ => horizon,
    }
}

/// A run to a horizon.
pub fn run_to(
    bytes: &[u8],
    choices: &[u8],
    horizon: u32,
    observations: &mut [u8],
    fault: Fault,
) -> RunToNumbers {
    let Ok((table, passages)) = verdict(bytes) else {
        return second_run_to(bytes, choices, horizon, observations);
    };
    let own = u32::from(table.horizon);
    let horizon = gone_by(&table, horizon, fault);
    let room = observations.len() / OBSERVATION;
    let mut reached = period::reachable(&table, &passages, horizon).is_ok();
    if fault == Fault::OwnHorizonRefused && horizon == own {
        reached = false;
    }
    let mut to = horizon;
    if fault == Fault::BeyondWithoutPair && horizon > own && !reached {
        (reached, to) = (true, own);
    }
    if fault == Fault::ThirteenFirst && !reached && room < passages.len() {
        return refused_run_to(13, 255);
    }
    if !reached {
        return refused_run_to(29, 255);
    }
    // The right answer where there is no room, without the whole of a long schedule.
    let stays = schedule_to(&table, to.into(), room + 2048);
    if stays.is_none() || counted(&table, &passages, to, fault) > room as u64 {
        return refused_run_to(13, 255);
    }
    if fault == Fault::FourteenApplies && choices.len() > 1_000_000 {
        return refused_run_to(14, 255);
    }
    let readies = match fault {
        Fault::None => readies_of(&stays.unwrap_or_default()),
        _ => readies(&table, &passages, to, fault),
    };
    let program = program(&table);
    let mut lent = vec![0; OBSERVATION * room.max(4096)];
    let answer = run_to_into(&table, readies, &program, choices, to, &mut lent);
    let (outcome, size) = answer.expect("the program of an accepted table can be opened");
    let size = size.min(room);
    observations[..OBSERVATION * size].copy_from_slice(&lent[..OBSERVATION * size]);
    RunToNumbers {
        number: 0,
        component: 255,
        end: outcome.end as u8,
        node: outcome.node,
        tick: outcome.tick,
        used: outcome.used,
        size: size as u64,
    }
}
