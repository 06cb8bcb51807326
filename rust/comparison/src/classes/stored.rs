//! The tables, programs, plans and runs that the repository keeps, with their
//! answers.

use super::Extent;
use crate::bytes::hex;
use crate::difference::{Outcome, Stop};
use crate::periods;
use crate::places::{refused_by, READ};
use crate::random::Random;
use crate::reasons::AMPLE;
use crate::requests::{self, Apart, Asked, Exported, Request};
use crate::runs::apart::Handed;
use crate::runs::AMPLE as AMPLE_RUN;
use crate::stored::{self, Stored};
use crate::trial::Trial;
use timed_network::{RunNumbers, POSITION};

pub(super) fn vectors(trial: &mut Trial, _: &mut Random, _: &Extent) -> Outcome {
    expect_all(trial, stored::vectors())
}

pub(super) fn corpus(trial: &mut Trial, _: &mut Random, _: &Extent) -> Outcome {
    expect_all(trial, stored::corpus())?;
    for (table, spread, answer) in stored::corpus_spreads().map_err(Stop::Unreadable)? {
        trial.expect_spread(&table, spread, answer)?;
    }
    for (table, run) in stored::corpus_runs().map_err(Stop::Unreadable)? {
        let handed = Handed {
            choices: &run.choices,
            spread: run.spread,
            offsets: &run.offsets,
        };
        trial.expect_shown(&table, &handed, &run.answer)?;
    }
    for (table, question, answer) in stored::corpus_questions().map_err(Stop::Unreadable)? {
        trial.expect_reasons(&table, &question, AMPLE, &answer)?;
    }
    for (table, list) in stored::corpus_pairs().map_err(Stop::Unreadable)? {
        let numbers = list.pairs.as_flattened();
        trial.expect_positions(&table, numbers, POSITION * list.pairs.len(), &list.answer)?;
    }
    for (table, period) in stored::corpus_periods().map_err(Stop::Unreadable)? {
        trial.expect_pair(&table, &period.pair)?;
        for run in &period.runs {
            let handed = periods::Handed {
                choices: &run.choices,
                horizon: run.horizon,
                lent: AMPLE_RUN,
            };
            trial.expect_shown_to(&table, &handed, &run.answer)?;
        }
    }
    for (table, answer, words) in stored::corpus_places().map_err(Stop::Unreadable)? {
        match refused_by(answer, &READ) {
            Some(_) => trial.expect_place(&table, &words)?,
            None => trial.expect_opening(&table, &words)?,
        }
    }
    Ok(())
}

fn expect_all(trial: &mut Trial, tables: Result<Vec<Stored>, String>) -> Outcome {
    for table in tables.map_err(Stop::Unreadable)? {
        match table.passages {
            Some(passages) => trial.expect_passages(&table.bytes, &passages)?,
            None => trial.expect(&table.bytes, table.answer)?,
        }
    }
    Ok(())
}

/// The programs, parts, charts, plans, edge choices, reasons, positions, verdicts at a
/// spread, runs, simulated ones, texts, sites, pairs, runs to a horizon and places of
/// refusals of the vectors.
pub(super) fn requests(trial: &mut Trial, _: &mut Random, _: &Extent) -> Outcome {
    for request in requests::requests().map_err(Stop::Unreadable)? {
        match &request {
            Request::Program { table, program } => trial.expect_program(table, program)?,
            Request::Part {
                program,
                node,
                part,
            } => trial.expect_part(program, *node, part)?,
            Request::Chart {
                table,
                lent,
                answer,
            } => {
                let answer = match answer {
                    Ok(rows) => hex(rows),
                    Err(refused) => refused.to_string(),
                };
                trial.expect_chart(table, *lent, &answer)?;
            }
            Request::Plan {
                slots,
                lent,
                answer,
            } => trial.expect_plan(*slots, *lent, answer)?,
            Request::Looked { table, answer } => trial.expect_looked(table, answer)?,
            Request::Why(why) => {
                trial.expect_reasons(&why.table, &why.question, why.lent, &why.answer)?
            }
            Request::Where(asked) => {
                trial.expect_positions(&asked.table, &asked.numbers, asked.lent, &asked.answer)?
            }
            Request::Run {
                table,
                choices,
                numbers,
                observations,
            } => {
                let answer = ran(numbers, observations.len());
                trial.expect_run(table, choices, &answer, observations)?;
            }
            Request::Simulated(request) => {
                trial.expect_simulation(&request.table, &request.experiment, &request.answer)?
            }
            Request::Exported(request) => expect_exported(trial, request)?,
            Request::Site(request) => trial.expect_site(request)?,
            Request::Repeated(request) => trial.expect_repeated(request)?,
            Request::Spread {
                table,
                spread,
                answer,
            } => trial.expect_spread(table, *spread, *answer)?,
            Request::Apart(request) => expect_apart(trial, request)?,
            Request::Place { table, answer } => trial.expect_place(table, answer)?,
            Request::Opening { table, answer } => trial.expect_opening(table, answer)?,
            Request::Refused {
                table,
                choices,
                answer,
            } => trial.expect_refused(table, choices, *answer)?,
        }
    }
    Ok(())
}

/// A text, or what its network has.
fn expect_exported(trial: &mut Trial, request: &Exported) -> Outcome {
    let Exported {
        table,
        asked,
        answer,
    } = request;
    match *asked {
        Asked::Counts(lent) => trial.expect_text(table, lent, answer),
        Asked::States(ticks) => trial.expect_explored(table, ticks, answer),
    }
}

/// A run of nodes that wake apart.
fn expect_apart(trial: &mut Trial, request: &Apart) -> Outcome {
    let handed = Handed {
        choices: &request.choices,
        spread: request.spread,
        offsets: &request.offsets,
    };
    trial.expect_run_apart(&request.table, &handed, request.lent, &request.answer)
}

/// The whole answer of a run that took place, with so many observations.
fn ran(&[end, node, tick, used]: &[u32; 4], observations: usize) -> RunNumbers {
    RunNumbers {
        number: 0,
        component: 255,
        end: end as u8,
        node: node as u8,
        tick,
        used,
        size: observations as u32,
    }
}
