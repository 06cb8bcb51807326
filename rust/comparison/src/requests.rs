//! The programs, parts, charts, plans, edge choices, reasons, positions, verdicts at a
//! spread, runs, simulated ones, texts, sites, pairs, runs to a horizon and places of
//! refusals that the vectors keep, with their answers.

mod apart;
mod exported;
mod periods;
mod positions;
mod simulated;
mod site;
mod why;

pub use apart::Apart;
pub use exported::{Asked, Exported};
pub use periods::{Long, Repeated};
pub use positions::Where;
pub use simulated::Simulated;
pub use site::{calls, Sited};
pub use why::Why;

use crate::bytes::unhex;
use crate::stored::{read_answer, vector_lines};
use timed_network::{Slots, Verdict, MAX_PLAN};

/// A request and what has to be answered.
#[derive(Clone, Debug, PartialEq, Eq)]
pub enum Request {
    /// The program of a table.
    Program {
        /// The table.
        table: Vec<u8>,
        /// Its program.
        program: Vec<u8>,
    },
    /// The part of one node.
    Part {
        /// The program bytes.
        program: Vec<u8>,
        /// The number of the node.
        node: u8,
        /// Its part.
        part: Vec<u8>,
    },
    /// The chart of a table.
    Chart {
        /// The table.
        table: Vec<u8>,
        /// How many bytes are lent.
        lent: usize,
        /// The rows, or why there are none.
        answer: Result<Vec<u8>, Verdict>,
    },
    /// The table of a plan.
    Plan {
        /// What it is made from.
        slots: Slots,
        /// How many bytes are lent.
        lent: usize,
        /// The bytes in hexadecimal, or why there are none.
        answer: String,
    },
    /// How many edges are looked at, passage by passage.
    Looked {
        /// The table.
        table: Vec<u8>,
        /// The numbers in the order of the schedule, or why there are none.
        answer: Result<Vec<u32>, Verdict>,
    },
    /// Why an edge is taken.
    Why(Why),
    /// Where components are at ticks.
    Where(Where),
    /// A run of a table.
    Run {
        /// The table.
        table: Vec<u8>,
        /// The choices.
        choices: Vec<u8>,
        /// End, node, tick and choices used.
        numbers: [u32; 4],
        /// The observations, each as far as it is stored.
        observations: Vec<Vec<u8>>,
    },
    /// Simulated runs of a table.
    Simulated(Simulated),
    /// The text of a table for UPPAAL.
    Exported(Exported),
    /// An airtime, or calls of a site.
    Site(Sited),
    /// What comes again, or a run to a horizon.
    Repeated(Repeated),
    /// The verdict on a table at a spread.
    Spread {
        /// The table.
        table: Vec<u8>,
        /// The spread.
        spread: u32,
        /// The verdict.
        answer: Verdict,
    },
    /// A run of nodes that wake apart.
    Apart(Apart),
    /// Where checks 4 to 6 stop.
    Place {
        /// The table.
        table: Vec<u8>,
        /// The twelve words, or `none`.
        answer: String,
    },
    /// Where checks 7 to 9 stop.
    Opening {
        /// The table.
        table: Vec<u8>,
        /// The twelve words, or `none`.
        answer: String,
    },
    /// A program or a run of a table that is refused.
    Refused {
        /// The table.
        table: Vec<u8>,
        /// The choices, if it is a run.
        choices: Vec<u8>,
        /// The refusal.
        answer: Verdict,
    },
}

/// All such requests of the vectors.
pub fn requests() -> Result<Vec<Request>, String> {
    let requests = vector_lines(request)?;
    Ok(requests.into_iter().flatten().collect())
}

/// A line with name, request and answer between tabs; the inner nothing for a
/// request of another kind, the outer one if the line is not a vector.
fn request(line: &str) -> Option<Option<Request>> {
    let fields: Vec<&str> = line.split('\t').collect();
    let [_, request, answer] = fields[..] else {
        return None;
    };
    let words: Vec<&str> = request.split(' ').collect();
    let refused = read_answer(answer);
    Some(Some(match (&words[..], refused) {
        (["program", table], Some(answer)) => Request::Refused {
            table: unhex(table)?,
            choices: Vec::new(),
            answer,
        },
        (["run", table, choices], Some(answer)) => Request::Refused {
            table: unhex(table)?,
            choices: unhex(choices)?,
            answer,
        },
        (["program", table], None) => Request::Program {
            table: unhex(table)?,
            program: unhex(answer)?,
        },
        (["part", program, node], _) => Request::Part {
            program: unhex(program)?,
            node: node.parse().ok()?,
            part: unhex(answer)?,
        },
        (["chart", table], _) => chart(table, "552", answer)?,
        (["chart", table, lent], _) => chart(table, lent, answer)?,
        (["plan", numbers @ ..], _) => plan(numbers, answer)?,
        (["looked", table], _) => looked(table, answer)?,
        (["why", ..] | ["lent", _, "why", ..], _) => Request::Why(why::read(&words, answer)?),
        (["where", ..] | ["lent", _, "where", ..], _) => {
            Request::Where(positions::read(&words, answer)?)
        }
        (["sim", ..], _) => Request::Simulated(simulated::read(&words, answer)?),
        (["uppaal" | "explore", ..], _) => Request::Exported(exported::read(&words, answer)?),
        (["air" | "ledger", ..], _) => Request::Site(site::read(&words, answer)?),
        (["period" | "long", ..] | ["lent", _, "long", ..], _) => {
            Request::Repeated(periods::read(&words, answer)?)
        }
        (["place", table], _) => Request::Place {
            table: unhex(table)?,
            answer: located(answer)?,
        },
        (["opening", table], _) => Request::Opening {
            table: unhex(table)?,
            answer: located(answer)?,
        },
        (["check", table, spread], Some(answer)) => Request::Spread {
            table: unhex(table)?,
            spread: spread.parse().ok()?,
            answer,
        },
        (["run", _, _, _, ..] | ["lent", _, "run", ..], _) => {
            Request::Apart(apart::read(&words, answer)?)
        }
        (["run", table, choices], None) => run(unhex(table)?, unhex(choices)?, answer)?,
        _ => return Some(None),
    }))
}

/// Rows without their line feeds, with `|` between them, or a refusal.
fn chart(table: &str, lent: &str, answer: &str) -> Option<Request> {
    let answer = match read_answer(answer) {
        Some(Verdict::Accepted) => return None,
        Some(refused) => Err(refused),
        None => Ok(format!("{}\n", answer.replace('|', "\n")).into_bytes()),
    };
    Some(Request::Chart {
        table: unhex(table)?,
        lent: lent.parse().ok()?,
        answer,
    })
}

/// The four numbers of a plan, then, where it is said, how many bytes are lent.
fn plan(words: &[&str], answer: &str) -> Option<Request> {
    let numbers: Option<Vec<u32>> = words.iter().map(|word| word.parse().ok()).collect();
    let (slots, lent) = match numbers?[..] {
        [probes, slot, guard, period, ref lent @ ..] if lent.len() <= 1 => {
            let slots = Slots {
                probes,
                slot,
                guard,
                period,
            };
            (slots, lent.first().map_or(MAX_PLAN, |&lent| lent as usize))
        }
        _ => return None,
    };
    let answer = answer.to_string();
    Some(Request::Plan {
        slots,
        lent,
        answer,
    })
}

/// A number a passage, or a refusal.
fn looked(table: &str, answer: &str) -> Option<Request> {
    let answer = match read_answer(answer) {
        Some(Verdict::Accepted) => return None,
        Some(refused) => Err(refused),
        None => {
            let numbers = answer.split(' ').map(|word| word.parse().ok());
            Ok(numbers.collect::<Option<Vec<u32>>>()?)
        }
    };
    Some(Request::Looked {
        table: unhex(table)?,
        answer,
    })
}

/// Twelve words, or `none`.
pub(crate) fn located(answer: &str) -> Option<String> {
    let there = answer == "none" || answer.split(' ').count() == 12;
    there.then(|| answer.to_string())
}

/// `end node tick used`, then each observation, with `|` between them.
fn run(table: Vec<u8>, choices: Vec<u8>, answer: &str) -> Option<Request> {
    let mut parts = answer.split('|');
    let words = parts.next()?.split(' ');
    let numbers: Option<Vec<u32>> = words.map(|word| word.parse().ok()).collect();
    let observations: Option<Vec<Vec<u8>>> = parts.map(unhex).collect();
    Some(Request::Run {
        table,
        choices,
        numbers: numbers?.try_into().ok()?,
        observations: observations?,
    })
}

#[cfg(test)]
mod tests {
    use super::*;
    use crate::readers::refused;

    #[test]
    fn requests_are_read() {
        let (table, choices) = (vec![1, 2], vec![0, 255]);
        let read = request("a\tprogram 0102\t0304");
        let program = vec![3, 4];
        let expected = Request::Program {
            table: table.clone(),
            program,
        };
        assert_eq!(read, Some(Some(expected)));
        let read = request("a\tpart 0102 255\t-");
        let expected = Request::Part {
            program: vec![1, 2],
            node: 255,
            part: Vec::new(),
        };
        assert_eq!(read, Some(Some(expected)));
        let read = request("a\trun 0102 00ff\t1 255 1 2|05|06");
        let expected = Request::Run {
            table: table.clone(),
            choices: choices.clone(),
            numbers: [1, 255, 1, 2],
            observations: vec![vec![5], vec![6]],
        };
        assert_eq!(read, Some(Some(expected)));
        let read = request("a\trun 0102 00ff\trefused 2 255");
        let answer = refused(2, 255);
        let expected = Request::Refused {
            table,
            choices,
            answer,
        };
        assert_eq!(read, Some(Some(expected)));
    }

    #[test]
    fn charts_are_read() {
        let chart = |lent, answer| {
            let table = vec![1, 2];
            Some(Some(Request::Chart {
                table,
                lent,
                answer,
            }))
        };
        let read = request("a\tchart 0102\tC0: ..|C1: SS");
        assert_eq!(read, chart(552, Ok(b"C0: ..\nC1: SS\n".to_vec())));
        let read = request("a\tchart 0102 137\trefused 13 255");
        assert_eq!(read, chart(137, Err(refused(13, 255))));
        assert_eq!(request("a\tchart 0102\taccepted"), None);
    }

    #[test]
    fn plans_are_read() {
        let plan = |lent, answer: &str| {
            let slots = Slots {
                probes: 2,
                slot: 1,
                guard: 3,
                period: 70,
            };
            let answer = answer.to_string();
            Some(Some(Request::Plan {
                slots,
                lent,
                answer,
            }))
        };
        let read = request("a\tplan 2 1 3 70\t0102");
        assert_eq!(read, plan(MAX_PLAN, "0102"));
        let read = request("a\tplan 2 1 3 70 13\trefused 13 255");
        assert_eq!(read, plan(13, "refused 13 255"));
        assert_eq!(request("a\tplan 2 1 3\t0102"), None);
        assert_eq!(request("a\tplan 2 1 3 70 13 9\t0102"), None);
    }

    #[test]
    fn edge_choices_are_read() {
        let looked = |answer| {
            let table = vec![1, 2];
            Some(Some(Request::Looked { table, answer }))
        };
        let read = request("a\tlooked 0102\t3 1 32");
        assert_eq!(read, looked(Ok(vec![3, 1, 32])));
        let read = request("a\tlooked 0102\trefused 8 0");
        assert_eq!(read, looked(Err(refused(8, 0))));
        assert_eq!(request("a\tlooked 0102\t3 x"), None);
    }

    #[test]
    fn places_are_read() {
        let table = vec![1, 2];
        let answer = "5 0 2 - - 7 2 1 0 1 17 0".to_string();
        let read = request("a\tplace 0102\t5 0 2 - - 7 2 1 0 1 17 0");
        assert_eq!(
            read,
            Some(Some(Request::Place {
                table: table.clone(),
                answer
            }))
        );
        let answer = "none".to_string();
        let read = request("a\topening 0102\tnone");
        assert_eq!(read, Some(Some(Request::Opening { table, answer })));
        assert_eq!(request("a\tplace 0102\t5 0 2"), None);
        assert_eq!(request("a\topening 010\tnone"), None);
    }

    #[test]
    fn other_lines_are_left_aside_or_not_vectors() {
        assert_eq!(request("a\tcheck 0102\taccepted"), Some(None));
        assert_eq!(request("a\tprogram 0102"), None);
        assert_eq!(request("a\tpart 0102 256\t-"), None);
        assert_eq!(request("a\trun 0102 00ff\t1 255 1"), None);
    }
}
