//! A run in the words that the verified program `trial_run` has for one: `RunText` in
//! `crates/run_text`. Only the columns of greater numbers are wider.

use super::super::told::{close_line, Shown};
use crate::refusals;
use timed_network::{End, Observation, Refused, Run};

const COLUMNS: &str =
    "node edge location  tick    x0    x1    x2    x3     v0     v1     v2     v3 finished\n";

/// The lines of a run.
pub fn told(
    close: Option<u32>,
    choices: &[u8],
    answer: &Result<Run, Refused>,
    shown: &[Shown],
) -> Vec<u8> {
    let run = match answer {
        Ok(run) => run,
        Err(refused) => return refusals::words(refused).into_bytes(),
    };
    let Run {
        tick, used, size, ..
    } = run;
    let mut words = format!(
        "{}\ntick {tick}, choices used {used}, observations {size}\n{COLUMNS}",
        end(run, choices)
    );
    for shown in shown.iter().filter(|shown| shown.is_told(close)) {
        words += &line(&shown.observation);
    }
    if let Some(close) = close {
        words += &close_line(close, shown);
    }
    words.into_bytes()
}

/// How it ended: the node that is late, or the choice that is not allowed.
fn end(run: &Run, choices: &[u8]) -> String {
    match run.end {
        End::Late => format!("late: node {}", run.node),
        End::NotAllowed => {
            let choice = choices.get(run.used as usize);
            let byte = choice.map_or(String::new(), |choice| format!(", byte {choice}"));
            format!("choice not allowed: number {}{byte}", run.used)
        }
        end => end.to_string(),
    }
}

fn line(of: &Observation) -> String {
    let mut line = format!("{:>4}{:>5}{:>9}", of.component, of.edge, of.location);
    for number in [of.tick].iter().chain(&of.clocks) {
        line += &format!(" {number:>5}");
    }
    for value in of.values {
        line += &format!(" {value:>6}");
    }
    let finish = of.previous_finish.map(|tick| tick.to_string());
    line + &format!(" {:>8}\n", finish.unwrap_or("-".to_string()))
}

#[cfg(test)]
mod tests {
    use super::*;

    /// As the stored output of `trial_run` has it.
    #[test]
    fn lines_are_those_of_the_program() {
        let stored = include_str!("../../../../../../crates/trial_run/stdout");
        let stored: Vec<&str> = stored.lines().collect();
        assert_eq!(format!("{}\n", stored[2]), COLUMNS);
        let shown = Observation {
            component: 1,
            edge: 1,
            location: 1,
            tick: 19,
            clocks: [9, 0, 0, 0],
            values: [1, 0, 0, 0],
            previous_finish: Some(13),
        };
        assert_eq!(line(&shown), format!("{}\n", stored[10]));
    }
}
