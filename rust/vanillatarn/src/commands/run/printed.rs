//! The proved words of a run, held to the library's answer: both are proved to agree, so
//! another one comes of something that is not the verified program.

use super::told::Answer;
use timed_network::{End, Observation, Run, Verdict};

/// What the program wrote.
pub(super) struct Printed {
    /// What stands before the observations, a refusal or the head of the columns among it.
    pub(super) head: String,
    /// The line of each observation.
    pub(super) lines: Vec<String>,
}

impl Printed {
    pub(super) fn of(
        words: &str,
        answer: &Answer,
        observations: &[Observation],
    ) -> Result<Printed, String> {
        let mut lines: Vec<&str> = words.lines().collect();
        let first = lines.first().copied().unwrap_or_default();
        let (begins, counts) = match answer {
            Ok(run) => (first.starts_with(&beginning(run)), Some(counts(run))),
            Err(refused) => (first == Verdict::from(*refused).to_string(), None),
        };
        if !begins || counts.is_some_and(|counts| lines.get(1) != Some(&counts.as_str())) {
            return Err(format!("its answer is not the library's: {first}"));
        }
        let place = lines.len().checked_sub(observations.len());
        let own = lines.split_off(place.ok_or("lines are missing")?);
        for (line, observation) in own.iter().zip(observations) {
            if line.split_whitespace().ne(columns(observation)) {
                return Err(format!("an observation is not the library's: {line}"));
            }
        }
        Ok(Printed {
            head: lines.iter().map(|line| format!("{line}\n")).collect(),
            lines: own.iter().map(|line| line.to_string()).collect(),
        })
    }
}

/// How the first line begins.
fn beginning(run: &Run) -> String {
    match run.end {
        End::Late => format!("late: node {}", run.node),
        end => end.to_string(),
    }
}

/// The second line.
fn counts(run: &Run) -> String {
    let Run {
        tick, used, size, ..
    } = run;
    format!("tick {tick}, choices used {used}, observations {size}")
}

/// The columns of an observation.
fn columns(shown: &Observation) -> Vec<String> {
    let place = [shown.component, shown.edge, shown.location].map(|number| number.to_string());
    let finish = shown.previous_finish.map(|tick| tick.to_string());
    let mut columns = place.to_vec();
    columns.push(shown.tick.to_string());
    columns.extend(shown.clocks.map(|clock| clock.to_string()));
    columns.extend(shown.values.map(|value| value.to_string()));
    columns.push(finish.unwrap_or("-".to_string()));
    columns
}
