//! The observations of a run: what the proved words tell, those alone whose previous work
//! finished close to its window's end, or an object.

use super::json;
use super::printed::Printed;
use crate::json::array;
use crate::options::Form;
use timed_network::{passages, run_apart, Observation, Refused, Run};
use timed_network::{FIELDS, MAX_PASSAGES, OBSERVATION};

/// What a run is answered with.
pub(super) type Answer = Result<Run, Refused>;

/// How a run is told.
pub(super) struct Report<'a> {
    pub form: Form,
    /// Which observations are told: those whose previous work finished so many ticks
    /// or less before its window's end; all without it.
    pub close: Option<u32>,
    pub spread: u32,
    pub offsets: &'a [u32],
}

/// The window of the passage before an observation's.
#[derive(Clone, Copy, Debug, PartialEq, Eq)]
pub(super) struct Window {
    pub(super) ready: u32,
    pub(super) end: u32,
}

/// An observation with the window of its node's passage before.
#[derive(Clone, Copy, Debug, PartialEq, Eq)]
pub(super) struct Shown {
    pub(super) observation: Observation,
    pub(super) window: Option<Window>,
}

impl Shown {
    /// How many ticks before its window's end the previous work finished.
    fn left(&self) -> Option<u32> {
        let finish = self.observation.previous_finish?;
        Some(self.window?.end.saturating_sub(finish))
    }

    pub(super) fn is_told(&self, close: Option<u32>) -> bool {
        close.is_none_or(|close| self.left().is_some_and(|left| left <= close))
    }
}

impl Report<'_> {
    /// What is told of a run of which the words are these, or what is wrong with the words.
    pub fn told(&self, table: &[u8], choices: &[u8], words: &str) -> Result<Vec<u8>, String> {
        let mut bytes = vec![0; OBSERVATION * MAX_PASSAGES];
        let answer = run_apart(table, choices, self.spread, self.offsets, &mut bytes);
        let observations: Vec<Observation> = match &answer {
            Ok(run) => run.observations(&bytes).collect(),
            Err(_) => Vec::new(),
        };
        let printed = Printed::of(words, &answer, &observations)?;
        let shown = with_windows(&passages(table).unwrap_or_default(), &observations);
        Ok(match self.form {
            Form::Words => self.words(&printed, &shown),
            Form::Json => {
                let head = vec![
                    ("spread", self.spread.to_string()),
                    ("offsets", array(self.offsets)),
                ];
                json::line(head, self.close, &answer, &shown)
            }
        })
    }

    /// The lines of the program, without those of observations that are not told; then
    /// how many of them are.
    fn words(&self, printed: &Printed, shown: &[Shown]) -> Vec<u8> {
        let mut words = printed.head.clone();
        for (line, shown) in printed.lines.iter().zip(shown) {
            if shown.is_told(self.close) {
                words += &format!("{line}\n");
            }
        }
        if let Some(close) = self.close {
            words += &close_line(close, shown);
        }
        words.into_bytes()
    }
}

/// How many works finished so close to the end of their windows.
pub(super) fn close_line(close: u32, shown: &[Shown]) -> String {
    let works = shown.iter().filter(|shown| shown.left().is_some()).count();
    let near = shown.iter().filter(|shown| shown.is_told(Some(close)));
    let (near, when) = (near.count(), when(close));
    format!("{near} of {works} works finished {when}\n")
}

/// So many ticks or less before a window's end, in words.
fn when(close: u32) -> String {
    match close {
        0 => "at the end of their windows".to_string(),
        1 => "1 tick or less before the end of their windows".to_string(),
        close => format!("{close} ticks or less before the end of their windows"),
    }
}

/// Each observation with the window of its node's passage before: a node's observations
/// are those of its first passages, in order.
fn with_windows(schedule: &[[u32; FIELDS]], observations: &[Observation]) -> Vec<Shown> {
    let mut counts = [0; 256];
    let mut shown = Vec::new();
    for observation in observations {
        let node = usize::from(observation.component);
        let own = schedule.iter().filter(|row| row[0] as usize == node);
        let before = match counts[node] {
            0 => None,
            count => own.clone().nth(count - 1),
        };
        counts[node] += 1;
        shown.push(Shown {
            observation: *observation,
            window: before.map(|row| Window {
                ready: row[4],
                end: row[5],
            }),
        });
    }
    shown
}

#[cfg(test)]
#[path = "tests.rs"]
mod tests;
