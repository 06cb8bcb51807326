//! Runs of the stored tables: for some accepted ones the choices, and what the run shows
//! of its finish ticks.

use super::{missing, names_with};
use std::collections::BTreeSet;
use std::fs;
use std::path::Path;

/// What a run is handed, and its answer: `end node tick used`, then for each observation
/// `node tick finish`, `-` for no finish tick, with `|` between them.
#[derive(Debug, Clone, PartialEq, Eq)]
pub struct StoredRun {
    pub spread: u32,
    pub offsets: Vec<u32>,
    pub choices: Vec<u8>,
    pub answer: String,
}

/// The names that have runs, sorted.
pub fn names_with_runs(folder: &Path) -> Result<BTreeSet<String>, String> {
    names_with(folder, "runs")
}

/// What is wrong with the runs: only an accepted table has some, and all have their form.
pub(super) fn verify(folder: &Path, accepted: &BTreeSet<String>) -> Result<Vec<String>, String> {
    let run = names_with_runs(folder)?;
    let mut problems = missing(&run, accepted, "has runs and is not accepted");
    problems.extend(run.iter().filter_map(|name| read(folder, name).err()));
    Ok(problems)
}

/// The stored runs of a name: spread, offsets, choices in hexadecimal and answer a line;
/// `-` for no offsets and for no choices.
pub fn read(folder: &Path, name: &str) -> Result<Vec<StoredRun>, String> {
    let file = format!("{name}.runs");
    let text = fs::read_to_string(folder.join(&file)).map_err(|e| format!("{file}: {e}"))?;
    let mut runs = Vec::new();
    for (index, line) in text.lines().enumerate() {
        let form = "write: G OFFSETS CHOICES END NODE TICK USED|NODE TICK FINISH..";
        let run = read_line(line);
        runs.push(run.ok_or_else(|| format!("{file}: line {}: {form}", index + 1))?);
    }
    match runs.is_empty() {
        true => Err(format!("{file}: is empty")),
        false => Ok(runs),
    }
}

fn read_line(line: &str) -> Option<StoredRun> {
    let [spread, offsets, choices, answer] = line.splitn(4, ' ').collect::<Vec<_>>()[..] else {
        return None;
    };
    let offsets: Option<Vec<u32>> = match offsets {
        "-" => Some(Vec::new()),
        words => words.split(',').map(|word| word.parse().ok()).collect(),
    };
    is_told(answer).then_some(StoredRun {
        spread: spread.parse().ok()?,
        offsets: offsets?,
        choices: unhex(choices)?,
        answer: answer.to_string(),
    })
}

/// Four numbers, then observations of two numbers and a finish tick each.
pub(super) fn is_told(answer: &str) -> bool {
    let are_numbers = |words: &[&str]| words.iter().all(|word| word.parse::<u32>().is_ok());
    let mut parts = answer.split('|').map(|part| part.split(' ').collect());
    let first: Vec<&str> = parts.next().unwrap_or_default();
    let is_shown = |words: Vec<&str>| match words[..] {
        [node, tick, "-"] => are_numbers(&[node, tick]),
        [_, _, _] => are_numbers(&words),
        _ => false,
    };
    first.len() == 4 && are_numbers(&first) && parts.all(is_shown)
}

pub(super) fn unhex(text: &str) -> Option<Vec<u8>> {
    if text == "-" {
        return Some(Vec::new());
    }
    let byte = |at: usize| u8::from_str_radix(text.get(at..at + 2)?, 16).ok();
    (0..text.len()).step_by(2).map(byte).collect()
}
