//! From when to when everything of the stored tables comes again: for some accepted ones
//! the pair, and runs to horizons.

use super::runs::{is_told, unhex};
use super::{missing, names_with};
use std::collections::BTreeSet;
use std::fs;
use std::path::Path;

/// The pair, `A B` or `none`, and runs.
#[derive(Debug, Clone, PartialEq, Eq)]
pub struct StoredPeriod {
    pub pair: String,
    pub runs: Vec<StoredLongRun>,
}

/// A run to a horizon, and its answer as that of a run.
#[derive(Debug, Clone, PartialEq, Eq)]
pub struct StoredLongRun {
    pub horizon: u32,
    pub choices: Vec<u8>,
    pub answer: String,
}

/// The names that have pairs and runs to horizons, sorted.
pub fn names_with_periods(folder: &Path) -> Result<BTreeSet<String>, String> {
    names_with(folder, "period")
}

/// What is wrong with them: only an accepted table has some, and all have their form.
pub(super) fn verify(folder: &Path, accepted: &BTreeSet<String>) -> Result<Vec<String>, String> {
    let stored = names_with_periods(folder)?;
    let mut problems = missing(&stored, accepted, "has a period and is not accepted");
    problems.extend(stored.iter().filter_map(|name| read(folder, name).err()));
    Ok(problems)
}

/// What is stored of a name: the pair in the first line, then horizon, choices in
/// hexadecimal and answer a line.
pub fn read(folder: &Path, name: &str) -> Result<StoredPeriod, String> {
    let file = format!("{name}.period");
    let text = fs::read_to_string(folder.join(&file)).map_err(|e| format!("{file}: {e}"))?;
    let mut lines = text.lines();
    let pair = lines.next().unwrap_or_default().to_string();
    let numbers: Vec<&str> = pair.split(' ').collect();
    let is_pair = numbers.len() == 2 && numbers.iter().all(|word| word.parse::<u32>().is_ok());
    if !is_pair && pair != "none" {
        return Err(format!("{file}: line 1: write: A B, or: none"));
    }
    let mut runs = Vec::new();
    for (index, line) in lines.enumerate() {
        let form = "write: HORIZON CHOICES END NODE TICK USED|NODE TICK FINISH..";
        let run = read_line(line);
        runs.push(run.ok_or_else(|| format!("{file}: line {}: {form}", index + 2))?);
    }
    Ok(StoredPeriod { pair, runs })
}

fn read_line(line: &str) -> Option<StoredLongRun> {
    let [horizon, choices, answer] = line.splitn(3, ' ').collect::<Vec<_>>()[..] else {
        return None;
    };
    is_told(answer).then_some(StoredLongRun {
        horizon: horizon.parse().ok()?,
        choices: unhex(choices)?,
        answer: answer.to_string(),
    })
}
