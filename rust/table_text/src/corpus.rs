//! A folder of tables: for each name a source `NAME.txt` and its bytes
//! `NAME.bin`, for each accepted one its schedule `NAME.schedule` and why edges are
//! taken `NAME.why`, for some of them its chart `NAME.chart`, its verdicts at spreads
//! `NAME.spread`, runs `NAME.runs`, where components are at ticks `NAME.where`, text for
//! UPPAAL `NAME.xta` or from when to when everything comes again `NAME.period`, and one
//! file `answers.tsv` with the answers of checks 1 to 12.

mod pairs;
mod periods;
mod questions;
mod runs;

pub use pairs::{names_with_pairs, read as read_pairs, StoredPairs};
pub use periods::{names_with_periods, read as read_period, StoredLongRun, StoredPeriod};
pub use questions::{read as read_questions, Question};
pub use runs::{names_with_runs, read as read_runs, StoredRun};

use crate::encode_file;
use crate::schedule::{self, Passage};
use std::collections::BTreeSet;
use std::fmt;
use std::fs;
use std::path::Path;

const ANSWERS: &str = "answers.tsv";

/// What checks 1 to 12 have to answer.
#[derive(Debug, Clone, Copy, PartialEq, Eq)]
pub enum Answer {
    Accepted,
    Refused { number: u8, component: u8 },
}

impl fmt::Display for Answer {
    fn fmt(&self, out: &mut fmt::Formatter<'_>) -> fmt::Result {
        match self {
            Answer::Accepted => write!(out, "accepted"),
            Answer::Refused { number, component } => write!(out, "refused {number} {component}"),
        }
    }
}

/// Writes `NAME.bin` for every `NAME.txt`. Answers how many, or what went wrong.
pub fn build(folder: &Path) -> Result<usize, Vec<String>> {
    let names = names_with(folder, "txt").map_err(|problem| vec![problem])?;
    let problems: Vec<String> = names
        .iter()
        .filter_map(|name| build_one(folder, name).err())
        .collect();
    count_unless(problems, names.len())
}

fn build_one(folder: &Path, name: &str) -> Result<(), String> {
    let bytes = encode_source(folder, name)?;
    let file = format!("{name}.bin");
    fs::write(folder.join(&file), bytes).map_err(|error| format!("{file}: {error}"))
}

/// Tries that sources, bytes, answers and schedules belong together, name by
/// name. Answers how many names there are, or everything that is wrong.
pub fn verify(folder: &Path) -> Result<usize, Vec<String>> {
    let whole = |problem| vec![problem];
    let sources = names_with(folder, "txt").map_err(whole)?;
    let tables = names_with(folder, "bin").map_err(whole)?;
    let answers = read_answers(folder).map_err(whole)?;
    let answered: BTreeSet<String> = answers.iter().map(|(name, _)| name.clone()).collect();
    let mut problems = missing(&tables, &sources, "has no source (.txt)");
    problems.extend(missing(
        &answered,
        &sources,
        "has an answer and no source (.txt)",
    ));
    problems.extend(missing(&sources, &answered, "has no answer"));
    let differing = sources
        .iter()
        .filter_map(|name| verify_one(folder, name).err());
    problems.extend(differing);
    problems.extend(verify_schedules(folder, &answers).map_err(whole)?);
    problems.extend(questions::verify(folder, &accepted(&answers)).map_err(whole)?);
    problems.extend(runs::verify(folder, &accepted(&answers)).map_err(whole)?);
    problems.extend(pairs::verify(folder, &accepted(&answers)).map_err(whole)?);
    problems.extend(periods::verify(folder, &accepted(&answers)).map_err(whole)?);
    problems.extend(verify_charts(folder).map_err(whole)?);
    problems.extend(verify_spreads(folder, &answers).map_err(whole)?);
    count_unless(problems, sources.len())
}

/// What is wrong with the schedules: each accepted table has one, no other
/// has, and all are as the printer prints them.
fn verify_schedules(folder: &Path, answers: &[(String, Answer)]) -> Result<Vec<String>, String> {
    let stored = names_with(folder, "schedule")?;
    let accepted = accepted(answers);
    let mut problems = missing(&accepted, &stored, "is accepted and has no schedule");
    let message = "has a schedule and is not accepted";
    problems.extend(missing(&stored, &accepted, message));
    let unreadable = stored
        .iter()
        .filter_map(|name| read_schedule(folder, name).err());
    problems.extend(unreadable);
    Ok(problems)
}

/// The names of the accepted tables.
fn accepted(answers: &[(String, Answer)]) -> BTreeSet<String> {
    let accepted = answers.iter().filter(|(_, a)| *a == Answer::Accepted);
    accepted.map(|(name, _)| name.clone()).collect()
}

/// What is wrong with the charts: only a table with a schedule has one, and
/// all have the form that document 02 gives them.
fn verify_charts(folder: &Path) -> Result<Vec<String>, String> {
    let charts = names_with(folder, "chart")?;
    let scheduled = names_with(folder, "schedule")?;
    let mut problems = missing(&charts, &scheduled, "has a chart and no schedule");
    let unreadable = charts
        .iter()
        .filter_map(|name| read_chart(folder, name).err());
    problems.extend(unreadable);
    Ok(problems)
}

/// What is wrong with the verdicts at spreads: only a table with an answer has
/// some, and that at spread 0 is its answer.
fn verify_spreads(folder: &Path, answers: &[(String, Answer)]) -> Result<Vec<String>, String> {
    let mut problems = Vec::new();
    for name in names_with_spreads(folder)? {
        let own = answers.iter().find(|(answered, _)| *answered == name);
        match (own, read_spreads(folder, &name)) {
            (_, Err(problem)) => problems.push(problem),
            (None, _) => problems.push(format!("{name}: has verdicts at spreads and no answer")),
            (Some((_, answer)), Ok(spreads)) if spreads.first() != Some(&(0, *answer)) => {
                problems.push(format!("{name}.spread: line 1: write: 0 {answer}"));
            }
            _ => {}
        }
    }
    Ok(problems)
}

/// The names that have verdicts at spreads, sorted.
pub fn names_with_spreads(folder: &Path) -> Result<BTreeSet<String>, String> {
    names_with(folder, "spread")
}

/// The stored verdicts of a name: a spread and its answer a line, the spreads
/// rising.
pub fn read_spreads(folder: &Path, name: &str) -> Result<Vec<(u32, Answer)>, String> {
    let file = format!("{name}.spread");
    let text = fs::read_to_string(folder.join(&file)).map_err(|e| format!("{file}: {e}"))?;
    let mut spreads: Vec<(u32, Answer)> = Vec::new();
    for (index, line) in text.lines().enumerate() {
        let at_line = |message: &str| format!("{file}: line {}: {message}", index + 1);
        let read = line.split_once(' ').and_then(|(spread, answer)| {
            let spread = spread.parse().ok()?;
            Some((spread, read_answer(answer)?))
        });
        let (spread, answer) =
            read.ok_or_else(|| at_line("write: G, then: accepted, or: refused N C"))?;
        if spreads.last().is_some_and(|(before, _)| *before >= spread) {
            return Err(at_line("spreads must rise, each once"));
        }
        spreads.push((spread, answer));
    }
    Ok(spreads)
}

/// The stored chart of a name: for each component, from 0 on, `C`, its digit,
/// a colon, a space, 64 cells and a line feed.
pub fn read_chart(folder: &Path, name: &str) -> Result<String, String> {
    let file = format!("{name}.chart");
    let wrong = |problem: &dyn fmt::Display| format!("{file}: {problem}");
    let text = fs::read_to_string(folder.join(&file)).map_err(|error| wrong(&error))?;
    let rows: Vec<&str> = text.split_inclusive('\n').collect();
    for (number, row) in rows.iter().enumerate() {
        let cells = row.strip_prefix(&format!("C{number}: "));
        let cells = cells.and_then(|cells| cells.strip_suffix('\n'));
        let shown = |cell: char| " .WRS".contains(cell);
        if !cells.is_some_and(|cells| cells.len() == 64 && cells.chars().all(shown)) {
            return Err(wrong(&format!("line {}: not a row of a chart", number + 1)));
        }
    }
    match rows.len() {
        1..=8 => Ok(text),
        _ => Err(wrong(&"not one to eight rows")),
    }
}

/// The stored schedule of a name.
pub fn read_schedule(folder: &Path, name: &str) -> Result<Vec<Passage>, String> {
    let file = format!("{name}.schedule");
    let wrong = |problem: &dyn fmt::Display| format!("{file}: {problem}");
    let text = fs::read_to_string(folder.join(&file)).map_err(|error| wrong(&error))?;
    if !text.ends_with('\n') {
        return Err(wrong(&"the last line does not end"));
    }
    schedule::read(text.lines()).map_err(|problem| wrong(&problem))
}

fn verify_one(folder: &Path, name: &str) -> Result<(), String> {
    let given = encode_source(folder, name)?;
    let file = format!("{name}.bin");
    let stored = fs::read(folder.join(&file)).map_err(|error| format!("{file}: {error}"))?;
    if stored == given {
        Ok(())
    } else {
        Err(format!("{file}: differs from what {name}.txt gives"))
    }
}

fn missing(names: &BTreeSet<String>, among: &BTreeSet<String>, message: &str) -> Vec<String> {
    let absent = names.difference(among);
    absent.map(|name| format!("{name}: {message}")).collect()
}

fn count_unless(problems: Vec<String>, count: usize) -> Result<usize, Vec<String>> {
    if problems.is_empty() {
        Ok(count)
    } else {
        Err(problems)
    }
}

fn encode_source(folder: &Path, name: &str) -> Result<Vec<u8>, String> {
    let file = format!("{name}.txt");
    let source = fs::read(folder.join(&file)).map_err(|error| format!("{file}: {error}"))?;
    encode_file(&source).map_err(|error| format!("{file}: {error}"))
}

/// The names of a folder's files that end in this extension, sorted.
fn names_with(folder: &Path, extension: &str) -> Result<BTreeSet<String>, String> {
    let unreadable = |error| format!("{}: {error}", folder.display());
    let mut names = BTreeSet::new();
    for entry in fs::read_dir(folder).map_err(unreadable)? {
        let path = entry.map_err(unreadable)?.path();
        if path.extension().is_some_and(|found| found == extension) {
            let stem = path.file_stem().unwrap_or_default();
            names.insert(stem.to_string_lossy().into_owned());
        }
    }
    Ok(names)
}

/// The lines of `answers.tsv`: sorted names, each with its answer.
pub fn read_answers(folder: &Path) -> Result<Vec<(String, Answer)>, String> {
    let text = fs::read_to_string(folder.join(ANSWERS)).map_err(|e| format!("{ANSWERS}: {e}"))?;
    let mut answers: Vec<(String, Answer)> = Vec::new();
    for (index, line) in text.lines().enumerate() {
        let at_line = |message: &str| format!("{ANSWERS}: line {}: {message}", index + 1);
        let (name, answer) = read_answer_line(line)
            .ok_or_else(|| at_line("write: NAME, a tab, then: accepted, or: refused N C"))?;
        if answers.last().is_some_and(|(before, _)| *before >= name) {
            return Err(at_line("names must be sorted, each once"));
        }
        answers.push((name, answer));
    }
    Ok(answers)
}

fn read_answer_line(line: &str) -> Option<(String, Answer)> {
    let (name, answer) = line.split_once('\t')?;
    Some((name.to_string(), read_answer(answer)?))
}

/// `accepted`, or `refused N C`.
fn read_answer(text: &str) -> Option<Answer> {
    match text.split(' ').collect::<Vec<_>>().as_slice() {
        ["accepted"] => Some(Answer::Accepted),
        ["refused", number, component] => Some(Answer::Refused {
            number: number.parse().ok()?,
            component: component.parse().ok()?,
        }),
        _ => None,
    }
}
