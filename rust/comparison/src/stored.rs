//! The tables that the repository keeps, with their answers and schedules.

use crate::bytes::unhex;
use crate::reasons::Question;
use crate::requests::located;
use std::fs;
use std::path::{Path, PathBuf};
use table_text::corpus::{
    names_with_pairs, names_with_periods, names_with_runs, names_with_spreads, read_answers,
    read_pairs, read_period, read_questions, read_runs, read_schedule, read_spreads, Answer,
    StoredPairs, StoredPeriod, StoredRun,
};
use table_text::schedule::{self, Passage};
use timed_network::Verdict;

/// A table and what has to be said of it.
#[derive(Clone, Debug, PartialEq, Eq)]
pub struct Stored {
    /// The table.
    pub bytes: Vec<u8>,
    /// What checks 1 to 12 have to say.
    pub answer: Verdict,
    /// Its schedule, where one is kept.
    pub passages: Option<Vec<Passage>>,
}

/// The `check` and `schedule` requests of all files of vectors.
pub fn vectors() -> Result<Vec<Stored>, String> {
    let stored = vector_lines(vector)?;
    Ok(stored.into_iter().flatten().collect())
}

/// What a reader of lines gives for each line of all files of vectors.
pub(crate) fn vector_lines<T>(read: fn(&str) -> Option<T>) -> Result<Vec<T>, String> {
    let folder = folder("vectors");
    let mut all = Vec::new();
    for file in files_of(&folder, "tsv")? {
        let text = fs::read_to_string(&file).map_err(|error| at(&file, &error.to_string()))?;
        for (index, line) in text.lines().enumerate() {
            let misread = || at(&file, &format!("line {} is not a vector", index + 1));
            all.push(read(line).ok_or_else(misread)?);
        }
    }
    Ok(all)
}

/// A line with name, request and answer between tabs, nothing if the request
/// is neither `check` without a spread nor `schedule`.
fn vector(line: &str) -> Option<Option<Stored>> {
    let fields: Vec<&str> = line.split('\t').collect();
    let [_, request, answer] = fields[..] else {
        return None;
    };
    let words: Vec<&str> = request.split(' ').collect();
    let (table, (answer, passages)) = match words[..] {
        ["check", table] => (table, (read_answer(answer)?, None)),
        ["schedule", table] => (table, read_schedule_answer(answer)?),
        _ => return Some(None),
    };
    Some(Some(Stored {
        bytes: unhex(table)?,
        answer,
        passages,
    }))
}

/// The printer's lines with `|` between them, or a refusal.
fn read_schedule_answer(text: &str) -> Option<(Verdict, Option<Vec<Passage>>)> {
    match read_answer(text) {
        Some(Verdict::Accepted) => None,
        Some(refused) => Some((refused, None)),
        None => {
            let passages = schedule::read(text.split('|')).ok()?;
            Some((Verdict::Accepted, Some(passages)))
        }
    }
}

/// `accepted`, or `refused N C`.
pub(crate) fn read_answer(text: &str) -> Option<Verdict> {
    match text.split(' ').collect::<Vec<_>>()[..] {
        ["accepted"] => Some(Verdict::Accepted),
        ["refused", number, component] => Some(Verdict::Refused {
            number: number.parse().ok()?,
            component: component.parse().ok()?,
        }),
        _ => None,
    }
}

/// The tables of the corpus; the accepted ones with their schedules.
pub fn corpus() -> Result<Vec<Stored>, String> {
    let folder = folder("corpus");
    let mut stored = Vec::new();
    for (name, answer) in read_answers(&folder)? {
        let file = folder.join(format!("{name}.bin"));
        let bytes = fs::read(&file).map_err(|error| at(&file, &error.to_string()))?;
        let passages = match answer {
            Answer::Accepted => Some(read_schedule(&folder, &name)?),
            Answer::Refused { .. } => None,
        };
        stored.push(Stored {
            bytes,
            answer: verdict(answer),
            passages,
        });
    }
    Ok(stored)
}

/// The tables of the corpus that have verdicts at spreads, with each of them.
pub fn corpus_spreads() -> Result<Vec<(Vec<u8>, u32, Verdict)>, String> {
    let folder = folder("corpus");
    let mut all = Vec::new();
    for name in names_with_spreads(&folder)? {
        let file = folder.join(format!("{name}.bin"));
        let bytes = fs::read(&file).map_err(|error| at(&file, &error.to_string()))?;
        for (spread, answer) in read_spreads(&folder, &name)? {
            all.push((bytes.clone(), spread, verdict(answer)));
        }
    }
    Ok(all)
}

/// The tables of the corpus that have runs, with each of them.
pub fn corpus_runs() -> Result<Vec<(Vec<u8>, StoredRun)>, String> {
    let folder = folder("corpus");
    let mut all = Vec::new();
    for name in names_with_runs(&folder)? {
        let file = folder.join(format!("{name}.bin"));
        let bytes = fs::read(&file).map_err(|error| at(&file, &error.to_string()))?;
        let runs = read_runs(&folder, &name)?.into_iter();
        all.extend(runs.map(|run| (bytes.clone(), run)));
    }
    Ok(all)
}

/// The tables of the corpus that have pairs, with each list of them.
pub fn corpus_pairs() -> Result<Vec<(Vec<u8>, StoredPairs)>, String> {
    let folder = folder("corpus");
    let mut all = Vec::new();
    for name in names_with_pairs(&folder)? {
        let file = folder.join(format!("{name}.bin"));
        let bytes = fs::read(&file).map_err(|error| at(&file, &error.to_string()))?;
        let lists = read_pairs(&folder, &name)?.into_iter();
        all.extend(lists.map(|list| (bytes.clone(), list)));
    }
    Ok(all)
}

/// The tables of the corpus of which it is stored from when to when everything comes
/// again, with that and with runs to horizons.
pub fn corpus_periods() -> Result<Vec<(Vec<u8>, StoredPeriod)>, String> {
    let folder = folder("corpus");
    let mut all = Vec::new();
    for name in names_with_periods(&folder)? {
        let file = folder.join(format!("{name}.bin"));
        let bytes = fs::read(&file).map_err(|error| at(&file, &error.to_string()))?;
        all.push((bytes, read_period(&folder, &name)?));
    }
    Ok(all)
}

/// The accepted tables of the corpus with each of their questions, and its answer in
/// words.
pub fn corpus_questions() -> Result<Vec<(Vec<u8>, Question, String)>, String> {
    let folder = folder("corpus");
    let mut all = Vec::new();
    for (name, answer) in read_answers(&folder)? {
        if answer != Answer::Accepted {
            continue;
        }
        let file = folder.join(format!("{name}.bin"));
        let bytes = fs::read(&file).map_err(|error| at(&file, &error.to_string()))?;
        for asked in read_questions(&folder, &name)? {
            let question = Question {
                component: asked.component,
                tick: asked.tick,
            };
            all.push((bytes.clone(), question, asked.answer));
        }
    }
    Ok(all)
}

/// Where the tables of the corpus that checks 4 to 9 refuse are refused: each table, its
/// verdict, and the words of its place or opening. The file has each of them, sorted,
/// and no other.
pub fn corpus_places() -> Result<Vec<(Vec<u8>, Verdict, String)>, String> {
    let folder = folder("corpus");
    let file = folder.join("places.tsv");
    let text = fs::read_to_string(&file).map_err(|error| at(&file, &error.to_string()))?;
    let mut lines = text.lines();
    let mut all = Vec::new();
    for (name, answer) in read_answers(&folder)? {
        if !matches!(answer, Answer::Refused { number: 4..=9, .. }) {
            continue;
        }
        let words = lines.next().and_then(|line| line.split_once('\t'));
        let words = words.filter(|(named, words)| *named == name && located(words).is_some());
        let Some((_, words)) = words else {
            return Err(at(&file, &format!("{name}: no line with twelve words")));
        };
        let table = folder.join(format!("{name}.bin"));
        let bytes = fs::read(&table).map_err(|error| at(&table, &error.to_string()))?;
        all.push((bytes, verdict(answer), words.to_string()));
    }
    match lines.next() {
        Some(line) => Err(at(&file, &format!("not refused by 4 to 9: {line}"))),
        None => Ok(all),
    }
}

fn verdict(answer: Answer) -> Verdict {
    match answer {
        Answer::Accepted => Verdict::Accepted,
        Answer::Refused { number, component } => Verdict::Refused { number, component },
    }
}

/// A folder of the repository.
fn folder(name: &str) -> PathBuf {
    let root = concat!(env!("CARGO_MANIFEST_DIR"), "/../..");
    Path::new(root).join(name)
}

/// The files of a folder that end in this extension, sorted.
fn files_of(folder: &Path, extension: &str) -> Result<Vec<PathBuf>, String> {
    let unreadable = |error: std::io::Error| at(folder, &error.to_string());
    let mut files = Vec::new();
    for entry in fs::read_dir(folder).map_err(unreadable)? {
        let path = entry.map_err(unreadable)?.path();
        if path.extension().is_some_and(|found| found == extension) {
            files.push(path);
        }
    }
    files.sort();
    Ok(files)
}

fn at(path: &Path, problem: &str) -> String {
    format!("{}: {problem}", path.display())
}

#[cfg(test)]
mod tests {
    use super::*;
    use crate::readers::refused;

    fn checked(bytes: &[u8], answer: Verdict) -> Option<Option<Stored>> {
        let bytes = bytes.to_vec();
        Some(Some(Stored {
            bytes,
            answer,
            passages: None,
        }))
    }

    #[test]
    fn a_check_is_read() {
        let read = vector("a name\tcheck 0100\trefused 2 255");
        assert_eq!(read, checked(&[1, 0], refused(2, 255)));
        let read = vector("empty\tcheck -\trefused 1 255");
        assert_eq!(read, checked(&[], refused(1, 255)));
        let read = vector("later\tcheck 01\trefused 11 0");
        assert_eq!(read, checked(&[1], refused(11, 0)));
    }

    #[test]
    fn a_schedule_is_read() {
        let text = "a name\tschedule 01\tc e l entry ready end msg|0 0 0 0 3 5 -";
        let read = vector(text).flatten().unwrap();
        assert_eq!(read.answer, Verdict::Accepted);
        assert_eq!(read.passages, Some(vec![[0, 0, 0, 0, 3, 5, 255]]));
        let read = vector("a name\tschedule 0100\trefused 2 255");
        assert_eq!(read, checked(&[1, 0], refused(2, 255)));
    }

    #[test]
    fn places_of_the_corpus_begin_with_their_verdict() {
        let places = corpus_places().unwrap();
        assert!(places.len() > 100);
        for (_, verdict, words) in places {
            let begins = |refused: &str| refused.starts_with(&verdict.to_string());
            assert!(begins(&format!("refused {words}")), "{words}");
        }
    }

    #[test]
    fn other_requests_are_left_aside() {
        assert_eq!(vector("a name\tprogram 0100\trefused 2 255"), Some(None));
        assert_eq!(vector("a name\tpart 0100 3\t-"), Some(None));
        assert_eq!(vector("a name\tcheck 0100 3\taccepted"), Some(None));
    }

    #[test]
    fn other_lines_are_not_vectors() {
        assert_eq!(vector("a name\tcheck 0100"), None);
        assert_eq!(vector("a name\tcheck 010\taccepted"), None);
        assert_eq!(vector("a name\tcheck 0100\trefused 2"), None);
        assert_eq!(vector("a name\tschedule 0100\taccepted"), None);
    }
}
