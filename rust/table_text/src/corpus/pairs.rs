//! Where components of the stored tables are at ticks: for some accepted ones lists of
//! pairs, and what has to be answered.

use super::{missing, names_with};
use std::collections::BTreeSet;
use std::fs;
use std::path::Path;

/// Pairs of component and tick, and the answer: how many passages are read, `|` and the
/// bytes of the answers in hexadecimal, `-` for none; or a refusal.
#[derive(Debug, Clone, PartialEq, Eq)]
pub struct StoredPairs {
    pub pairs: Vec<[u32; 2]>,
    pub answer: String,
}

/// The names that have pairs, sorted.
pub fn names_with_pairs(folder: &Path) -> Result<BTreeSet<String>, String> {
    names_with(folder, "where")
}

/// What is wrong with the pairs: only an accepted table has some, and all have their form.
pub(super) fn verify(folder: &Path, accepted: &BTreeSet<String>) -> Result<Vec<String>, String> {
    let asked = names_with_pairs(folder)?;
    let mut problems = missing(&asked, accepted, "has pairs and is not accepted");
    problems.extend(asked.iter().filter_map(|name| read(folder, name).err()));
    Ok(problems)
}

/// The stored lists of a name, one a line: pairs with commas between them, a colon in
/// each, `-` for none; then the answer.
pub fn read(folder: &Path, name: &str) -> Result<Vec<StoredPairs>, String> {
    let file = format!("{name}.where");
    let text = fs::read_to_string(folder.join(&file)).map_err(|e| format!("{file}: {e}"))?;
    let mut lists = Vec::new();
    for (index, line) in text.lines().enumerate() {
        let form = "write: COMPONENT:TICK,.., then: READ|BYTES, or: refused N 255";
        let list = read_line(line);
        lists.push(list.ok_or_else(|| format!("{file}: line {}: {form}", index + 1))?);
    }
    match lists.is_empty() {
        true => Err(format!("{file}: is empty")),
        false => Ok(lists),
    }
}

fn read_line(line: &str) -> Option<StoredPairs> {
    let (pairs, answer) = line.split_once(' ')?;
    let pair = |word: &str| {
        let (component, tick) = word.split_once(':')?;
        Some([component.parse().ok()?, tick.parse().ok()?])
    };
    let pairs: Option<Vec<[u32; 2]>> = match pairs {
        "-" => Some(Vec::new()),
        words => words.split(',').map(pair).collect(),
    };
    let pairs = pairs?;
    is_told(answer, pairs.len()).then_some(StoredPairs {
        pairs,
        answer: answer.to_string(),
    })
}

/// A refusal of a call, or a number and three bytes a pair.
fn is_told(answer: &str, pairs: usize) -> bool {
    if let Some(number) = answer.strip_prefix("refused ") {
        return matches!(number, "21 255" | "24 255");
    }
    let Some((read, bytes)) = answer.split_once('|') else {
        return false;
    };
    let is_digit = |byte: u8| matches!(byte, b'0'..=b'9' | b'a'..=b'f');
    let are_bytes = match pairs {
        0 => bytes == "-",
        _ => bytes.len() == 6 * pairs && bytes.bytes().all(is_digit),
    };
    are_bytes && read.parse::<u32>().is_ok()
}
