//! What the tests share: the folders of the repository, hexadecimal, answers
//! as text.
#![allow(dead_code)]

use std::fs;
use std::path::PathBuf;
use yardstick::{Refusal, Run, Yardstick, FIELDS, NO_MESSAGE, OBSERVATION};

/// A file of the repository as text.
pub fn text(file: &str) -> String {
    let path = path(file);
    fs::read_to_string(&path).unwrap_or_else(|error| panic!("{}: {error}", path.display()))
}

/// A file of the repository as bytes.
pub fn bytes(file: &str) -> Vec<u8> {
    let path = path(file);
    fs::read(&path).unwrap_or_else(|error| panic!("{}: {error}", path.display()))
}

fn path(file: &str) -> PathBuf {
    PathBuf::from(env!("CARGO_MANIFEST_DIR"))
        .join("../..")
        .join(file)
}

/// Bytes from hexadecimal; `-` is the empty byte string.
pub fn unhex(text: &str) -> Vec<u8> {
    if text == "-" {
        return Vec::new();
    }
    let pair = |at| u8::from_str_radix(&text[at..at + 2], 16).unwrap();
    (0..text.len()).step_by(2).map(pair).collect()
}

/// Hexadecimal of bytes; `-` for none.
pub fn hex(bytes: &[u8]) -> String {
    if bytes.is_empty() {
        return "-".to_string();
    }
    bytes.iter().map(|byte| format!("{byte:02x}")).collect()
}

/// The verdict on a table as text.
pub fn check(yardstick: &mut Yardstick, table: &[u8]) -> String {
    told(yardstick.check(table).map(|()| "accepted".to_string()))
}

/// An answer, or the refusal as text.
pub fn told(answer: Result<String, Refusal>) -> String {
    answer.unwrap_or_else(|refusal| format!("refused {} {}", refusal.number, refusal.component))
}

/// The lines that the schedule printer prints, or a refusal.
pub fn schedule(yardstick: &mut Yardstick, table: &[u8]) -> Result<Vec<String>, Refusal> {
    let mut list = vec![0; FIELDS * 1024];
    let size = yardstick.schedule(table, &mut list)?;
    let rows = list.chunks(FIELDS).take(size);
    let first = "c e l entry ready end msg".to_string();
    Ok(std::iter::once(first).chain(rows.map(line)).collect())
}

fn line(row: &[u32]) -> String {
    let (message, fields) = row.split_last().unwrap();
    let mut words: Vec<String> = fields.iter().map(u32::to_string).collect();
    words.push(match *message == u32::from(NO_MESSAGE) {
        true => "-".to_string(),
        false => message.to_string(),
    });
    words.join(" ")
}

/// How a run ended and its observations, as the vectors have them: with so many bytes
/// lent; the words are the table, the choices and, unless they are missing, the spread
/// and the offsets. What stands past the observations must stay.
pub fn run(yardstick: &mut Yardstick, lent: usize, words: &[&str]) -> Result<String, Refusal> {
    let numbers = |word: &&str| word.split(',').map(|n| n.parse().unwrap()).collect();
    let spread = words.get(2).map_or(0, |word| word.parse().unwrap());
    let offsets: Vec<u32> = words.get(3).map_or(Vec::new(), numbers);
    let (table, choices) = (unhex(words[0]), unhex(words[1]));
    let mut bytes = vec![77; lent];
    let run = match words {
        [_, _] => yardstick.run(&table, &choices, &mut bytes),
        _ => yardstick.run_apart(&table, &choices, spread, &offsets, &mut bytes),
    };
    run_told(run, &bytes)
}

/// The answer of a run in the words of the vectors; what stands past the observations,
/// in bytes that were all 77, must have stayed.
pub fn run_told(run: Result<Run, Refusal>, bytes: &[u8]) -> Result<String, Refusal> {
    let written = run.map_or(0, |run| run.size * OBSERVATION);
    assert!(bytes[written..].iter().all(|byte| *byte == 77));
    let run = run?;
    let first = format!("{} {} {} {}", run.end as u8, run.node, run.tick, run.used);
    let observations = bytes[..written].chunks(OBSERVATION).map(hex);
    let parts: Vec<String> = std::iter::once(first).chain(observations).collect();
    Ok(parts.join("|"))
}

/// The same as the older vectors have it: of each observation the first 32 bytes.
pub fn old_run(yardstick: &mut Yardstick, lent: usize, words: &[&str]) -> Result<String, Refusal> {
    let answer = run(yardstick, lent, words)?;
    let old = |part: &str| part[..part.len().min(2 * 32)].to_string();
    let parts: Vec<String> = answer.split('|').map(old).collect();
    Ok(parts.join("|"))
}
