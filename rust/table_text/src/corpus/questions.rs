//! Why edges of the stored tables are taken: for each accepted table questions, and
//! their answers.

use super::{missing, names_with};
use std::collections::BTreeSet;
use std::fs;
use std::path::Path;

/// A component and a tick, and the answer as the vectors write it.
#[derive(Debug, Clone, PartialEq, Eq)]
pub struct Question {
    pub component: u32,
    pub tick: u32,
    pub answer: String,
}

/// What is wrong with the questions: each accepted table has some, no other has, and
/// all have their form.
pub(super) fn verify(folder: &Path, accepted: &BTreeSet<String>) -> Result<Vec<String>, String> {
    let asked = names_with(folder, "why")?;
    let mut problems = missing(accepted, &asked, "is accepted and has no questions");
    let message = "has questions and is not accepted";
    problems.extend(missing(&asked, accepted, message));
    let unreadable = asked.iter().filter_map(|name| read(folder, name).err());
    problems.extend(unreadable);
    Ok(problems)
}

/// The stored questions of a name: component, tick and answer a line, the first two
/// rising.
pub fn read(folder: &Path, name: &str) -> Result<Vec<Question>, String> {
    let file = format!("{name}.why");
    let text = fs::read_to_string(folder.join(&file)).map_err(|e| format!("{file}: {e}"))?;
    let mut questions: Vec<Question> = Vec::new();
    for (index, line) in text.lines().enumerate() {
        let at_line = |message: &str| format!("{file}: line {}: {message}", index + 1);
        let question = read_line(line).ok_or_else(|| {
            at_line("write: COMPONENT TICK, then: P|EDGE REASON.., or: refused N C")
        })?;
        let rises = |before: &Question| {
            (before.component, before.tick) < (question.component, question.tick)
        };
        if !questions.last().is_none_or(rises) {
            return Err(at_line("components and their ticks must rise, each once"));
        }
        questions.push(question);
    }
    match questions.is_empty() {
        true => Err(format!("{file}: is empty")),
        false => Ok(questions),
    }
}

fn read_line(line: &str) -> Option<Question> {
    let (component, rest) = line.split_once(' ')?;
    let (tick, answer) = rest.split_once(' ')?;
    let (component, tick) = (component.parse().ok()?, tick.parse().ok()?);
    let formed = answer.starts_with("refused ") || is_told(answer);
    formed.then(|| Question {
        component,
        tick,
        answer: answer.to_string(),
    })
}

/// A passage, and edges with their reasons, one of them taken.
fn is_told(answer: &str) -> bool {
    let Some((passage, edges)) = answer.split_once('|') else {
        return false;
    };
    let is_edge = |edge: &str| match edge.split(' ').collect::<Vec<_>>()[..] {
        [number, "taken" | "window" | "later" | "higher"] => number.parse::<u8>().is_ok(),
        [number, "data", bound] => number.parse::<u8>().is_ok() && bound.parse::<u8>().is_ok(),
        _ => false,
    };
    let taken = edges.split('|').filter(|edge| edge.ends_with(" taken"));
    passage.parse::<u16>().is_ok() && edges.split('|').all(is_edge) && taken.count() == 1
}
