//! The reasons of edges as a JSON object on a line of its own.

use super::told::Window;
use super::Asked;
use crate::input::Input;
use crate::json::{line, object, or_null, string};
use timed_network::{passages, Reason, Reasons, Refused};

/// What each reason is called.
fn name(reason: Reason) -> &'static str {
    match reason {
        Reason::Taken => "taken",
        Reason::DataBound(_) => "data bound",
        Reason::NoWindow => "no window",
        Reason::ReadyLater => "ready later",
        Reason::HigherNumber => "higher number",
    }
}

/// The object of an answer: the passage, and each edge from its location. `windows` has
/// the ticks that are told of them.
pub fn told(question: &Asked, input: &Input, reasons: &Reasons, windows: &[Window]) -> Vec<u8> {
    let rows = passages(input.table()).unwrap_or_default();
    let row = rows.get(reasons.passage as usize).copied();
    let [_, _, _, entry, first, end, _] = row.unwrap_or_default();
    let edge = |((number, reason), window): (&(u8, Reason), &Window)| {
        let (ready, end) = match reason {
            Reason::Taken => (Some(first), Some(end)),
            Reason::HigherNumber => (Some(first), None),
            _ => (window.ready, window.end),
        };
        let mut fields = vec![
            ("edge", number.to_string()),
            ("reason", string(name(*reason))),
            ("bound", or_null(reason.bound())),
            ("ready", or_null(ready)),
            ("end", or_null(end)),
        ];
        if let Input::Text { .. } = input {
            fields.push(("line", or_null(question.line(input, *number))));
        }
        object(&fields)
    };
    let edges: Vec<String> = reasons.edges.iter().zip(windows).map(edge).collect();
    line(&[
        ("file", string(&question.file.to_string_lossy())),
        ("component", question.component.to_string()),
        ("tick", question.tick.to_string()),
        ("passage", reasons.passage.to_string()),
        ("entry", entry.to_string()),
        ("ready", first.to_string()),
        ("end", end.to_string()),
        ("edges", format!("[{}]", edges.join(","))),
        ("refused", "null".to_string()),
    ])
}

/// The object of a refusal.
pub fn refused(question: &Asked, refused: &Refused) -> Vec<u8> {
    let refusal = object(&[
        ("number", refused.refusal.number().to_string()),
        ("component", or_null(refused.component)),
    ]);
    line(&[
        ("file", string(&question.file.to_string_lossy())),
        ("component", question.component.to_string()),
        ("tick", question.tick.to_string()),
        ("passage", "null".to_string()),
        ("edges", "[]".to_string()),
        ("refused", refusal),
    ])
}
