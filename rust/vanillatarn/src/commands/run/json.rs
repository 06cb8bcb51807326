//! A run as a JSON object on a line of its own.

use super::told::{Answer, Shown, Window};
use crate::json::{array, object, or_null, string};
use timed_network::{Refused, Run, NO_NODE};

/// The object of a run: what was handed in beside the choices, then how it ended, and the
/// observations that are told.
pub(super) fn line(
    head: Vec<(&str, String)>,
    close: Option<u32>,
    answer: &Answer,
    shown: &[Shown],
) -> Vec<u8> {
    let mut fields = head;
    if let Some(close) = close {
        fields.push(("close", close.to_string()));
    }
    fields.extend(match answer {
        Ok(run) => ran(run),
        Err(refused) => not_run(refused),
    });
    let told = shown.iter().filter(|shown| shown.is_told(close));
    let observations: Vec<String> = told.map(observation).collect();
    fields.push(("observations", format!("[{}]", observations.join(","))));
    format!("{}\n", object(&fields)).into_bytes()
}

fn ran(run: &Run) -> [(&'static str, String); 6] {
    [
        ("refused", "null".to_string()),
        ("end", string(&run.end.to_string())),
        (
            "node",
            or_null(Some(run.node).filter(|node| *node != NO_NODE)),
        ),
        ("tick", run.tick.to_string()),
        ("used", run.used.to_string()),
        ("size", run.size.to_string()),
    ]
}

fn not_run(refused: &Refused) -> [(&'static str, String); 6] {
    let refusal = object(&[
        ("number", refused.refusal.number().to_string()),
        ("component", or_null(refused.component)),
    ]);
    let null = || "null".to_string();
    [
        ("refused", refusal),
        ("end", null()),
        ("node", null()),
        ("tick", null()),
        ("used", null()),
        ("size", "0".to_string()),
    ]
}

/// With the tick at which the previous work finished, and its window; both null for a
/// node's first.
fn observation(shown: &Shown) -> String {
    let of = &shown.observation;
    let window = shown.window.map(|Window { ready, end }| {
        object(&[("ready", ready.to_string()), ("end", end.to_string())])
    });
    object(&[
        ("node", of.component.to_string()),
        ("edge", of.edge.to_string()),
        ("location", of.location.to_string()),
        ("tick", of.tick.to_string()),
        ("clocks", array(&of.clocks)),
        ("values", array(&of.values)),
        ("finished", or_null(of.previous_finish)),
        ("window", or_null(window)),
    ])
}
