//! Positions in words and as JSON, a line a pair.

use crate::json::object;
use std::fmt::Write;
use timed_network::Positions;

/// Component, tick, passage, and `before` or `window`; then how many were read.
pub fn words(pairs: &[(u32, u32)], positions: &Positions) -> String {
    let mut text = String::new();
    for ((component, tick), position) in pairs.iter().zip(&positions.answers) {
        let place = if position.in_window {
            "window"
        } else {
            "before"
        };
        // A string takes every line.
        let _ = writeln!(text, "{component} {tick} {} {place}", position.passage);
    }
    let _ = writeln!(text, "passages read: {}", positions.read);
    text
}

/// An object a pair, then one with how many were read.
pub fn json(pairs: &[(u32, u32)], positions: &Positions) -> String {
    let mut text = String::new();
    for ((component, tick), position) in pairs.iter().zip(&positions.answers) {
        text += &object(&[
            ("component", component.to_string()),
            ("tick", tick.to_string()),
            ("passage", position.passage.to_string()),
            ("window", position.in_window.to_string()),
        ]);
        text.push('\n');
    }
    text + &format!("{}\n", object(&[("read", positions.read.to_string())]))
}

#[cfg(test)]
mod tests {
    use super::*;
    use timed_network::Position;

    #[test]
    fn a_line_a_pair() {
        let position = |passage, in_window| Position { passage, in_window };
        let positions = Positions {
            answers: vec![position(2, false), position(300, true)],
            read: 301,
        };
        let pairs = [(0, 5), (1, 600)];
        let told = "0 5 2 before\n1 600 300 window\npassages read: 301\n";
        assert_eq!(words(&pairs, &positions), told);
        let told = [
            r#"{"component":0,"tick":5,"passage":2,"window":false}"#,
            r#"{"component":1,"tick":600,"passage":300,"window":true}"#,
            r#"{"read":301}"#,
        ];
        assert_eq!(json(&pairs, &positions), told.join("\n") + "\n");
    }
}
