//! The proved words of reasons, held to the library's answer: both are proved to agree, so
//! another one comes of something that is not the verified program.

use crate::words::{failed, Fault, Text};
use timed_network::{Reason, Reasons, Refused, Verdict};

/// What is told.
pub struct Told {
    /// All of it.
    pub words: Vec<u8>,
    /// Of each edge told what its line tells of its window.
    pub windows: Vec<Window>,
}

/// The ticks at which an edge is ready and at which its window ends, where they are
/// told.
#[derive(Clone, Copy, Debug, Default, PartialEq, Eq)]
pub struct Window {
    pub ready: Option<u32>,
    pub end: Option<u32>,
}

impl Told {
    pub fn of(words: Vec<u8>, answer: &Result<Reasons, Refused>) -> Result<Told, Fault> {
        let windows = match answer {
            Ok(reasons) => held(&String::from_utf8_lossy(&words), &reasons.edges),
            Err(refused) => refusal(&words, *refused),
        };
        let windows = windows.map_err(|fault| failed(Text::Reasons, &fault))?;
        Ok(Told { words, windows })
    }
}

/// The first line is the refusal.
fn refusal(words: &[u8], refused: Refused) -> Result<Vec<Window>, String> {
    let verdict = Verdict::from(refused);
    let first = words.split(|byte| *byte == b'\n').next();
    if first == Some(verdict.to_string().as_bytes()) {
        Ok(Vec::new())
    } else {
        Err(format!("its answer is not the library's, {verdict}"))
    }
}

/// The lines of the edges tell their reasons.
fn held(words: &str, edges: &[(u8, Reason)]) -> Result<Vec<Window>, String> {
    let mut lines = words.lines().filter(|line| line.starts_with("edge "));
    let mut windows = Vec::new();
    for (edge, reason) in edges {
        let line = lines.next().unwrap_or_default();
        let told = line.strip_prefix(&format!("edge {edge}: "));
        let told = told.filter(|told| tells(told, *reason));
        let Some(told) = told else {
            return Err(format!("edge {edge} is not told to be {reason}"));
        };
        windows.push(window(*reason, told));
    }
    match lines.next() {
        Some(line) => Err(format!("too much is told: {line}")),
        None => Ok(windows),
    }
}

/// How the line of an edge begins whose window is shorter than its budget.
const SHORT: &str = "window shorter than its budget of ";

/// Whether the words are those of the reason.
fn tells(words: &str, reason: Reason) -> bool {
    match reason {
        Reason::NoWindow => {
            words.starts_with("no window of at least one tick: ") || words.starts_with(SHORT)
        }
        Reason::HigherNumber => words.starts_with("ready together with edge "),
        reason => words.starts_with(&reason.to_string()),
    }
}

/// What the words of a reason tell of the edge's window: `taken, ticks 3 to 5`, `ready
/// later, at tick 9`, `window shorter than its budget of 4: ready at tick 7 by clock
/// bound 0, end at tick 10 by the invariant`. Of an edge without a window it is nothing.
fn window(reason: Reason, words: &str) -> Window {
    let (ready, end) = match reason {
        Reason::Taken => (behind(words, "ticks "), behind(words, " to ")),
        Reason::ReadyLater => (behind(words, "at tick "), None),
        Reason::NoWindow if words.starts_with(SHORT) => (
            behind(words, ": ready at tick "),
            behind(words, ", end at tick "),
        ),
        _ => (None, None),
    };
    Window { ready, end }
}

/// The number that stands behind the first such words.
fn behind(words: &str, before: &str) -> Option<u32> {
    let (_, rest) = words.split_once(before)?;
    let digits = rest.split(|sign: char| !sign.is_ascii_digit());
    digits.take(1).find_map(|number| number.parse().ok())
}

#[cfg(test)]
mod tests {
    use super::*;

    const WORDS: &str = "passage 0
c e l entry ready end msg
0 2 0 0 4 20 -
edge 0: data bound 1 fails: v0 is 0, allowed 1 to 9
edge 1: no window of at least one tick: ready at tick 20 by clock bound 0, over from tick 21 on by the invariant
edge 2: taken, ticks 4 to 20
edge 3: ready later, at tick 5
edge 4: ready together with edge 2, numbered higher
edge 5: window shorter than its budget of 17: ready at tick 4 by clock bound 0, end at tick 20 by the invariant
edge 6: window shorter than its budget of 60000: ready at tick 0, end at tick 1 by clock bound 3
";
    const EDGES: [(u8, Reason); 7] = [
        (0, Reason::DataBound(1)),
        (1, Reason::NoWindow),
        (2, Reason::Taken),
        (3, Reason::ReadyLater),
        (4, Reason::HigherNumber),
        (5, Reason::NoWindow),
        (6, Reason::NoWindow),
    ];

    fn ticks(ready: u32, end: impl Into<Option<u32>>) -> Window {
        let end = end.into();
        Window {
            ready: Some(ready),
            end,
        }
    }

    #[test]
    fn all_reasons_are_held_to_their_lines() {
        let none = Window::default();
        let later = ticks(5, None);
        let short = [ticks(4, 20), ticks(0, 1)];
        let windows = [none, none, ticks(4, 20), later, none, short[0], short[1]];
        assert_eq!(held(WORDS, &EDGES), Ok(windows.to_vec()));
        for wrong in [
            WORDS.replace("bound 1", "bound 0"),
            WORDS.replace("edge 1", "edge 5"),
            WORDS.replace("ready later", "taken"),
            WORDS.replace("edge 4: ready", "edge 4: taken, ready"),
            WORDS.replace("no window of at least one tick", "window of one tick"),
            WORDS.replace("window shorter than its budget of 17", "taken"),
            format!("{WORDS}edge 7: taken, ticks 1 to 2\n"),
        ] {
            assert!(held(&wrong, &EDGES).is_err(), "{wrong}");
        }
        assert!(held(WORDS, &EDGES[..6]).is_err());
    }

    #[test]
    fn a_refusal_is_the_librarys() {
        let verdict = Verdict::Refused {
            number: 21,
            component: 255,
        };
        let refused = verdict.into_result().unwrap_err();
        assert_eq!(refusal(b"refused 21 255\n", refused), Ok(Vec::new()));
        assert!(refusal(b"refused 2 255\n", refused).is_err());
        assert!(refusal(b"", refused).is_err());
    }
}
