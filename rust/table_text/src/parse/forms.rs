//! The forms of lines on each level, for messages about lines that fit none.

use crate::line::Line;
use crate::SourceError;

/// The levels of the text; their numbers are the depths of their lines.
#[derive(Debug, Clone, Copy, PartialEq, Eq)]
pub enum Level {
    Table = 0,
    Component = 1,
    Edge = 2,
}

const LEVELS: [Level; 3] = [Level::Table, Level::Component, Level::Edge];

fn forms(level: Level) -> &'static [&'static str] {
    match level {
        Level::Table => &[
            "version N",
            "length N",
            "components N",
            "channels N",
            "horizon N",
            "bands N N",
            "cut N",
            "component",
            "bytes 00 ff, or: bytes 00 times N",
        ],
        Level::Component => &[
            "length N",
            "locations N",
            "edges N",
            "initial N",
            "clocks N",
            "variables N",
            "location x0 <= N",
            "internal N -> N",
            "send N -> N on N",
            "receive N -> N",
            "bytes 00 ff, or: bytes 00 times N",
        ],
        Level::Edge => &[
            "kind N",
            "mask N",
            "clock bounds N",
            "items N",
            "budget N",
            "when x0 from N, or: when x0 from N to N",
            "data v0 from N to N, or: data bounds N",
            "reset x0, or: reset x0 x1",
            "set v0 N",
            "add v0 N",
            "op N v0 N",
            "on N -> N",
            "bytes 00 ff, or: bytes 00 times N",
        ],
    }
}

fn place(level: Level) -> &'static str {
    match level {
        Level::Table => "stands at the table's level, without indentation",
        Level::Component => "stands inside a component, with 2 spaces before it",
        Level::Edge => "stands inside an edge, with 4 spaces before it",
    }
}

/// The form on this level that begins with this word.
fn form_of(word: &str, level: Level) -> Option<&'static str> {
    let mut known = forms(level).iter();
    known
        .find(|form| form.split(' ').next() == Some(word))
        .copied()
}

/// Says what is wrong with a line that has none of its level's forms.
pub fn misfit(line: &Line, level: Level) -> SourceError {
    let word = line.words[0];
    if let Some(form) = form_of(word, level) {
        return line.error(format!("write: {form}"));
    }
    match LEVELS.iter().find(|other| form_of(word, **other).is_some()) {
        Some(other) => line.error(format!("'{word}' {}", place(*other))),
        None => line.error(format!("'{word}' begins no line of this text form")),
    }
}
