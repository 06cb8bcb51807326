//! What is drawn: windows, messages, marks.

use reference::table::{read_table, Action, Table};
use std::collections::HashSet;
use timed_network::{meetings, passages, Verdict, FIELDS, MAX_PASSAGES, NO_MESSAGE};

/// What is done in a window.
#[derive(Clone, Copy, Debug, PartialEq, Eq)]
pub enum Work {
    Send,
    Receive,
    Internal,
}

impl Work {
    /// The word for it.
    pub fn name(self) -> &'static str {
        match self {
            Work::Send => "send",
            Work::Receive => "receive",
            Work::Internal => "internal",
        }
    }
}

/// Why a window is told from the others.
#[derive(Clone, Copy, Debug, PartialEq, Eq)]
pub enum Mark {
    Plain,
    /// The one that a refusal is about.
    Fault,
    /// One that meets it.
    Met,
}

/// A passage's window and its work.
#[derive(Clone, Debug, PartialEq, Eq)]
pub struct Window {
    pub component: u32,
    pub edge: u32,
    pub location: u32,
    pub entry: u32,
    pub ready: u32,
    pub end: u32,
    pub message: Option<u32>,
    pub work: Work,
    pub mark: Mark,
    /// Whether its first and its last tick are also one of the window before
    /// and of the one behind it in its row.
    pub halved: (bool, bool),
}

impl Window {
    fn of(numbers: &[u32], table: &Table, mark: Mark) -> Window {
        let [component, edge, location, entry, ready, end, message] = numbers else {
            unreachable!("a passage has {FIELDS} numbers");
        };
        let owner = &table.components[*component as usize];
        let work = match owner.edges[*edge as usize].action {
            Action::Send(_) => Work::Send,
            Action::Receive(_) => Work::Receive,
            Action::Internal(_) => Work::Internal,
        };
        Window {
            component: *component,
            edge: *edge,
            location: *location,
            entry: *entry,
            ready: *ready,
            end: *end,
            message: (*message != NO_MESSAGE).then_some(*message),
            work,
            mark,
            halved: (false, false),
        }
    }

    /// The ticks that two windows share, first and last.
    pub fn shared(&self, other: &Window) -> Option<(u32, u32)> {
        let (first, last) = (self.ready.max(other.ready), self.end.min(other.end));
        (first <= last).then_some((first, last))
    }

    /// Whether this window's send is taken in that one: it listens on the
    /// channel, earlier and longer.
    fn is_taken_in(&self, other: &Window) -> bool {
        let on_channel = self.message.is_some() && other.message == self.message;
        let around = other.ready < self.ready && self.end < other.end;
        other.component != self.component && other.work == Work::Receive && on_channel && around
    }
}

/// The windows of an accepted table, or those that met in a refused one.
#[derive(Clone, Debug, PartialEq, Eq)]
pub struct Scene {
    pub components: u32,
    pub horizon: u32,
    pub windows: Vec<Window>,
    pub verdict: Verdict,
}

impl Scene {
    /// The scene of a table; the refusal where there is nothing to draw.
    pub fn of(bytes: &[u8]) -> Result<Scene, Verdict> {
        match passages(bytes) {
            Ok(rows) => {
                let rows: Vec<&[u32]> = rows.iter().map(|row| &row[..]).collect();
                Ok(Scene::with(bytes, &rows, Verdict::Accepted))
            }
            Err(refused) => Scene::met(bytes, refused.into()),
        }
    }

    /// The windows that met: the first one is at fault.
    fn met(bytes: &[u8], refused: Verdict) -> Result<Scene, Verdict> {
        let mut list = vec![0; FIELDS * (MAX_PASSAGES + 1)];
        let size = meetings(bytes, &mut list).size;
        let rows: Vec<&[u32]> = list[..FIELDS * size].chunks_exact(FIELDS).collect();
        match size {
            0 => Err(refused),
            _ => Ok(Scene::with(bytes, &rows, refused)),
        }
    }

    fn with(bytes: &[u8], rows: &[&[u32]], verdict: Verdict) -> Scene {
        let table = read_table(bytes).expect("the library has read this table");
        let mark = |place| match (verdict, place) {
            (Verdict::Accepted, _) => Mark::Plain,
            (_, 0) => Mark::Fault,
            _ => Mark::Met,
        };
        let window = |(place, row): (usize, &&[u32])| Window::of(row, &table, mark(place));
        let windows: Vec<Window> = rows.iter().enumerate().map(window).collect();
        Scene {
            components: table.components.len() as u32,
            horizon: table.horizon.into(),
            windows: halved(windows),
            verdict,
        }
    }

    /// The window at fault, if there is one.
    pub fn fault(&self) -> Option<&Window> {
        self.windows
            .iter()
            .find(|window| window.mark == Mark::Fault)
    }

    /// Each message: the window that sends it, and the one that takes it.
    pub fn messages(&self) -> Vec<(&Window, &Window)> {
        let sends = self
            .windows
            .iter()
            .filter(|window| window.work == Work::Send);
        let taken = |send: &&Window| self.windows.iter().find(|other| send.is_taken_in(other));
        match self.verdict {
            Verdict::Accepted => sends
                .filter_map(|send| Some((send, taken(&send)?)))
                .collect(),
            _ => Vec::new(),
        }
    }

    /// The ticks to be shown if none are asked for: all up to the horizon, or
    /// the windows that met with some ticks around them.
    pub fn range(&self) -> (u32, u32) {
        let first = self.windows.iter().map(|window| window.ready).min();
        let last = self.windows.iter().map(|window| window.end).max();
        match (self.verdict, first, last) {
            (Verdict::Refused { .. }, Some(first), Some(last)) => {
                let around = 2.max((last - first) / 8);
                (first.saturating_sub(around), last + around)
            }
            _ => (0, self.horizon),
        }
    }
}

/// Notes of each window whether it has a tick in common with the one before and
/// with the one behind it: a passage is entered at the end of the one before.
fn halved(mut windows: Vec<Window>) -> Vec<Window> {
    let ends: HashSet<_> = windows.iter().map(|own| (own.component, own.end)).collect();
    let readies: HashSet<_> = windows
        .iter()
        .map(|own| (own.component, own.ready))
        .collect();
    for window in &mut windows {
        let before = ends.contains(&(window.component, window.ready));
        let behind = readies.contains(&(window.component, window.end));
        window.halved = (before, behind);
    }
    windows
}
