//! Checks 10 to 12 for nodes that wake apart: windows no further apart than the
//! spread meet, so that more than one window of a component may meet another's.
//! The list of passages is looked at again. The largest spread follows from one
//! sweep, which keeps the least distance and the least margin.

use crate::schedule::Passage;
use crate::table::{Kind, Table};
use crate::MAX_SPREAD;

/// What a passage does, and what it has met.
#[derive(Clone, Copy, Default)]
pub(crate) struct Window {
    /// The channel of a send with ready < H, as a bit.
    sends: u16,
    /// The channels of a receive, as bits.
    hears: u16,
    band: u8,
    collides: bool,
    /// Of a send the listeners, of a receive the sends.
    met: u16,
    /// The fault of a send that has met this one listener, or 0.
    fault: u8,
}

/// What the passages do, none of which has met another.
pub(crate) fn fill(windows: &mut Vec<Window>, table: &Table, passages: &[Passage]) {
    windows.clear();
    windows.extend(passages.iter().map(|passage| read(table, passage)));
}

/// The place of the first passage at fault at a spread, and the number of the
/// check. The windows have met nothing yet.
pub(crate) fn first_at_fault(
    windows: &mut [Window],
    passages: &[Passage],
    spread: u32,
) -> Option<(usize, u8)> {
    for (i, first) in passages.iter().enumerate() {
        if windows[i].sends | windows[i].hears == 0 {
            continue;
        }
        let last = first.end + spread;
        for (j, second) in passages.iter().enumerate().skip(i + 1) {
            if second.entry > last {
                break;
            }
            let near = second.ready <= last && first.ready <= second.end + spread;
            if near && first.component != second.component {
                meet(windows, passages, [i, j], spread);
            }
        }
    }
    let at_fault = |number: fn(&Window) -> u8| {
        let place = windows.iter().position(|window| number(window) != 0)?;
        Some((place, number(&windows[place])))
    };
    let checks: [fn(&Window) -> u8; 3] = [disturbed, unheard, crowded];
    checks.into_iter().find_map(at_fault)
}

/// The passages that the one at fault meets.
pub(crate) fn met<'a>(
    windows: &'a [Window],
    passages: &'a [Passage],
    spread: u32,
    (place, number): (usize, u8),
) -> impl Iterator<Item = &'a Passage> {
    let (own, at_fault) = (&windows[place], &passages[place]);
    let meets = move |(window, other): &(&Window, &Passage)| {
        let near = other.ready <= at_fault.end + spread && at_fault.ready <= other.end + spread;
        let concerned = match number {
            10 => window.sends != 0 && window.band == own.band,
            12 => window.sends & own.hears != 0,
            _ => window.hears & own.sends != 0,
        };
        near && concerned && other.component != at_fault.component
    };
    let all = windows.iter().zip(passages);
    all.filter(meets).map(|(_, passage)| passage)
}

/// The largest spread at which a table is accepted that is accepted at 0.
pub(crate) fn largest(windows: &[Window], passages: &[Passage]) -> u32 {
    let mut most = MAX_SPREAD;
    for (i, first) in passages.iter().enumerate() {
        if windows[i].sends | windows[i].hears == 0 {
            continue;
        }
        for (j, second) in passages.iter().enumerate().skip(i + 1) {
            if second.entry > first.end + most {
                break;
            }
            if first.component != second.component {
                most = most.min(room(windows, passages, [i, j]));
            }
        }
    }
    most
}

/// The largest spread that two windows of two components leave room for, where
/// they pass the checks at 0.
fn room(windows: &[Window], passages: &[Passage], [i, j]: [usize; 2]) -> u32 {
    let [first, second] = [&passages[i], &passages[j]];
    let gap = second.ready.saturating_sub(first.end);
    let gap = gap.max(first.ready.saturating_sub(second.end));
    let disturbs = windows[i].sends != 0 && windows[j].sends != 0;
    if disturbs && windows[i].band == windows[j].band {
        return gap - 1;
    }
    for [send, receive] in [[i, j], [j, i]] {
        if windows[send].sends & windows[receive].hears != 0 {
            let [sent, heard] = [&passages[send], &passages[receive]];
            return match gap {
                0 => (sent.ready - heard.ready).min(heard.end - sent.end) - 1,
                _ => gap - 1,
            };
        }
    }
    MAX_SPREAD
}

fn read(table: &Table, passage: &Passage) -> Window {
    let edge = table.component(passage.component.into()).edge(passage.edge);
    let mut window = Window::default();
    match edge.kind {
        Kind::Send if passage.ready < table.horizon => {
            window.sends = edge.channels;
            window.band = table.band(edge.channel());
        }
        Kind::Receive => window.hears = edge.channels,
        _ => {}
    }
    window
}

/// Two windows of two components that are near meet; the first comes first.
fn meet(windows: &mut [Window], passages: &[Passage], [i, j]: [usize; 2], spread: u32) {
    let [first, second] = [windows[i], windows[j]];
    if first.sends != 0 && second.sends != 0 {
        windows[i].collides |= first.band == second.band;
    }
    for [send, receive] in [[i, j], [j, i]] {
        if windows[send].sends & windows[receive].hears != 0 {
            let [sent, heard] = [&passages[send], &passages[receive]];
            windows[receive].met += 1;
            windows[send].met += 1;
            windows[send].fault = match heard.ready + spread < sent.ready {
                false => 16,
                true if sent.end + spread < heard.end => 0,
                true => 17,
            };
        }
    }
}

fn disturbed(window: &Window) -> u8 {
    10 * u8::from(window.collides)
}

fn unheard(window: &Window) -> u8 {
    match window.met {
        _ if window.sends == 0 => 0,
        0 => 11,
        1 => window.fault,
        _ => 15,
    }
}

fn crowded(window: &Window) -> u8 {
    12 * u8::from(window.hears != 0 && window.met > 1)
}
