//! One message with margins, and with gaps to what is beside it, that are at the
//! spread, one tick less or one or two more.

use super::{Chain, Window, Work};
use crate::random::Random;
use crate::tables::bands;

/// So many ticks are free before the send, and a listener that is not meant has so
/// many on each side: more than any spread.
const WIDE: u32 = 1010;

/// What stands beside a send and its listener.
#[derive(Clone, Copy, PartialEq, Eq)]
enum Beside {
    Nothing,
    /// Another component's send, well heard.
    Sender,
    /// Another component that listens to the same channel.
    Listener,
    /// The next window of the same listener, or the one before.
    OwnWindow,
    /// A second send of the sender in the same window.
    SecondSend,
    /// Nobody listens in time: the listener's window does not reach the send.
    Away,
}

/// A chain whose verdict changes at or next to this spread.
pub fn near(random: &mut Random, spread: u32) -> Chain {
    let beside = random.pick(&[
        Beside::Nothing,
        Beside::Nothing,
        Beside::Sender,
        Beside::Sender,
        Beside::Listener,
        Beside::OwnWindow,
        Beside::SecondSend,
        Beside::SecondSend,
        Beside::Away,
    ]);
    let ready = 3 * (spread + WIDE);
    let end = ready + short(random);
    let send = [ready, end];
    let [before, after] = [0, 0].map(|_| ticks(random, spread));
    let listen = match beside {
        Beside::Away => place(random, send, spread),
        _ => [ready - before, end + after],
    };
    let mut windows = vec![vec![window(send, Work::Send(0))], Vec::new()];
    put_beside(random, &mut windows, beside, [send, listen], spread);
    let channels = 2;
    let (version, bands) = bands::drawn(random, channels);
    let mut chain = Chain {
        windows,
        channels,
        version,
        bands,
        horizon: 0,
    };
    if random.once_in(2) {
        chain.bands.fill(1);
    }
    chain.horizon = horizon(random, &chain);
    chain
}

/// Puts the listener, and what is beside it and the send.
fn put_beside(
    random: &mut Random,
    windows: &mut Vec<Vec<Window>>,
    beside: Beside,
    [send, listen]: [[u32; 2]; 2],
    spread: u32,
) {
    let listener = |window| vec![self::window(window, Work::Listen(0))];
    windows[1] = listener(listen);
    match beside {
        Beside::Nothing | Beside::Away => {}
        Beside::Sender => {
            let [ready, end] = place(random, send, spread);
            windows.push(vec![window([ready, end], Work::Send(1))]);
            let wide = [ready.saturating_sub(WIDE), end + WIDE];
            windows.push(vec![window(wide, Work::Listen(1))]);
        }
        Beside::Listener => windows.push(listener(place(random, send, spread))),
        Beside::OwnWindow => {
            let other = place(random, send, spread);
            if other[1] <= listen[0] {
                windows[1] = [listener(other), listener(listen)].concat();
            } else if listen[1] <= other[0] {
                windows[1] = [listener(listen), listener(other)].concat();
            }
        }
        Beside::SecondSend => {
            let ready = send[1] + random.pick(&[0, 0, 1, spread]);
            let end = ready + short(random);
            windows[0].push(window([ready, end], Work::Send(0)));
            windows[1] = listener([listen[0], end + listen[1] - send[1]]);
        }
    }
    random.shuffle(&mut windows[..]);
}

fn window([ready, end]: [u32; 2], work: Work) -> Window {
    Window { ready, end, work }
}

/// The length of a window.
fn short(random: &mut Random) -> u32 {
    random.within(1..=3) as u32
}

/// The spread, one tick less, or one or two more.
fn ticks(random: &mut Random, spread: u32) -> u32 {
    (spread + random.pick(&[0, 1, 1, 2, 2, 2, 3, 3])).saturating_sub(1)
}

/// A window before or behind another one, about the spread away from it.
fn place(random: &mut Random, [ready, end]: [u32; 2], spread: u32) -> [u32; 2] {
    let (gap, length) = (ticks(random, spread), short(random));
    match random.once_in(2) {
        true => [ready - gap - length, ready - gap],
        false => [end + gap, end + gap + length],
    }
}

/// A horizon at or next to an end of a window, or behind all of them.
fn horizon(random: &mut Random, chain: &Chain) -> u32 {
    let ends = chain.windows.iter().flatten();
    let ends: Vec<u32> = ends.flat_map(|window| [window.ready, window.end]).collect();
    let behind = Chain::last(&chain.windows) + 2;
    match random.below(4) {
        0 => (random.pick(&ends) + random.pick(&[0, 1, 2])).max(2) - 1,
        _ => behind,
    }
}
