//! Tables of chains, for nodes that wake apart: each component has one clock,
//! which is never reset, so that any list of windows, one behind the other, is a
//! component. [`drawn`] gives any number of messages whose listeners have margins
//! of one more than the spread, or a little more, and now and then no more than it;
//! [`near`] one message with all that may be too near to it. What has to be said
//! of a chain at a spread follows from its windows: [`Chain::answer`].

mod answer;
mod near;

pub use near::near;

use super::bands;
use crate::random::Random;
use reference::table::*;

/// The most windows of a component; a location is left to rest in.
const MOST: usize = MAX_LOCATIONS as usize - 1;
/// When the rest ends, far behind each horizon here.
const REST: u16 = 20_000;

/// A window and what is done in it.
#[derive(Clone, Copy, Debug)]
struct Window {
    ready: u32,
    end: u32,
    work: Work,
}

#[derive(Clone, Copy, Debug)]
enum Work {
    Internal,
    Send(u8),
    Listen(u8),
}

/// The windows of each component, one behind the other, and what a table has
/// beside them.
#[derive(Clone, Debug)]
pub struct Chain {
    windows: Vec<Vec<Window>>,
    channels: u8,
    version: u8,
    bands: Vec<u8>,
    horizon: u32,
}

impl Chain {
    /// The chain as a table.
    pub fn table(&self) -> Table {
        Table {
            version: self.version,
            bands: self.bands.clone(),
            channels: self.channels,
            horizon: self.horizon as u16,
            components: self.windows.iter().map(|own| component(own)).collect(),
        }
    }

    /// The last end of a window.
    fn last(windows: &[Vec<Window>]) -> u32 {
        let ends = windows.iter().flatten().map(|window| window.end);
        ends.max().unwrap_or(0)
    }
}

/// The components as far as they are drawn.
struct Drawing {
    windows: Vec<Vec<Window>>,
    channels: u8,
    spread: u32,
    /// The component that sent last, and until when.
    sent: Option<(usize, u32)>,
}

/// A chain that is often accepted at this spread, seldom at greater ones.
pub fn drawn(random: &mut Random, spread: u32) -> Chain {
    let components = random.within(2..=4);
    let mut drawing = Drawing {
        windows: vec![Vec::new(); components],
        channels: random.count(&(1..=3)),
        spread,
        sent: None,
    };
    for _ in 0..random.within(1..=7) {
        match random.below(5) {
            0 => drawing.alone(random, Work::Internal),
            1 => {
                let channel = random.count(&(0..=drawing.channels - 1));
                drawing.alone(random, Work::Listen(channel));
            }
            _ => drawing.message(random),
        }
    }
    let last = Chain::last(&drawing.windows) as usize;
    let horizon = random.within(last.saturating_sub(6)..=last + 4);
    let (version, bands) = bands::drawn(random, drawing.channels);
    Chain {
        windows: drawing.windows,
        channels: drawing.channels,
        version,
        bands,
        horizon: horizon.max(1) as u32,
    }
}

impl Drawing {
    /// From when on a component has nothing to do yet.
    fn free(&self, component: usize) -> u32 {
        self.windows[component]
            .last()
            .map_or(0, |window| window.end)
    }

    fn put(&mut self, component: usize, ready: u32, end: u32, work: Work) {
        if self.windows[component].len() < MOST {
            self.windows[component].push(Window { ready, end, work });
        }
    }

    /// A window of any component, behind its last one or with a gap.
    fn alone(&mut self, random: &mut Random, work: Work) {
        let component = random.below(self.windows.len());
        let ready = self.free(component) + random.pick(&[0, 0, 1, 3]);
        let end = ready + random.within(1..=4) as u32;
        self.put(component, ready, end, work);
    }

    /// A send and the window around it, as early as can be or with a gap.
    fn message(&mut self, random: &mut Random) {
        let sender = random.below(self.windows.len());
        let others = random.within(1..=self.windows.len() - 1);
        let hub = (sender + others) % self.windows.len();
        let [before, after] = [0, 0].map(|_| self.margin(random));
        let silent = match self.sent {
            Some((last, end)) if last != sender => end + self.spread + 1,
            _ => 0,
        };
        let free = self.free(sender).max(self.free(hub) + before).max(silent);
        let ready = free + random.pick(&[0, 0, 0, 1, 2]);
        let end = ready + random.within(1..=3) as u32;
        let channel = random.count(&(0..=self.channels - 1));
        self.put(sender, ready, end, Work::Send(channel));
        self.put(hub, ready - before, end + after, Work::Listen(channel));
        self.sent = Some((sender, end));
    }

    /// How much longer than the send a listener listens on one side.
    fn margin(&self, random: &mut Random) -> u32 {
        match random.once_in(30) {
            true => self.spread.max(1),
            false => self.spread + random.pick(&[1, 1, 1, 2, 4]),
        }
    }
}

/// The component with these windows, a location each, and a rest.
fn component(windows: &[Window]) -> Component {
    let rest = windows.len() as u8;
    let location = |bound| Location { clock: 0, bound };
    let mut locations: Vec<Location> = windows.iter().map(|w| location(w.end as u16)).collect();
    locations.push(location(REST));
    let one = |(source, window): (u8, &Window)| edge(source, source + 1, window);
    let mut edges: Vec<Edge> = (0..).zip(windows).map(one).collect();
    let resting = Window {
        ready: u32::from(REST) - 1,
        end: u32::from(REST),
        work: Work::Internal,
    };
    edges.push(edge(rest, rest, &resting));
    Component {
        initial: 0,
        clocks: 1,
        variables: 0,
        locations,
        edges,
    }
}

/// An edge for a window; a message leads where a timeout leads.
fn edge(source: u8, destination: u8, window: &Window) -> Edge {
    let bound = ClockBound {
        clock: 0,
        low: window.ready as u16,
        high: None,
    };
    let action = match window.work {
        Work::Internal => Action::default(),
        Work::Send(channel) => Action::Send(channel),
        Work::Listen(channel) => {
            let pair = Pair {
                channel,
                location: destination,
            };
            Action::Receive([pair].into_iter().collect())
        }
    };
    Edge {
        source,
        destination,
        clock_bounds: [bound].into_iter().collect(),
        action,
        ..Edge::default()
    }
}
