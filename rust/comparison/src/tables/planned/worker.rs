//! Components that do not send: loops of internal edges, and of receives that
//! nobody answers, with counters, data bounds and partial resets.

use crate::random::Random;
use crate::tables::edges::{self, form_within};
use crate::tables::Values;
use reference::table::*;
use std::ops::Range;

/// What a worker is like.
#[derive(Clone, Debug)]
pub struct Work {
    /// The greatest bound of a location.
    pub ticks: u16,
    /// Its locations.
    pub locations: u8,
    /// Its edges, at least one for each location.
    pub edges: u8,
    /// The channels that it may listen to; nobody sends on them.
    pub silent: Range<u8>,
}

/// The most bytes of an edge before what is added here.
const LONGEST: usize = 45;

/// A component that always has a candidate and whose updates stay in range.
/// One clock is reset by each edge; each location is bounded by it and has an
/// edge with no other bound than one on it.
pub fn worker(random: &mut Random, work: &Work) -> Component {
    let clocks = random.count(&(1..=MAX_CLOCKS as u8));
    let variables = random.count(&(0..=MAX_VARIABLES as u8));
    let main = random.count(&(0..=clocks - 1));
    let mut maker = Maker {
        own: edges::Own {
            locations: work.locations,
            clocks,
            variables,
            channels: work.silent.end,
            values: Values::Small,
        },
        work,
        main,
    };
    let locations: Vec<Location> = (0..work.locations)
        .map(|_| Location {
            clock: main,
            bound: random.within(1..=work.ticks.into()) as u16,
        })
        .collect();
    let mut edges: Vec<Edge> = (0..work.edges)
        .map(|number| match locations.get(usize::from(number)) {
            Some(location) => maker.fallback(random, number, location),
            None => maker.edge(random),
        })
        .collect();
    random.shuffle(&mut edges);
    Component {
        initial: random.count(&(0..=work.locations - 1)),
        clocks,
        variables,
        locations,
        edges,
    }
}

struct Maker<'a> {
    own: edges::Own,
    work: &'a Work,
    main: u8,
}

impl Maker<'_> {
    /// The edge that is always a candidate of its location.
    fn fallback(&mut self, random: &mut Random, source: u8, location: &Location) -> Edge {
        let mut edge = self.edge(random);
        edge.source = source;
        let bound = ClockBound {
            clock: self.main,
            low: random.below(location.bound.into()) as u16,
            high: None,
        };
        edge.clock_bounds = [bound].into_iter().collect();
        edge.data_bounds = List::new();
        if let Action::Internal(updates) = &mut edge.action {
            *updates = self.sets(random);
        }
        edge
    }

    /// Any edge that a worker may have.
    fn edge(&mut self, random: &mut Random) -> Edge {
        let form = form_within(random, &self.own, LONGEST);
        let mut edge = edges::edge(random, &self.own, form);
        edge.mask |= 1 << self.main;
        edge.clock_bounds = (0..edge.clock_bounds.len())
            .map(|_| self.clock_bound(random))
            .collect();
        match edge.action {
            Action::Receive(_) if !self.work.silent.is_empty() => {
                edge.action = Action::Receive(self.silent_pairs(random));
            }
            _ => self.internal(random, &mut edge),
        }
        edge
    }

    /// A bound on any clock, near the lengths of the windows.
    fn clock_bound(&self, random: &mut Random) -> ClockBound {
        let ticks = usize::from(self.work.ticks);
        let low = random.within(0..=ticks);
        let high = (low + random.within(0..=ticks)).min(MAX_TICKS.into()) as u16;
        ClockBound {
            clock: random.count(&(0..=self.own.clocks - 1)),
            low: low as u16,
            high: (!random.once_in(3)).then_some(high),
        }
    }

    fn silent_pairs(&self, random: &mut Random) -> List<Pair, 8> {
        let mut channels: Vec<u8> = self.work.silent.clone().collect();
        random.shuffle(&mut channels);
        let count = random.within(1..=channels.len().min(8));
        let pair = |channel: &u8| Pair {
            channel: *channel,
            location: random.count(&(0..=self.own.locations - 1)),
        };
        channels[..count].iter().map(pair).collect()
    }

    /// Makes the edge internal, with updates that stay in range: a variable is
    /// set, or added to under a data bound.
    fn internal(&self, random: &mut Random, edge: &mut Edge) {
        let mut data: Vec<DataBound> = edge.data_bounds.iter().copied().take(3).collect();
        let mut updates = self.sets(random);
        if self.own.variables > 0 && updates.len() < 4 && !random.once_in(3) {
            let variable = random.count(&(0..=self.own.variables - 1));
            let (bound, update) = counted(random, variable);
            data.push(bound);
            // In front: the bound is about the value at entry.
            let mut first: List<Update, 4> = [update].into_iter().collect();
            updates.iter().for_each(|update| first.push(*update));
            updates = first;
        }
        edge.data_bounds = data.into_iter().collect();
        edge.action = Action::Internal(updates);
    }

    /// Up to three updates that set a variable.
    fn sets(&self, random: &mut Random) -> List<Update, 4> {
        if self.own.variables == 0 {
            return List::new();
        }
        let count = random.pick(&[0, 0, 0, 1, 1, 2, 3]);
        let set = |_| Update {
            variable: random.count(&(0..=self.own.variables - 1)),
            operation: Operation::Set,
            number: number(random),
        };
        (0..count).map(set).collect()
    }
}

/// A value: mostly a small one, sometimes an end of the range.
fn number(random: &mut Random) -> i16 {
    match random.below(4) {
        0 => random.pick(&[i16::MIN, i16::MAX, i16::MIN + 1, i16::MAX - 1]),
        _ => random.within(0..=10) as i16 - 5,
    }
}

/// An addition, and the bound under which it stays in range.
fn counted(random: &mut Random, variable: u8) -> (DataBound, Update) {
    let number = number(random);
    let [low, high] = if number >= 0 {
        [i16::MIN, i16::MAX - number]
    } else {
        [i16::MIN - number, i16::MAX]
    };
    let near = random.once_in(2);
    let bound = DataBound {
        variable,
        low: if near { low.max(-9) } else { low },
        high: if near { high.min(9) } else { high },
    };
    let update = Update {
        variable,
        operation: Operation::Add,
        number,
    };
    (bound, update)
}
