//! A component on its way along a chain of locations, and the edges that it meets at
//! the last one.

use crate::random::Random;
use reference::table::*;

/// A component on its way: where it is, and the edges and locations so far.
pub(super) struct Way {
    pub(super) clocks: usize,
    pub(super) variables: usize,
    /// The number of each location on the way, and last that of one beside it.
    pub(super) numbers: Vec<u8>,
    pub(super) locations: Vec<Location>,
    pub(super) edges: Vec<Edge>,
    pub(super) tick: u32,
    pub(super) values: [u32; MAX_CLOCKS],
    pub(super) data: [i16; MAX_VARIABLES],
}

impl Way {
    /// A way of so many passages.
    pub(super) fn of(random: &mut Random, links: usize, least_variables: usize) -> Way {
        let mut numbers: Vec<u8> = (0..links as u8 + 2).collect();
        random.shuffle(&mut numbers);
        let mut way = Way {
            clocks: random.within(1..=4),
            variables: random.within(least_variables..=4),
            locations: vec![Location { clock: 0, bound: 9 }; numbers.len()],
            numbers,
            edges: Vec::new(),
            tick: 0,
            values: [0; MAX_CLOCKS],
            data: [0; MAX_VARIABLES],
        };
        for link in 0..links {
            way.go(random, link);
        }
        way
    }

    /// Where it is after so many passages.
    pub(super) fn location(&self, link: usize) -> u8 {
        self.numbers[link]
    }

    /// A clock and its value.
    fn clock(&self, random: &mut Random) -> (u8, u16) {
        let clock = random.below(self.clocks);
        (clock as u8, self.values[clock] as u16)
    }

    /// Gives a location an invariant that ends so many ticks after the entry.
    pub(super) fn put_location(&mut self, random: &mut Random, link: usize, end: u16) {
        let (clock, value) = self.clock(random);
        let bound = value + end;
        self.locations[usize::from(self.numbers[link])] = Location { clock, bound };
    }

    /// Gives a location an invariant that is broken at the entry, where a clock is not 0.
    pub(super) fn break_location(&mut self, random: &mut Random, link: usize) {
        let (clock, value) = self.clock(random);
        let bound = value.saturating_sub(1);
        self.locations[usize::from(self.numbers[link])] = Location { clock, bound };
    }

    /// One passage: the edge is ready before the invariant ends.
    fn go(&mut self, random: &mut Random, link: usize) {
        let end = random.within(1..=9) as u16;
        self.put_location(random, link, end);
        let (clock, value) = self.clock(random);
        let low = value + random.below(end.into()) as u16;
        let high = random.pick(&[None, Some(value + end), Some(value + end + 1)]);
        let edge = Edge {
            source: self.location(link),
            destination: self.location(link + 1),
            mask: random.below(1 << self.clocks) as u8,
            clock_bounds: [ClockBound { clock, low, high }].into_iter().collect(),
            action: Action::Internal(self.updates(random)),
            ..Edge::default()
        };
        for clock in 0..self.clocks {
            self.values[clock] = match edge.mask >> clock & 1 {
                1 => 0,
                _ => self.values[clock] + u32::from(end),
            };
        }
        self.tick += u32::from(end);
        self.edges.push(edge);
    }

    /// Up to two updates, which are made at once.
    fn updates(&mut self, random: &mut Random) -> List<Update, 4> {
        let count = match self.variables {
            0 => 0,
            _ => random.below(3),
        };
        (0..count).map(|_| self.update(random)).collect()
    }

    fn update(&mut self, random: &mut Random) -> Update {
        let variable = random.below(self.variables);
        let number = random.within(0..=200) as i16 - 100;
        let operation = random.pick(&[Operation::Set, Operation::Add]);
        self.data[variable] = match operation {
            Operation::Set => number,
            Operation::Add => self.data[variable] + number,
        };
        Update {
            variable: variable as u8,
            operation,
            number,
        }
    }

    /// A data bound that holds, or one that does not.
    fn data_bound(&self, random: &mut Random, holds: bool) -> DataBound {
        let variable = random.below(self.variables);
        let value = self.data[variable];
        let near = random.below(3) as i16;
        let (low, high) = match (holds, random.below(3)) {
            (true, 0) => (value, value),
            (true, _) => (value - near, value + near),
            (false, 0) => (value + 1, value + 1 + near),
            (false, 1) => (value - 1 - near, value - 1),
            (false, _) => (value + near, value + near - 1),
        };
        DataBound {
            variable: variable as u8,
            low,
            high,
        }
    }

    /// An edge from the last location that is no candidate since a data bound fails, or
    /// several do, whatever its window.
    pub(super) fn blocked(&self, random: &mut Random) -> Edge {
        let mut edge = self.leaving_last(random);
        let count = random.within(1..=4);
        let fails = random.below(count);
        for number in 0..count {
            let holds = number != fails && !random.once_in(3);
            edge.data_bounds.push(self.data_bound(random, holds));
        }
        if random.once_in(2) {
            edge.clock_bounds.push(self.no_window(random, 9));
        }
        edge
    }

    /// An edge from the last location, whose invariant ends after so many ticks or
    /// before, that has no window, though its data bounds hold.
    pub(super) fn windowless(&self, random: &mut Random, end: u16) -> Edge {
        let mut edge = self.leaving_last(random);
        if self.variables > 0 && random.once_in(2) {
            edge.data_bounds.push(self.data_bound(random, true));
        }
        if end > 0 || random.once_in(2) {
            edge.clock_bounds.push(self.no_window(random, end));
        }
        edge
    }

    /// A clock bound with which ready is not before end.
    fn no_window(&self, random: &mut Random, end: u16) -> ClockBound {
        let (clock, value) = self.clock(random);
        let after = random.below(3) as u16;
        let (low, high) = match random.below(4) {
            0 => (value + end + after, None),
            1 => (0, Some(value.saturating_sub(after))),
            2 => (value + after, Some(value + after)),
            _ => (value + 2, Some(value + 1)),
        };
        ClockBound { clock, low, high }
    }

    /// An edge from the last location without bounds.
    pub(super) fn leaving_last(&self, random: &mut Random) -> Edge {
        let [.., last, beside] = self.numbers[..] else {
            unreachable!("a way has a last location and one beside it");
        };
        Edge {
            source: last,
            destination: random.pick(&[last, beside]),
            mask: random.below(1 << self.clocks) as u8,
            ..Edge::default()
        }
    }

    /// An edge from the location beside the way.
    pub(super) fn leaving_beside(&self, random: &mut Random) -> Edge {
        let edge = self.leaving_last(random);
        Edge {
            source: self.numbers[self.numbers.len() - 1],
            ..edge
        }
    }

    /// Puts more edges among those of the way, in any order.
    pub(super) fn mix_in(&mut self, random: &mut Random, more: Vec<Edge>) {
        for edge in more {
            let at = random.within(0..=self.edges.len());
            self.edges.insert(at, edge);
        }
    }
}
