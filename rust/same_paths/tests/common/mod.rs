//! Small tables made at random, in which much happens within few ticks.
#![allow(dead_code)]

use reference::table::*;

/// A small generator of numbers.
pub struct Numbers(pub u64);

impl Numbers {
    /// A number below `limit`.
    pub fn below(&mut self, limit: usize) -> usize {
        self.0 ^= self.0 << 13;
        self.0 ^= self.0 >> 7;
        self.0 ^= self.0 << 17;
        (self.0 % limit as u64) as usize
    }

    fn byte(&mut self, limit: u8) -> u8 {
        self.below(limit.into()) as u8
    }

    fn pick<T: Copy>(&mut self, from: &[T]) -> T {
        from[self.below(from.len())]
    }

    fn times<T, const N: usize>(
        &mut self,
        count: usize,
        mut one: impl FnMut(&mut Numbers) -> T,
    ) -> List<T, N>
    where
        List<T, N>: FromIterator<T>,
    {
        (0..count).map(|_| one(self)).collect()
    }
}

/// Values at and about the ends of a variable's range, and about 0.
const DATA: [i16; 11] = [
    i16::MIN,
    i16::MIN + 1,
    i16::MIN + 2,
    -2,
    -1,
    0,
    1,
    2,
    i16::MAX - 2,
    i16::MAX - 1,
    i16::MAX,
];

/// A table of up to three components; of each that it refers to there is one.
pub fn small_table(numbers: &mut Numbers) -> Table {
    let channels = numbers.byte(4);
    let components = 1 + numbers.below(3);
    Table {
        version: 1,
        bands: Vec::new(),
        channels,
        horizon: 20,
        components: (0..components)
            .map(|_| small_component(numbers, channels))
            .collect(),
    }
}

/// What the parts of a component refer to.
struct Own {
    locations: u8,
    clocks: u8,
    variables: u8,
    channels: u8,
}

fn small_component(numbers: &mut Numbers, channels: u8) -> Component {
    let own = Own {
        locations: 1 + numbers.byte(3),
        clocks: 1 + numbers.byte(3),
        variables: numbers.byte(3),
        channels,
    };
    let edges = 1 + numbers.below(4);
    Component {
        initial: numbers.byte(own.locations),
        clocks: own.clocks,
        variables: own.variables,
        locations: (0..own.locations)
            .map(|_| Location {
                clock: numbers.byte(own.clocks),
                bound: numbers.below(7) as u16,
            })
            .collect(),
        edges: (0..edges).map(|_| small_edge(numbers, &own)).collect(),
    }
}

fn small_edge(numbers: &mut Numbers, own: &Own) -> Edge {
    let action = match numbers.below(3) {
        0 if own.channels > 0 => Action::Send(numbers.byte(own.channels)),
        1 if own.channels > 0 => Action::Receive(pairs(numbers, own)),
        _ => Action::Internal(updates(numbers, own)),
    };
    let data_bounds = match action {
        Action::Receive(_) => 0,
        _ if own.variables == 0 => 0,
        _ => numbers.below(3),
    };
    let clock_bounds = numbers.below(4);
    Edge {
        source: numbers.byte(own.locations),
        destination: numbers.byte(own.locations),
        mask: numbers.byte(1 << own.clocks),
        clock_bounds: numbers.times(clock_bounds, |numbers| clock_bound(numbers, own)),
        data_bounds: numbers.times(data_bounds, |numbers| data_bound(numbers, own)),
        action,
        ..Edge::default()
    }
}

fn clock_bound(numbers: &mut Numbers, own: &Own) -> ClockBound {
    let high = numbers.below(10) as u16;
    ClockBound {
        clock: numbers.byte(own.clocks),
        low: [0, 0, 1, 2, 3, 8][numbers.below(6)],
        high: Some(high).filter(|high| *high < 8),
    }
}

/// Bounds that hold more often than not.
fn data_bound(numbers: &mut Numbers, own: &Own) -> DataBound {
    let (one, other) = (numbers.pick(&DATA), numbers.pick(&DATA));
    let (low, high) = match numbers.below(8) {
        0 => (one, other),
        _ => (one.min(other).min(0), one.max(other)),
    };
    DataBound {
        variable: numbers.byte(own.variables),
        low,
        high,
    }
}

fn updates(numbers: &mut Numbers, own: &Own) -> List<Update, 4> {
    let count = match own.variables {
        0 => 0,
        _ => numbers.below(5),
    };
    numbers.times(count, |numbers| Update {
        variable: numbers.byte(own.variables),
        operation: numbers.pick(&[Operation::Set, Operation::Add, Operation::Add]),
        number: numbers.pick(&DATA),
    })
}

/// Pairs of different channels.
fn pairs(numbers: &mut Numbers, own: &Own) -> List<Pair, 8> {
    let first = numbers.byte(own.channels);
    let count = 1 + numbers.byte(own.channels);
    let channels = (0..count).map(|more| (first + more) % own.channels);
    let pair = |channel| Pair {
        channel,
        location: numbers.byte(own.locations),
    };
    channels.map(pair).collect()
}
