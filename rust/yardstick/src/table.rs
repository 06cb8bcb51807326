//! A table decoded once, in arrays of fixed size.
//!
//! What the schedule asks for again and again is decoded: the edges from a
//! location are bits of a word, and when the location is entered again the
//! bounds of each of them are brought together for each clock and each
//! variable. What is needed once (the bounds one by one, updates, pairs) is
//! left in the table's bytes, and each edge knows where.

/// "components (nodes) 1 to 8".
pub(crate) const COMPONENTS: usize = 8;
/// "channels 0 to 16".
pub(crate) const CHANNELS: usize = 16;
/// "locations 1 to 16".
pub(crate) const LOCATIONS: usize = 16;
/// "edges 1 to 32".
pub(crate) const EDGES: usize = 32;
/// "clocks 1 to 4".
pub(crate) const CLOCKS: usize = 4;
/// "variables 0 to 4".
pub(crate) const VARIABLES: usize = 4;
/// The greatest bound, horizon and budget.
pub(crate) const MAX_TICKS: u16 = 60_000;
/// The stored form of no high bound: "65,535 for none".
pub(crate) const NO_HIGH: u16 = 65_535;
/// A high that no clock reaches.
pub(crate) const FAR: i32 = 1 << 30;

/// The bytes of the header, of a component's head and of an edge's.
pub(crate) const HEAD: usize = 7;
/// The bytes of a budget.
pub(crate) const BUDGET: usize = 2;
/// The bytes of a location.
pub(crate) const LOCATION: usize = 3;
/// The bytes of a clock bound, and of a data bound.
pub(crate) const BOUND: usize = 5;
/// The bytes of an update.
pub(crate) const UPDATE: usize = 4;
/// The bytes of a pair.
pub(crate) const PAIR: usize = 2;

/// The clocks of a component, absent ones included.
pub(crate) type Clocks = [i32; CLOCKS];
/// The variables of a component, absent ones 0.
pub(crate) type Variables = [i16; VARIABLES];

/// "internal (0), send (1) or receive (2)".
#[derive(Clone, Copy, Debug, Default, PartialEq, Eq)]
pub(crate) enum Kind {
    #[default]
    Internal,
    Send,
    Receive,
}

/// How often a location was entered.
#[derive(Clone, Copy, Default, PartialEq, Eq)]
pub(crate) enum Visited {
    /// Never.
    #[default]
    Never,
    /// Once: the bounds of its edges were read from the table's bytes.
    Once,
    /// Again: they are decoded.
    Again,
}

/// A location: its invariant and the edges from it.
#[derive(Clone, Copy, Default)]
pub(crate) struct Location {
    pub(crate) clock: u8,
    pub(crate) bound: u16,
    /// The edges from it, as bits.
    pub(crate) from: u32,
    /// Whether it was entered before, and the bounds of these edges decoded.
    pub(crate) visited: Visited,
}

/// The bounds of an edge on its clocks: for each clock the greatest low, then
/// the least high with its sign changed, so that both are the greatest of
/// their kind.
pub(crate) type Bounds = [i32; 2 * CLOCKS];

/// An edge, in a line of the processor's cache.
#[derive(Clone, Copy, Default)]
#[repr(align(64))]
pub(crate) struct Edge {
    /// The bounds on its clocks, that of the invariant included; decoded when
    /// its source is entered again, like the next two.
    pub(crate) bounds: Bounds,
    /// The greatest low of each variable.
    pub(crate) data_low: Variables,
    /// The least high of each variable.
    pub(crate) data_high: Variables,
    /// Where its first bound, or else its first item, stands in the table.
    pub(crate) at: u16,
    /// The least length of its window, where one of a tick is asked for anyway; 0 in
    /// versions without budgets.
    pub(crate) budget: u16,
    /// The channel of a send or the channels of a receive, as bits.
    pub(crate) channels: u16,
    pub(crate) kind: Kind,
    pub(crate) source: u8,
    pub(crate) destination: u8,
    pub(crate) mask: u8,
    pub(crate) clock_bounds: u8,
    pub(crate) data_bounds: u8,
    pub(crate) items: u8,
    /// How many of the clock bounds have a high.
    pub(crate) highs: u8,
}

impl Edge {
    /// Whether a window has a tick's length and that of the budget.
    #[inline]
    pub(crate) fn has_time(&self, ready: i32, end: i32) -> bool {
        end - ready >= i32::from(self.budget.max(1))
    }

    /// The channel of a send.
    pub(crate) fn channel(&self) -> u8 {
        self.channels.trailing_zeros() as u8
    }

    /// The bytes of its clock bounds.
    pub(crate) fn clock_bounds<'a>(&self, bytes: &'a [u8]) -> &'a [[u8; BOUND]] {
        part(bytes, self.at.into(), self.clock_bounds)
    }

    /// The bytes of its data bounds.
    pub(crate) fn data_bounds<'a>(&self, bytes: &'a [u8]) -> &'a [[u8; BOUND]] {
        let bounds = BOUND * usize::from(self.clock_bounds);
        part(bytes, usize::from(self.at) + bounds, self.data_bounds)
    }

    /// The bytes of its updates, if it is internal.
    pub(crate) fn updates<'a>(&self, bytes: &'a [u8]) -> &'a [[u8; UPDATE]] {
        part(bytes, self.first_item(), self.items)
    }

    /// The bytes of its pairs, if it is a receive.
    pub(crate) fn pairs<'a>(&self, bytes: &'a [u8]) -> &'a [[u8; PAIR]] {
        part(bytes, self.first_item(), self.items)
    }

    fn first_item(&self) -> usize {
        let bounds = usize::from(self.clock_bounds) + usize::from(self.data_bounds);
        usize::from(self.at) + BOUND * bounds
    }

    /// The location that a receive leads to after a message, else its
    /// destination.
    pub(crate) fn target(&self, bytes: &[u8], message: u8) -> u8 {
        let named = |pair: &&[u8; PAIR]| pair[0] == message;
        let pair = self.pairs(bytes).iter().find(named);
        pair.map_or(self.destination, |pair| pair[1])
    }
}

/// So many parts of the table's bytes from a place on.
fn part<const N: usize>(bytes: &[u8], at: usize, count: u8) -> &[[u8; N]] {
    let bytes = bytes.get(at..at + N * usize::from(count));
    bytes.unwrap_or_default().as_chunks().0
}

/// A component.
#[derive(Clone, Copy)]
pub(crate) struct Component {
    pub(crate) initial: u8,
    pub(crate) clocks: u8,
    pub(crate) location_count: u8,
    pub(crate) edge_count: u8,
    /// Whether its edges have budgets.
    pub(crate) budgets: bool,
    pub(crate) locations: [Location; LOCATIONS],
    pub(crate) edges: [Edge; EDGES],
}

impl Component {
    /// A location by its number.
    #[inline]
    pub(crate) fn location(&self, number: u8) -> &Location {
        &self.locations[usize::from(number) % LOCATIONS]
    }

    /// An edge by its number.
    #[inline]
    pub(crate) fn edge(&self, number: u8) -> &Edge {
        &self.edges[usize::from(number) % EDGES]
    }

    /// The edges that there are.
    pub(crate) fn present_edges(&self) -> &[Edge] {
        &self.edges[..usize::from(self.edge_count).min(EDGES)]
    }

    /// The locations that there are.
    pub(crate) fn present_locations(&self) -> &[Location] {
        &self.locations[..usize::from(self.location_count).min(LOCATIONS)]
    }
}

/// A table.
pub(crate) struct Table {
    pub(crate) version: u8,
    /// The band of each channel, 0 in version 1.
    pub(crate) bands: [u8; CHANNELS],
    pub(crate) horizon: u32,
    pub(crate) count: usize,
    pub(crate) components: Box<[Component; COMPONENTS]>,
}

impl Default for Table {
    fn default() -> Table {
        let component = Component {
            initial: 0,
            clocks: 0,
            location_count: 0,
            edge_count: 0,
            budgets: false,
            locations: [Location::default(); LOCATIONS],
            edges: [Edge::default(); EDGES],
        };
        Table {
            version: 0,
            bands: [0; CHANNELS],
            horizon: 0,
            count: 0,
            components: Box::new([component; COMPONENTS]),
        }
    }
}

impl Table {
    /// Whether a budget stands behind each edge's seven bytes.
    pub(crate) fn has_budgets(&self) -> bool {
        self.version == 3
    }

    /// The band of a channel.
    #[inline]
    pub(crate) fn band(&self, channel: u8) -> u8 {
        self.bands[usize::from(channel) % CHANNELS]
    }

    /// A component by its number.
    #[inline]
    pub(crate) fn component(&self, number: usize) -> &Component {
        &self.components[number % COMPONENTS]
    }

    /// The components that there are.
    pub(crate) fn present(&self) -> &[Component] {
        &self.components[..self.count.min(COMPONENTS)]
    }
}

/// The numbers of the bits that are set, lowest first.
pub(crate) struct Bits(pub(crate) u32);

impl Iterator for Bits {
    type Item = usize;

    #[inline]
    fn next(&mut self) -> Option<usize> {
        if self.0 == 0 {
            return None;
        }
        let bit = self.0.trailing_zeros();
        self.0 &= self.0 - 1;
        Some(bit as usize)
    }
}
