//! The table: its parts as plain types, the reader with checks 1 to 6, and
//! the writer.
//!
//! "All fields are unsigned, big-endian." "Everything is numbered from 0."

mod check;
mod list;
mod parts;
mod read;
mod write;

pub use check::{check_only, Directory, Entry};
pub use list::List;
pub use parts::check_header;
pub use read::read_table;
pub use write::write_table;

/// The least and the greatest length of a table: "from 7 to 8,192".
pub const LENGTHS: std::ops::RangeInclusive<usize> = 7..=8192;
/// "components (nodes) 1 to 8".
pub const MAX_COMPONENTS: usize = 8;
/// "channels 0 to 16".
pub const MAX_CHANNELS: u8 = 16;
/// Document 02, wish 2: "check 1 takes both versions", 1 and 2; wish 8: "Check 1
/// takes version 3 too".
pub const VERSIONS: std::ops::RangeInclusive<u8> = 1..=3;
/// Document 02, wish 2: "its band, 0 to 3".
pub const MAX_BAND: u8 = 3;
/// "locations 1 to 16".
pub const MAX_LOCATIONS: u8 = 16;
/// "clocks 1 to 4".
pub const MAX_CLOCKS: usize = 4;
/// "variables 0 to 4".
pub const MAX_VARIABLES: usize = 4;
/// "edges 1 to 32".
pub const MAX_EDGES: u8 = 32;
/// The greatest bound, the greatest horizon and the greatest budget: "0 to 60,000",
/// "1 to 60,000".
pub const MAX_TICKS: u16 = 60_000;
/// The stored form of no high bound: "65,535 for none".
pub const NO_HIGH: u16 = 65_535;
/// The component of a refusal that concerns none: "255 for 1 to 3, 13, 14".
pub const NO_COMPONENT: u8 = 255;

/// "A refusal gives its number and a component".
#[derive(Clone, Copy, Debug, PartialEq, Eq)]
pub struct Refusal {
    /// The number of the check that was not passed: 1 to 12 or 15
    /// to 17, 13, 14, or 18 to 28.
    pub number: u8,
    /// "255 for 1 to 3, 13, 14 [...]; for 4 to 9 the one read or opened; for
    /// 10 to 12 that of the first passage in schedule order at fault".
    pub component: u8,
}

impl Refusal {
    /// A refusal that names a component.
    pub const fn new(number: u8, component: u8) -> Refusal {
        Refusal { number, component }
    }

    /// A refusal that concerns no component.
    pub const fn whole(number: u8) -> Refusal {
        Refusal::new(number, NO_COMPONENT)
    }
}

/// A table: "Header [...]. Then each component". Document 02, wish 2: "Table
/// version 2 has, after the header, one byte per channel with its band".
#[derive(Clone, Debug, PartialEq, Eq)]
pub struct Table {
    /// "version 1", or 2 or 3.
    pub version: u8,
    /// The band of each channel; none stand in a table of version 1.
    pub bands: Vec<u8>,
    /// "channels 0 to 16".
    pub channels: u8,
    /// "horizon H, 1 to 60,000".
    pub horizon: u16,
    /// "components (nodes) 1 to 8", in their order.
    pub components: Vec<Component>,
}

impl Table {
    /// Whether bands stand behind the header: in version 2, and whatever
    /// later version has them too.
    pub fn has_bands(version: u8) -> bool {
        version >= 2
    }

    /// Whether a budget stands behind each edge's 7 bytes: "Table version 3 is
    /// version 2 with a 2-byte budget" (document 02, wish 8).
    pub fn has_budgets(version: u8) -> bool {
        version >= 3
    }

    /// The band of a channel: "Version 1 tables have all channels on band 0".
    pub fn band(&self, channel: u8) -> u8 {
        self.bands.get(channel as usize).copied().unwrap_or(0)
    }
}

/// One component of a table.
#[derive(Clone, Debug, PartialEq, Eq)]
pub struct Component {
    /// "initial location".
    pub initial: u8,
    /// The number of its clocks: "clocks 1 to 4".
    pub clocks: u8,
    /// The number of its variables: "variables 0 to 4".
    pub variables: u8,
    /// "locations 1 to 16".
    pub locations: Vec<Location>,
    /// "edges 1 to 32".
    pub edges: Vec<Edge>,
}

/// "Location, 3 bytes: clock, and bound q (0 to 60,000). Its invariant is
/// clock ≤ q."
#[derive(Clone, Copy, Debug, PartialEq, Eq)]
pub struct Location {
    /// The clock of the invariant.
    pub clock: u8,
    /// The bound q of the invariant.
    pub bound: u16,
}

/// "An edge is one of three: internal (0), send (1) or receive (2)." What the
/// three have in common stands here, the rest in its [`Action`].
#[derive(Clone, Copy, Debug, Default, PartialEq, Eq)]
pub struct Edge {
    /// The location that the edge leaves.
    pub source: u8,
    /// The location that it leads to.
    pub destination: u8,
    /// "reset mask (bit i for clock i)".
    pub mask: u8,
    /// Document 02, wish 8: "a 2-byte budget (0 to 60,000)", 0 in versions that have
    /// none.
    pub budget: u16,
    /// "clock bounds (0 to 4)".
    pub clock_bounds: List<ClockBound, 4>,
    /// "data bounds (0 to 4; 0 for receive)".
    pub data_bounds: List<DataBound, 4>,
    /// The kind with its items.
    pub action: Action,
}

/// The kind of an edge with its items.
#[derive(Clone, Copy, Debug, PartialEq, Eq)]
pub enum Action {
    /// "Internal: 0 to 4 updates of 4 bytes".
    Internal(List<Update, 4>),
    /// "Send: exactly one item, 1 byte, the channel."
    Send(u8),
    /// "Receive: 1 to 8 pairs of channel and location."
    Receive(List<Pair, 8>),
}

/// An internal edge without updates.
impl Default for Action {
    fn default() -> Action {
        Action::Internal(List::new())
    }
}

/// "Clock bound, 5 bytes: clock, low (0 to 60,000), high (0 to 60,000, or
/// 65,535 for none)."
#[derive(Clone, Copy, Debug, Default, PartialEq, Eq)]
pub struct ClockBound {
    /// The clock that is bounded.
    pub clock: u8,
    /// The least value that it may have.
    pub low: u16,
    /// The greatest value that it may have, if there is one.
    pub high: Option<u16>,
}

/// "Data bound, 5 bytes: variable, low, high, two's complement."
#[derive(Clone, Copy, Debug, Default, PartialEq, Eq)]
pub struct DataBound {
    /// The variable that is bounded.
    pub variable: u8,
    /// The least value that it may have.
    pub low: i16,
    /// The greatest value that it may have.
    pub high: i16,
}

impl DataBound {
    /// "A low above its high is allowed and holds for no value."
    pub fn holds(&self, value: i16) -> bool {
        self.low <= value && value <= self.high
    }
}

/// An update: "variable, 0 set or 1 add, signed number".
#[derive(Clone, Copy, Debug, Default, PartialEq, Eq)]
pub struct Update {
    /// The variable that is changed.
    pub variable: u8,
    /// Whether it is set or added to.
    pub operation: Operation,
    /// The number that it is set to or that is added.
    pub number: i16,
}

impl Update {
    /// The variable's value afterwards, or nothing where it would leave
    /// "−32,768 to 32,767".
    pub fn apply(&self, value: i16) -> Option<i16> {
        match self.operation {
            Operation::Set => Some(self.number),
            Operation::Add => i16::try_from(i32::from(value) + i32::from(self.number)).ok(),
        }
    }
}

/// "0 set or 1 add".
#[derive(Clone, Copy, Debug, Default, PartialEq, Eq)]
pub enum Operation {
    /// 0: the variable becomes the number.
    #[default]
    Set,
    /// 1: the number is added to the variable.
    Add,
}

/// An item of a receive edge: "pairs of channel and location".
#[derive(Clone, Copy, Debug, Default, PartialEq, Eq)]
pub struct Pair {
    /// The channel listened to.
    pub channel: u8,
    /// The location that a message on it leads to.
    pub location: u8,
}

impl Edge {
    /// Whether "masked clocks become 0" concerns this clock.
    pub fn resets(&self, clock: usize) -> bool {
        clock < 8 && self.mask >> clock & 1 == 1
    }

    /// "Data bounds are read with the values at entry."
    pub fn data_bounds_hold(&self, variables: &[i16; MAX_VARIABLES]) -> bool {
        let value = |bound: &DataBound| variables[bound.variable as usize];
        self.data_bounds.iter().all(|b| b.holds(value(b)))
    }

    /// The variables after the edge's updates, or nothing where one of them
    /// leaves its range.
    pub fn updated(&self, variables: &[i16; MAX_VARIABLES]) -> Option<[i16; MAX_VARIABLES]> {
        self.updated_in_order(variables).ok()
    }

    /// The same, or the number of the first update that leaves its range. "Updates
    /// act in order."
    pub fn updated_in_order(
        &self,
        variables: &[i16; MAX_VARIABLES],
    ) -> Result<[i16; MAX_VARIABLES], usize> {
        let mut result = *variables;
        if let Action::Internal(updates) = &self.action {
            for (number, update) in updates.iter().enumerate() {
                let value = &mut result[update.variable as usize];
                *value = update.apply(*value).ok_or(number)?;
            }
        }
        Ok(result)
    }

    /// The location entered: "A receive edge leads to the location paired
    /// with the message taken, else to its destination."
    pub fn target(&self, message: Option<u8>) -> u8 {
        match (&self.action, message) {
            (Action::Receive(pairs), Some(channel)) => pairs
                .iter()
                .find(|pair| pair.channel == channel)
                .map_or(self.destination, |pair| pair.location),
            _ => self.destination,
        }
    }

    /// Whether this is a receive edge that names the channel.
    pub fn listens_to(&self, channel: u8) -> bool {
        matches!(&self.action, Action::Receive(pairs) if pairs.iter().any(|p| p.channel == channel))
    }
}
