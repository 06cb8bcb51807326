//! A source text after reading: what its lines say, in their order.
//!
//! `None` in a number means that no line states it. The encoder then fills in
//! what it can compute and asks for the rest.

/// What a line says, and the line's number, counted from 1. A component and an
/// edge have the number of their first line.
#[derive(Debug, Clone, Copy, PartialEq, Eq)]
pub struct Said<T> {
    pub line: usize,
    pub what: T,
}

/// The whole source text.
#[derive(Debug, Default, Clone, PartialEq, Eq)]
pub struct TableSource {
    pub version: Option<Said<u8>>,
    pub length: Option<Said<u16>>,
    pub components: Option<Said<u8>>,
    pub channels: Option<Said<u8>>,
    pub horizon: Option<Said<u16>>,
    /// The bytes behind the header from version 2 on, as many as the line lists.
    pub bands: Option<Said<Vec<u8>>>,
    pub parts: Vec<Said<TablePart>>,
    /// Bytes dropped from the end of the whole table.
    pub cut: Option<Said<u16>>,
}

#[derive(Debug, Clone, PartialEq, Eq)]
pub enum TablePart {
    Component(ComponentSource),
    Bytes(Vec<u8>),
}

/// One `component` line with what is indented under it.
#[derive(Debug, Default, Clone, PartialEq, Eq)]
pub struct ComponentSource {
    pub length: Option<Said<u16>>,
    pub locations: Option<Said<u8>>,
    pub initial_location: Option<Said<u8>>,
    pub clocks: Option<Said<u8>>,
    pub variables: Option<Said<u8>>,
    pub edges: Option<Said<u8>>,
    pub parts: Vec<Said<ComponentPart>>,
}

#[derive(Debug, Clone, PartialEq, Eq)]
pub enum ComponentPart {
    Location {
        invariant_clock: u8,
        invariant_bound: u16,
    },
    Edge(EdgeSource),
    Bytes(Vec<u8>),
}

/// The three kinds of edge; the numbers are document 01's.
#[derive(Debug, Clone, Copy, PartialEq, Eq)]
pub enum EdgeKind {
    Internal = 0,
    Send = 1,
    Receive = 2,
}

impl TableSource {
    /// Whether a line states a budget, so that each edge has one.
    pub fn has_budgets(&self) -> bool {
        self.parts.iter().any(|part| match &part.what {
            TablePart::Component(component) => component.has_budgets(),
            TablePart::Bytes(_) => false,
        })
    }
}

impl ComponentSource {
    fn has_budgets(&self) -> bool {
        self.parts.iter().any(|part| match &part.what {
            ComponentPart::Edge(edge) => edge.has_budget(),
            ComponentPart::Location { .. } | ComponentPart::Bytes(_) => false,
        })
    }
}

impl EdgeSource {
    /// Whether a line states its budget.
    pub fn has_budget(&self) -> bool {
        let is_budget = |part: &EdgePart| matches!(part, EdgePart::Budget(_));
        self.parts.iter().any(|part| is_budget(&part.what))
    }
}

/// One edge line with what is indented under it.
#[derive(Debug, Clone, PartialEq, Eq)]
pub struct EdgeSource {
    pub kind: EdgeKind,
    pub source: u8,
    pub destination: u8,
    /// The clocks that are reset, in the order of their lines.
    pub resets: Vec<Said<u8>>,
    pub stated_kind: Option<Said<u8>>,
    pub reset_mask: Option<Said<u8>>,
    pub clock_guards: Option<Said<u8>>,
    pub data_guards: Option<Said<u8>>,
    pub items: Option<Said<u8>>,
    pub parts: Vec<Said<EdgePart>>,
}

/// What follows an edge's 7 bytes. A guard is a "bound" in document 01.
#[derive(Debug, Clone, PartialEq, Eq)]
pub enum EdgePart {
    Budget(u16),
    ClockGuard { clock: u8, low: u16, high: u16 },
    DataGuard { variable: u8, low: i16, high: i16 },
    Update { variable: u8, op: u8, number: i16 },
    SendChannel(u8),
    ReceivePair { channel: u8, location: u8 },
    Bytes(Vec<u8>),
}

/// The `high` of a clock bound that has none.
pub const NO_HIGH: u16 = 65_535;
/// The two kinds of update.
pub const OP_SET: u8 = 0;
pub const OP_ADD: u8 = 1;
