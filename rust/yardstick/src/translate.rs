//! The translator: the program bytes of a table.

use crate::table::*;

/// The bytes of a program's header.
const HEADER: usize = 6;
/// The bytes of a part before its starts.
const PART_HEAD: usize = 6;
/// The bytes of a statement.
const STATEMENT: usize = 4;

/// The ops of statements.
pub(crate) mod op {
    pub(crate) const SLEEP: u8 = 0x00;
    pub(crate) const SET: u8 = 0x01;
    pub(crate) const ADD: u8 = 0x02;
    pub(crate) const DONE: u8 = 0x03;
    pub(crate) const SEND: u8 = 0x04;
    pub(crate) const LISTEN: u8 = 0x05;
    pub(crate) const PAIR: u8 = 0x06;
    pub(crate) const AGE: u8 = 0x07;
    pub(crate) const ZERO: u8 = 0x08;
    pub(crate) const ENTER: u8 = 0x09;
    pub(crate) const TRIAL: u8 = 0x0a;
    pub(crate) const LOW: u8 = 0x0b;
    pub(crate) const HIGH: u8 = 0x0c;
    pub(crate) const DATA_LOW: u8 = 0x0d;
    pub(crate) const DATA_HIGH: u8 = 0x0e;
    pub(crate) const KEEP: u8 = 0x0f;
    pub(crate) const TAKE: u8 = 0x10;
    pub(crate) const CHOOSE: u8 = 0x11;
    pub(crate) const BUDGET: u8 = 0x12;
}

/// What takes the statements of a block, one after the other.
pub(crate) trait Code {
    /// The next statement: op, a and the two bytes of k.
    fn put(&mut self, statement: [u8; STATEMENT]);
}

/// The length of a table's program in bytes.
pub(crate) fn length(table: &Table) -> usize {
    HEADER + table.present().iter().map(part_length).sum::<usize>()
}

/// The length of a component's part in bytes.
fn part_length(component: &Component) -> usize {
    let locations = usize::from(component.location_count);
    let edges = component.present_edges();
    let one = |edge: &Edge| trial_length(component, edge) + edge_length(component, edge);
    let statements = locations + edges.iter().map(one).sum::<usize>();
    PART_HEAD + 2 * (locations + edges.len()) + STATEMENT * statements
}

/// The statements that try an edge.
#[inline]
fn trial_length(component: &Component, edge: &Edge) -> usize {
    let bounds = edge.clock_bounds + edge.highs + 2 * edge.data_bounds;
    3 + usize::from(bounds) + usize::from(component.budgets)
}

/// The statements of an edge's block.
#[inline]
fn edge_length(component: &Component, edge: &Edge) -> usize {
    let work = match edge.kind {
        Kind::Send => 1,
        Kind::Internal | Kind::Receive => edge.items + 1,
    };
    3 + usize::from(work + component.clocks)
}

/// The place where the next bytes are written.
struct Out<'a>(&'a mut [u8]);

impl Out<'_> {
    #[inline]
    fn bytes<const N: usize>(&mut self, bytes: [u8; N]) {
        let rest = std::mem::take(&mut self.0);
        if let Some((place, rest)) = rest.split_first_chunk_mut() {
            *place = bytes;
            self.0 = rest;
        }
    }

    #[inline]
    fn two(&mut self, number: usize) {
        self.bytes((number as u16).to_be_bytes());
    }
}

impl Code for Out<'_> {
    #[inline]
    fn put(&mut self, statement: [u8; STATEMENT]) {
        self.bytes(statement);
    }
}

/// Writes the program of a table into exactly its [`length`].
pub(crate) fn write(table: &Table, bytes: &[u8], program: &mut [u8]) {
    let length = program.len();
    let mut out = Out(program);
    out.bytes([table.version]);
    out.two(length);
    out.bytes([table.count as u8]);
    out.two(table.horizon as usize);
    for component in table.present() {
        write_part(component, bytes, &mut out);
    }
}

/// Writes the part of one component.
fn write_part(component: &Component, bytes: &[u8], out: &mut Out) {
    out.two(part_length(component));
    let counts = [component.location_count, component.edge_count];
    out.bytes(counts);
    out.bytes([component.initial, 0]);
    write_starts(component, out);
    for location in component.present_locations() {
        location_block(component, location, bytes, out);
    }
    for edge in component.present_edges() {
        edge_block(component, edge, bytes, out);
    }
}

/// "a 2-byte start, counted in statements, for each location's block, then
/// each edge's block".
fn write_starts(component: &Component, out: &mut Out) {
    let mut lengths = [1; LOCATIONS];
    for edge in component.present_edges() {
        lengths[usize::from(edge.source) % LOCATIONS] += trial_length(component, edge);
    }
    let mut start = 0;
    for length in lengths.iter().take(component.location_count.into()) {
        out.two(start);
        start += length;
    }
    for edge in component.present_edges() {
        out.two(start);
        start += edge_length(component, edge);
    }
}

/// "Location block: per edge from it, 0A trial; 0C high for the invariant;
/// per clock bound 0B low, and 0C high unless 65,535; per data bound 0D, 0E
/// (low, high); 0F keep, k = edge. Last 10 take." "A new statement 12, k = budget,
/// stands before keep in version 3 programs only".
#[inline]
pub(crate) fn location_block(
    component: &Component,
    location: &Location,
    bytes: &[u8],
    code: &mut impl Code,
) {
    let [high, low] = location.bound.to_be_bytes();
    for number in Bits(location.from) {
        let edge = &component.edges[number % EDGES];
        code.put([op::TRIAL, 0, 0, 0]);
        code.put([op::HIGH, location.clock, high, low]);
        for &[clock, a, b, c, d] in edge.clock_bounds(bytes) {
            code.put([op::LOW, clock, a, b]);
            if [c, d] != NO_HIGH.to_be_bytes() {
                code.put([op::HIGH, clock, c, d]);
            }
        }
        for &[variable, a, b, c, d] in edge.data_bounds(bytes) {
            code.put([op::DATA_LOW, variable, a, b]);
            code.put([op::DATA_HIGH, variable, c, d]);
        }
        if component.budgets {
            let [high, low] = edge.budget.to_be_bytes();
            code.put([op::BUDGET, 0, high, low]);
        }
        code.put([op::KEEP, 0, 0, number as u8]);
    }
    code.put([op::TAKE, 0, 0, 0]);
}

/// "Edge block: 00 sleep; work; per clock 08 zero if masked, else 07 age; 09
/// enter, k = destination; 11 choose."
#[inline]
pub(crate) fn edge_block(component: &Component, edge: &Edge, bytes: &[u8], code: &mut impl Code) {
    code.put([op::SLEEP, 0, 0, 0]);
    work(edge, bytes, code);
    for clock in 0..component.clocks {
        let masked = edge.mask >> clock & 1 != 0;
        code.put([if masked { op::ZERO } else { op::AGE }, clock, 0, 0]);
    }
    code.put([op::ENTER, 0, 0, edge.destination]);
    code.put([op::CHOOSE, 0, 0, 0]);
}

/// "Work. Internal: 01 set or 02 add (a = variable) each, then 03 done. Send:
/// 04, a = channel. Receive: 05 listen, a = pair count, then pairs 06 (a =
/// channel, k = location)".
#[inline]
fn work(edge: &Edge, bytes: &[u8], code: &mut impl Code) {
    match edge.kind {
        Kind::Internal => {
            for &[variable, operation, high, low] in edge.updates(bytes) {
                let op = if operation == 0 { op::SET } else { op::ADD };
                code.put([op, variable, high, low]);
            }
            code.put([op::DONE, 0, 0, 0]);
        }
        Kind::Send => code.put([op::SEND, edge.channel(), 0, 0]),
        Kind::Receive => {
            code.put([op::LISTEN, edge.items, 0, 0]);
            for &[channel, location] in edge.pairs(bytes) {
                code.put([op::PAIR, channel, 0, location]);
            }
        }
    }
}
