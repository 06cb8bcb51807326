//! The translator: the program bytes of a table.

use super::{Op, Statement, HEADER, PART_HEAD, STATEMENT};
use crate::table::*;

/// The program bytes of a table.
pub fn program(table: &Table) -> Vec<u8> {
    let mut bytes = vec![0; program_length(table)];
    write_program(table, &mut bytes);
    bytes
}

/// The program length of a table.
pub fn program_length(table: &Table) -> usize {
    let parts = table.components.iter();
    let parts = parts.map(|component| part_length(component, table.version));
    HEADER + parts.sum::<usize>()
}

/// Writes the program of a table into exactly [`program_length`] bytes:
/// "Version 1; total length (2 bytes); component count; H (2 bytes)", then
/// each component. Document 02, wish 2: "A program begins with its table's
/// version".
pub fn write_program(table: &Table, bytes: &mut [u8]) {
    let length = bytes.len();
    let mut out = Out { bytes, at: 0 };
    out.byte(table.version);
    out.two(length as u16);
    out.byte(table.components.len() as u8);
    out.two(table.horizon);
    for component in &table.components {
        write_part(component, table.version, &mut out);
    }
    debug_assert_eq!(out.at, length);
}

/// "Per component: length, these two bytes included (2 bytes); locations;
/// edges; initial location; a zero byte; a 2-byte start, counted in
/// statements, for each location's block, then each edge's block; then those
/// blocks in that order."
fn write_part(component: &Component, version: u8, out: &mut Out) {
    out.two(part_length(component, version) as u16);
    out.byte(component.locations.len() as u8);
    out.byte(component.edges.len() as u8);
    out.byte(component.initial);
    out.byte(0);
    write_starts(component, version, out);
    for number in 0..component.locations.len() {
        write_location_block(component, version, number, out);
    }
    for edge in &component.edges {
        write_edge_block(component, edge, out);
    }
}

fn write_starts(component: &Component, version: u8, out: &mut Out) {
    let mut start = 0;
    for number in 0..component.locations.len() {
        out.two(start as u16);
        start += location_block_length(component, version, number);
    }
    for edge in &component.edges {
        out.two(start as u16);
        start += edge_block_length(component, edge);
    }
}

/// The edges from a location with their numbers.
fn edges_from(component: &Component, location: usize) -> impl Iterator<Item = (usize, &Edge)> {
    let edges = component.edges.iter().enumerate();
    edges.filter(move |(_, edge)| edge.source as usize == location)
}

/// "Location block: per edge from it, 0A trial; 0C high for the invariant;
/// per clock bound 0B low, and 0C high unless 65,535; per data bound 0D, 0E
/// (low, high); 0F keep, k = edge. Last 10 take." Document 02, wish 8: "A new
/// statement 12, k = budget, stands before keep in version 3 programs only".
fn write_location_block(component: &Component, version: u8, number: usize, out: &mut Out) {
    let Location { clock, bound } = component.locations[number];
    for (number, edge) in edges_from(component, number) {
        out.plain(Op::Trial);
        out.statement(Op::High, clock, bound);
        for bound in edge.clock_bounds.iter() {
            out.statement(Op::Low, bound.clock, bound.low);
            if let Some(high) = bound.high {
                out.statement(Op::High, bound.clock, high);
            }
        }
        for bound in edge.data_bounds.iter() {
            out.statement(Op::DataLow, bound.variable, bound.low as u16);
            out.statement(Op::DataHigh, bound.variable, bound.high as u16);
        }
        if Table::has_budgets(version) {
            out.statement(Op::Budget, 0, edge.budget);
        }
        out.statement(Op::Keep, 0, number as u16);
    }
    out.plain(Op::Take);
}

/// "Edge block: 00 sleep; work; per clock 08 zero if masked, else 07 age; 09
/// enter, k = destination; 11 choose."
fn write_edge_block(component: &Component, edge: &Edge, out: &mut Out) {
    out.plain(Op::Sleep);
    write_work(&edge.action, out);
    for clock in 0..component.clocks {
        let masked = edge.resets(clock.into());
        out.statement(if masked { Op::Zero } else { Op::Age }, clock, 0);
    }
    out.statement(Op::Enter, 0, edge.destination.into());
    out.plain(Op::Choose);
}

/// "Work. Internal: 01 set or 02 add (a = variable) each, then 03 done. Send:
/// 04, a = channel. Receive: 05 listen, a = pair count, then pairs 06 (a =
/// channel, k = location), skipped when run."
fn write_work(action: &Action, out: &mut Out) {
    match action {
        Action::Internal(updates) => {
            for update in updates.iter() {
                let op = match update.operation {
                    Operation::Set => Op::Set,
                    Operation::Add => Op::Add,
                };
                out.statement(op, update.variable, update.number as u16);
            }
            out.plain(Op::Done);
        }
        Action::Send(channel) => out.statement(Op::Send, *channel, 0),
        Action::Receive(pairs) => {
            out.statement(Op::Listen, pairs.len() as u8, 0);
            for pair in pairs.iter() {
                out.statement(Op::Pair, pair.channel, pair.location.into());
            }
        }
    }
}

/// The bytes of a component's part.
fn part_length(component: &Component, version: u8) -> usize {
    let locations = component.locations.len();
    let starts = 2 * (locations + component.edges.len());
    // Each edge is tried in the block of its source and in no other.
    let edges = component.edges.iter();
    let trials = edges.clone().map(|edge| trial_length(edge, version));
    let trials = trials.sum::<usize>();
    let edges = edges.map(|edge| edge_block_length(component, edge));
    PART_HEAD + starts + STATEMENT * (locations + trials + edges.sum::<usize>())
}

/// The statements of a location's block.
fn location_block_length(component: &Component, version: u8, number: usize) -> usize {
    let trials = edges_from(component, number).map(|(_, edge)| trial_length(edge, version));
    trials.sum::<usize>() + 1
}

/// The statements that try one edge.
fn trial_length(edge: &Edge, version: u8) -> usize {
    let clock = |bound: &ClockBound| 1 + usize::from(bound.high.is_some());
    let clocks = edge.clock_bounds.iter().map(clock).sum::<usize>();
    let budget = usize::from(Table::has_budgets(version));
    3 + clocks + 2 * edge.data_bounds.len() + budget
}

/// The statements of an edge's block.
fn edge_block_length(component: &Component, edge: &Edge) -> usize {
    let work = match &edge.action {
        Action::Internal(updates) => updates.len() + 1,
        Action::Send(_) => 1,
        Action::Receive(pairs) => pairs.len() + 1,
    };
    work + usize::from(component.clocks) + 3
}

/// The place where the next bytes are written.
struct Out<'a> {
    bytes: &'a mut [u8],
    at: usize,
}

impl Out<'_> {
    fn put<const N: usize>(&mut self, bytes: [u8; N]) {
        self.bytes[self.at..self.at + N].copy_from_slice(&bytes);
        self.at += N;
    }

    fn byte(&mut self, byte: u8) {
        self.put([byte]);
    }

    fn two(&mut self, number: u16) {
        self.put(number.to_be_bytes());
    }

    fn statement(&mut self, op: Op, a: u8, k: u16) {
        self.put(Statement::new(op, a, k).to_bytes());
    }

    fn plain(&mut self, op: Op) {
        self.statement(op, 0, 0);
    }
}
