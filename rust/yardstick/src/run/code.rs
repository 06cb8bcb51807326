//! Statements decoded once: a block is written when a node first goes to it.

use super::Network;
use crate::table::{COMPONENTS, EDGES, LOCATIONS};
use crate::translate::{edge_block, location_block, Code};

/// A statement.
#[derive(Clone, Copy)]
pub(super) struct Statement {
    pub(super) op: u8,
    pub(super) a: u8,
    pub(super) k: u16,
}

/// The start of a block that was not written yet.
const UNWRITTEN: u16 = u16::MAX;
/// The blocks of a node: one for each location, then one for each edge.
const BLOCKS: usize = LOCATIONS + EDGES;

/// The blocks that were written.
pub(super) struct Blocks {
    statements: Vec<Statement>,
    starts: [[u16; BLOCKS]; COMPONENTS],
}

impl Default for Blocks {
    fn default() -> Blocks {
        Blocks {
            statements: Vec::new(),
            starts: [[UNWRITTEN; BLOCKS]; COMPONENTS],
        }
    }
}

impl Blocks {
    /// Forgets all blocks.
    pub(super) fn clear(&mut self) {
        self.statements.clear();
        self.starts = [[UNWRITTEN; BLOCKS]; COMPONENTS];
    }

    /// The statement at a place.
    #[inline]
    pub(super) fn statement(&self, place: usize) -> Statement {
        self.statements[place]
    }

    /// The start of a location's block.
    #[inline]
    pub(super) fn of_location(&mut self, network: &Network, node: usize, location: u8) -> usize {
        let block = usize::from(location) % LOCATIONS;
        match self.starts[node % COMPONENTS][block] {
            UNWRITTEN => self.write_location(network, node, location),
            start => start.into(),
        }
    }

    /// The start of an edge's block.
    #[inline]
    pub(super) fn of_edge(&mut self, network: &Network, node: usize, edge: u8) -> usize {
        let block = LOCATIONS + usize::from(edge) % EDGES;
        match self.starts[node % COMPONENTS][block] {
            UNWRITTEN => self.write_edge(network, node, edge),
            start => start.into(),
        }
    }

    #[cold]
    fn write_location(&mut self, network: &Network, node: usize, number: u8) -> usize {
        let start = self.statements.len();
        let component = network.table.component(node);
        let location = component.location(number);
        location_block(component, location, network.bytes, &mut self.statements);
        let block = usize::from(number) % LOCATIONS;
        self.starts[node % COMPONENTS][block] = start as u16;
        start
    }

    #[cold]
    fn write_edge(&mut self, network: &Network, node: usize, number: u8) -> usize {
        let start = self.statements.len();
        let component = network.table.component(node);
        let edge = component.edge(number);
        edge_block(component, edge, network.bytes, &mut self.statements);
        let block = LOCATIONS + usize::from(number) % EDGES;
        self.starts[node % COMPONENTS][block] = start as u16;
        start
    }
}

impl Code for Vec<Statement> {
    #[inline]
    fn put(&mut self, [op, a, high, low]: [u8; 4]) {
        let k = u16::from_be_bytes([high, low]);
        self.push(Statement { op, a, k });
    }
}
