//! "The part of the program bytes that belongs to one node can be had by its
//! number", and what stands in it.

use super::{Statement, HEADER, PART_HEAD, STATEMENT};

/// The start and the length of one node's part in any bytes: "a number
/// without a node, or a header or length that runs out of the bytes, gives an
/// empty part", which is (0, 0) here.
///
/// Only the component count, the parts' lengths and the end of the bytes are
/// looked at. A stated length below 2 is taken as it is.
pub fn part(program: &[u8], node: usize) -> (usize, usize) {
    find(program, node).unwrap_or((0, 0))
}

/// The bytes of one node's part, empty as [`part`] says.
pub fn part_bytes(program: &[u8], node: usize) -> &[u8] {
    let (start, length) = part(program, node);
    &program[start..start + length]
}

fn find(program: &[u8], node: usize) -> Option<(usize, usize)> {
    if program.len() < HEADER || node >= usize::from(program[3]) {
        return None;
    }
    let mut start = HEADER;
    for _ in 0..node {
        start += stated_length(program, start)?;
    }
    let length = stated_length(program, start)?;
    (length <= program.len() - start).then_some((start, length))
}

/// The 2-byte length at a place, if it lies within the bytes.
fn stated_length(program: &[u8], at: usize) -> Option<usize> {
    let field = program.get(at..at + 2)?;
    Some(u16::from_be_bytes([field[0], field[1]]).into())
}

/// One node's part, opened for reading: "locations; edges; initial location;
/// a zero byte; a 2-byte start, counted in statements, for each location's
/// block, then each edge's block; then those blocks in that order."
#[derive(Clone, Copy, Debug, PartialEq, Eq)]
pub struct NodeProgram<'a> {
    /// The number of location blocks.
    pub locations: u8,
    /// The number of edge blocks.
    pub edges: u8,
    /// "initial location".
    pub initial: u8,
    starts: &'a [u8],
    code: &'a [u8],
}

impl<'a> NodeProgram<'a> {
    /// Opens a part, if its head and its starts lie within it.
    pub fn new(part: &'a [u8]) -> Option<NodeProgram<'a>> {
        let (head, rest) = part.split_first_chunk::<PART_HEAD>()?;
        let blocks = usize::from(head[2]) + usize::from(head[3]);
        let (starts, code) = rest.split_at_checked(2 * blocks)?;
        Some(NodeProgram {
            locations: head[2],
            edges: head[3],
            initial: head[4],
            starts,
            code,
        })
    }

    /// The number of whole statements.
    pub fn len(&self) -> usize {
        self.code.len() / STATEMENT
    }

    /// Whether there is no statement.
    pub fn is_empty(&self) -> bool {
        self.len() == 0
    }

    /// The statement at a place, if there is one.
    #[inline]
    pub fn statement(&self, place: usize) -> Option<Statement> {
        let bytes = self.code.get(place * STATEMENT..)?;
        Statement::from_bytes(*bytes.first_chunk()?)
    }

    /// The place of a location's block.
    pub fn location_start(&self, location: u8) -> Option<usize> {
        (location < self.locations).then(|| self.start(location.into()))
    }

    /// The place of an edge's block.
    pub fn edge_start(&self, edge: u8) -> Option<usize> {
        (edge < self.edges).then(|| self.start(usize::from(self.locations) + usize::from(edge)))
    }

    fn start(&self, block: usize) -> usize {
        u16::from_be_bytes([self.starts[2 * block], self.starts[2 * block + 1]]).into()
    }

    /// The heading of the block that starts at a place, if one does.
    fn heading(&self, place: usize) -> Option<String> {
        let location = (0..self.locations).find(|l| self.location_start(*l) == Some(place));
        let edge = (0..self.edges).find(|e| self.edge_start(*e) == Some(place));
        match (location, edge) {
            (Some(location), _) => Some(format!("L{location}:")),
            (None, Some(edge)) => Some(format!("e{edge}:")),
            (None, None) => None,
        }
    }
}

/// One node's part in readable form: a heading line for each block, then a
/// line for each of its statements. Bytes that are no statement are shown in
/// hexadecimal; a part that cannot be opened gives no lines.
pub fn decode(part: &[u8]) -> Vec<String> {
    let Some(node) = NodeProgram::new(part) else {
        return Vec::new();
    };
    let mut lines = Vec::new();
    for (place, bytes) in node.code.chunks(STATEMENT).enumerate() {
        lines.extend(node.heading(place));
        lines.push(match node.statement(place) {
            Some(statement) => format!("  {statement}"),
            None => bytes.iter().fold(String::from("  "), |line, byte| {
                line + &format!("{byte:02x}")
            }),
        });
    }
    lines
}
