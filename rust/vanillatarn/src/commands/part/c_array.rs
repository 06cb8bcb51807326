//! A node's part as C: an array, and the numbers that the node's firmware needs (docs/NODE.md).

use table_text::{kind, Kind};

/// The bytes of a line.
const WIDTH: usize = 16;
/// The ops of the statements that a clock has in the block of an edge.
const AGE: u8 = 7;
const ZERO: u8 = 8;

/// The text of the part of a node; none if it is not laid out as a part, or its program says
/// no horizon.
pub fn written(program: &[u8], node: u8, part: &[u8]) -> Option<String> {
    let horizon = u16::from_be_bytes(program.get(4..6)?.try_into().ok()?);
    if kind(part) != Kind::Part {
        return None;
    }
    let (length, locations, edges) = (part.len(), part[2], part[3]);
    let (clocks, checksum) = (clocks(part), crc32(part));
    let bytes = lines(part);
    Some(format!(
        "/* The part of node {node}: vanillatarn part --c. For node/timed_node.h. */
#ifndef TIMED_NODE_PART_LENGTH
#include <stdint.h>
#define TIMED_NODE_PART_NUMBER {node}
#define TIMED_NODE_PART_LENGTH {length}
#define TIMED_NODE_PART_LOCATIONS {locations}
#define TIMED_NODE_PART_EDGES {edges}
#define TIMED_NODE_PART_CLOCKS {clocks}
#define TIMED_NODE_PART_HORIZON {horizon}
#define TIMED_NODE_PART_CHECKSUM 0x{checksum:08x}u
static const uint8_t timed_node_part[TIMED_NODE_PART_LENGTH] = {{
{bytes}}};
#endif
"
    ))
}

/// How many clocks the node has: so many ages and zeros stand before the last enter and choose.
fn clocks(part: &[u8]) -> usize {
    let mut statements = part.rchunks_exact(4).skip(2);
    let is_clock = |statement: &&[u8]| matches!(statement[0], AGE | ZERO);
    statements.by_ref().take_while(is_clock).count()
}

/// The bytes as lines of an initializer.
fn lines(part: &[u8]) -> String {
    let line = |bytes: &[u8]| {
        let numbers: Vec<String> = bytes.iter().map(|byte| format!("0x{byte:02x},")).collect();
        format!("    {}\n", numbers.join(" "))
    };
    part.chunks(WIDTH).map(line).collect()
}

/// CRC-32, as of gzip and Ethernet.
fn crc32(bytes: &[u8]) -> u32 {
    let step = |sum: u32, _| (sum >> 1) ^ (0xedb8_8320 & (sum & 1).wrapping_neg());
    let of_byte = |sum: u32, byte: &u8| (0..8).fold(sum ^ u32::from(*byte), step);
    !bytes.iter().fold(!0, of_byte)
}

#[cfg(test)]
mod tests {
    use super::*;

    #[test]
    fn checksums() {
        assert_eq!(crc32(b"123456789"), 0xcbf4_3926);
        assert_eq!(crc32(b""), 0);
    }

    #[test]
    fn clocks_of_the_last_edge() {
        let statements = |ops: &[u8]| -> Vec<u8> {
            let bytes = ops.iter().flat_map(|op| [*op, 0, 0, 0]);
            [0; 6].into_iter().chain(bytes).collect()
        };
        assert_eq!(clocks(&statements(&[0, 3, 7, 8, 7, 9, 17])), 3);
        assert_eq!(clocks(&statements(&[8, 0, 4, 8, 9, 17])), 1);
    }

    #[test]
    fn damaged() {
        let program = [1, 0, 12, 1, 0, 20, 0, 6, 2, 2, 0, 0];
        assert_eq!(written(&program, 0, &program[6..]), None);
        assert_eq!(written(&program[..4], 0, &[]), None);
    }
}
