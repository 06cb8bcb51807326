//! Which kind of file some bytes are, by their first bytes, their size and how
//! their parts are laid out (docs/FORMATS.md).
//!
//! A table begins with its version, a control byte; so does a program. A text
//! begins with none. What is laid out as a table is a table, whatever else it
//! looks like.

/// What bytes look like.
#[derive(Clone, Copy, Debug, PartialEq, Eq)]
pub enum Kind {
    /// A table whose components end where it ends, as check 4 asks; what is
    /// inside them may be wrong.
    Table,
    /// The text form of a table, good or with faults.
    Text,
    /// The program of a table's nodes.
    Program,
    /// The part of a program that belongs to one node.
    Part,
    /// Laid out as none of these: a damaged table or program, or something
    /// else. The checks refuse it as a table.
    Other,
}

impl Kind {
    /// The word for it.
    pub fn name(self) -> &'static str {
        match self {
            Kind::Table => "table",
            Kind::Text => "text",
            Kind::Program => "program",
            Kind::Part => "part",
            Kind::Other => "other",
        }
    }
}

/// So many bytes at the front tell a text from something else.
const LOOKED_AT: usize = 16;
/// The last op of a statement.
const LAST_OP: u8 = 18;

/// The kind of some bytes.
pub fn kind(bytes: &[u8]) -> Kind {
    let versioned = matches!(bytes.first(), Some(1..=3));
    if versioned && is_table(bytes) {
        Kind::Table
    } else if versioned && is_program(bytes) {
        Kind::Program
    } else if is_part(bytes) {
        Kind::Part
    } else if !versioned && is_text(bytes) {
        Kind::Text
    } else {
        Kind::Other
    }
}

/// Whether there are bytes, and the first ones are none that no text has.
fn is_text(bytes: &[u8]) -> bool {
    let front = &bytes[..bytes.len().min(LOOKED_AT)];
    let fine = |byte: &u8| match byte {
        0..=31 | 127 => byte.is_ascii_whitespace(),
        // No character has such a byte, in choices it is a tick.
        248..=255 => false,
        _ => true,
    };
    !front.is_empty() && front.iter().all(fine)
}

/// A number of two bytes, the highest first.
pub fn word(bytes: &[u8], place: usize) -> Option<usize> {
    let pair = bytes.get(place..place + 2)?;
    Some(usize::from(pair[0]) * 256 + usize::from(pair[1]))
}

/// The parts from a place to the end, so many of them, each with its length in
/// its first two bytes; none if they do not end with the bytes.
fn parts(bytes: &[u8], place: usize, count: u8) -> Option<Vec<&[u8]>> {
    let mut rest = bytes.get(place..)?;
    let mut found = Vec::new();
    for _ in 0..count {
        let length = word(rest, 0).filter(|length| (2..=rest.len()).contains(length))?;
        let (part, behind) = rest.split_at(length);
        found.push(part);
        rest = behind;
    }
    rest.is_empty().then_some(found)
}

/// Whether the stated length, which stands behind the version, is the true one,
/// and the count behind that is one of nodes.
fn has_head(bytes: &[u8]) -> bool {
    word(bytes, 1) == Some(bytes.len()) && matches!(bytes.get(3), Some(1..=8))
}

fn is_table(bytes: &[u8]) -> bool {
    if !has_head(bytes) || bytes.len() < 7 {
        return false;
    }
    let bands = if bytes[0] == 1 { 0 } else { bytes[4] };
    let components = parts(bytes, 7 + usize::from(bands), bytes[3]);
    components.is_some_and(|components| components.iter().all(|part| part.len() >= 7))
}

fn is_program(bytes: &[u8]) -> bool {
    let found = has_head(bytes).then(|| parts(bytes, 6, bytes[3])).flatten();
    found.is_some_and(|found| found.into_iter().all(is_part))
}

fn is_part(bytes: &[u8]) -> bool {
    if word(bytes, 0) != Some(bytes.len()) || bytes.len() < 6 {
        return false;
    }
    let (locations, edges, initial, zero) = (bytes[2], bytes[3], bytes[4], bytes[5]);
    let counted = (1..=16).contains(&locations) && (1..=32).contains(&edges);
    let starts = 2 * (usize::from(locations) + usize::from(edges));
    counted && initial < locations && zero == 0 && is_code(&bytes[6..], starts)
}

/// Whether the starts of blocks, so many bytes, are followed by statements, the
/// first block starts with the first of them, and each has an op.
fn is_code(bytes: &[u8], starts: usize) -> bool {
    let Some(statements) = bytes.get(starts..) else {
        return false;
    };
    let whole = !statements.is_empty() && statements.len() % 4 == 0;
    whole && word(bytes, 0) == Some(0) && statements.iter().step_by(4).all(|op| *op <= LAST_OP)
}
