//! `TableSource` to bytes: lays out the parts, then fills in what no line states.
//!
//! Lengths and counts are computed from the parts as laid out, raw bytes
//! included in lengths and not in counts. A stated number replaces a computed
//! one. The cut comes last and changes no number.
//!
//! With each byte goes the line that it comes from: the one that states it; for
//! a number that none states that of its block, `component` or edge, and for
//! one of the header line 1. Bands that none states come from `channels`.

use crate::source::{
    ComponentPart, ComponentSource, EdgePart, EdgeSource, Said, TablePart, TableSource,
};
use crate::SourceError;

/// The version of a table without bands, of one with them, and of one with budgets
/// too.
const PLAIN: u8 = 1;
const BANDED: u8 = 2;
const BUDGETED: u8 = 3;
/// Bytes of the header, and of the head of a component.
const HEADER: usize = 7;
const COMPONENT_HEAD: usize = 7;
/// The line of what the header states and no line does.
const FIRST_LINE: usize = 1;

/// The bytes of a table, and where in the text they come from.
#[derive(Debug, Default, Clone, PartialEq, Eq)]
pub struct Encoded {
    pub bytes: Vec<u8>,
    /// Bytes of one line after the other: where they end, and the line.
    runs: Vec<Said<usize>>,
}

impl Encoded {
    /// The line that a byte comes from; none past the last byte.
    pub fn line_of(&self, byte: usize) -> Option<usize> {
        let run = self.runs.partition_point(|run| run.what <= byte);
        let there = byte < self.bytes.len();
        self.runs.get(run).filter(|_| there).map(|run| run.line)
    }

    fn put(&mut self, line: usize, bytes: &[u8]) {
        self.bytes.extend(bytes);
        self.runs.push(Said {
            line,
            what: self.bytes.len(),
        });
    }

    fn put_byte(&mut self, number: Said<u8>) {
        self.put(number.line, &[number.what]);
    }

    fn put_word(&mut self, number: Said<u16>) {
        self.put(number.line, &number.what.to_be_bytes());
    }

    fn append(&mut self, behind: Encoded) {
        let before = self.bytes.len();
        self.bytes.extend(behind.bytes);
        self.runs.extend(behind.runs.into_iter().map(|run| Said {
            line: run.line,
            what: before + run.what,
        }));
    }
}

/// The bytes of a whole table.
pub fn encode_table(table: &TableSource) -> Result<Encoded, SourceError> {
    let body = table_body(table)?;
    let mut encoded = header(table, HEADER + body.bytes.len())?;
    encoded.append(body);
    cut_end(table, &mut encoded.bytes)?;
    Ok(encoded)
}

fn header(table: &TableSource, length: usize) -> Result<Encoded, SourceError> {
    let is_component = |part: &&Said<TablePart>| matches!(part.what, TablePart::Component(_));
    let components = table.parts.iter().filter(is_component).count();
    let in_header = Block(FIRST_LINE);
    let length = in_header.stated(table.length, length, "length")?;
    let horizon = in_header.required(table.horizon, "horizon")?;
    let version = match (table.has_budgets(), &table.bands) {
        (true, _) => BUDGETED,
        (false, Some(_)) => BANDED,
        (false, None) => PLAIN,
    };
    let mut encoded = Encoded::default();
    encoded.put_byte(in_header.or(table.version, version));
    encoded.put_word(length);
    encoded.put_byte(in_header.stated(table.components, components, "components")?);
    encoded.put_byte(in_header.required(table.channels, "channels")?);
    encoded.put_word(horizon);
    Ok(encoded)
}

fn table_body(table: &TableSource) -> Result<Encoded, SourceError> {
    let budgets = table.has_budgets();
    let mut encoded = Encoded::default();
    match (&table.bands, table.channels) {
        (Some(bands), _) => encoded.put(bands.line, &bands.what),
        (None, Some(channels)) if budgets => {
            encoded.put(channels.line, &vec![0; channels.what.into()]);
        }
        (None, _) => {}
    }
    for part in &table.parts {
        match &part.what {
            TablePart::Component(component) => {
                encoded.append(encode_component(part.line, component, budgets)?);
            }
            TablePart::Bytes(raw) => encoded.put(part.line, raw),
        }
    }
    Ok(encoded)
}

fn cut_end(table: &TableSource, bytes: &mut Vec<u8>) -> Result<(), SourceError> {
    if let Some(cut) = &table.cut {
        let left = bytes.len().checked_sub(usize::from(cut.what));
        let left = left.ok_or_else(|| {
            let length = bytes.len();
            Block(cut.line).error(format!("the whole table has {length} bytes"))
        })?;
        bytes.truncate(left);
    }
    Ok(())
}

fn encode_component(
    line: usize,
    component: &ComponentSource,
    budgets: bool,
) -> Result<Encoded, SourceError> {
    let body = component_body(component, budgets)?;
    let length = COMPONENT_HEAD + body.bytes.len();
    let mut encoded = component_head(Block(line), component, length)?;
    encoded.append(body);
    Ok(encoded)
}

fn component_head(
    block: Block,
    component: &ComponentSource,
    length: usize,
) -> Result<Encoded, SourceError> {
    let count = |wanted: fn(&ComponentPart) -> bool| {
        let parts = component.parts.iter();
        parts.filter(|part| wanted(&part.what)).count()
    };
    let locations = count(|part| matches!(part, ComponentPart::Location { .. }));
    let edges = count(|part| matches!(part, ComponentPart::Edge(_)));
    let mut encoded = Encoded::default();
    encoded.put_word(block.stated(component.length, length, "length")?);
    encoded.put_byte(block.stated(component.locations, locations, "locations")?);
    encoded.put_byte(block.required(component.initial_location, "initial")?);
    encoded.put_byte(block.required(component.clocks, "clocks")?);
    encoded.put_byte(block.required(component.variables, "variables")?);
    encoded.put_byte(block.stated(component.edges, edges, "edges")?);
    Ok(encoded)
}

fn component_body(component: &ComponentSource, budgets: bool) -> Result<Encoded, SourceError> {
    let mut encoded = Encoded::default();
    for part in &component.parts {
        match &part.what {
            ComponentPart::Location {
                invariant_clock,
                invariant_bound,
            } => {
                let [high, low] = invariant_bound.to_be_bytes();
                encoded.put(part.line, &[*invariant_clock, high, low]);
            }
            ComponentPart::Edge(edge) => encoded.append(encode_edge(part.line, edge, budgets)?),
            ComponentPart::Bytes(raw) => encoded.put(part.line, raw),
        }
    }
    Ok(encoded)
}

/// An edge; where edges have budgets, one that no line states is 0.
fn encode_edge(line: usize, edge: &EdgeSource, budgets: bool) -> Result<Encoded, SourceError> {
    let mut encoded = edge_head(Block(line), edge)?;
    if budgets && !edge.has_budget() {
        encoded.put(line, &[0, 0]);
    }
    for part in &edge.parts {
        encoded.put(part.line, &edge_part(&part.what));
    }
    Ok(encoded)
}

fn edge_head(block: Block, edge: &EdgeSource) -> Result<Encoded, SourceError> {
    let count = |wanted: fn(&EdgePart) -> bool| {
        let parts = edge.parts.iter();
        parts.filter(|part| wanted(&part.what)).count()
    };
    let clock_guards = count(|part| matches!(part, EdgePart::ClockGuard { .. }));
    let data_guards = count(|part| matches!(part, EdgePart::DataGuard { .. }));
    let items = count(is_item);
    let mut encoded = Encoded::default();
    encoded.put_byte(block.or(edge.stated_kind, edge.kind as u8));
    encoded.put(block.0, &[edge.source, edge.destination]);
    encoded.put_byte(reset_mask(block, edge));
    encoded.put_byte(block.stated(edge.clock_guards, clock_guards, "clock bounds")?);
    encoded.put_byte(block.stated(edge.data_guards, data_guards, "data bounds")?);
    encoded.put_byte(block.stated(edge.items, items, "items")?);
    Ok(encoded)
}

/// The mask of the clocks that are reset. It is too large if the highest of
/// them is, so it comes from that one's line.
fn reset_mask(block: Block, edge: &EdgeSource) -> Said<u8> {
    let highest = edge.resets.iter().max_by_key(|reset| reset.what);
    let mask = edge
        .resets
        .iter()
        .fold(0, |mask, reset| mask | 1 << reset.what);
    Block(highest.map_or(block.0, |reset| reset.line)).or(edge.reset_mask, mask)
}

fn is_item(part: &EdgePart) -> bool {
    matches!(
        part,
        EdgePart::Update { .. } | EdgePart::SendChannel(_) | EdgePart::ReceivePair { .. }
    )
}

fn edge_part(part: &EdgePart) -> Vec<u8> {
    match part {
        EdgePart::Budget(budget) => budget.to_be_bytes().to_vec(),
        EdgePart::ClockGuard { clock, low, high } => {
            let (low, high) = (low.to_be_bytes(), high.to_be_bytes());
            [&[*clock], &low[..], &high[..]].concat()
        }
        EdgePart::DataGuard {
            variable,
            low,
            high,
        } => {
            let (low, high) = (low.to_be_bytes(), high.to_be_bytes());
            [&[*variable], &low[..], &high[..]].concat()
        }
        EdgePart::Update {
            variable,
            op,
            number,
        } => [&[*variable, *op], &number.to_be_bytes()[..]].concat(),
        EdgePart::SendChannel(channel) => vec![*channel],
        EdgePart::ReceivePair { channel, location } => vec![*channel, *location],
        EdgePart::Bytes(raw) => raw.clone(),
    }
}

/// The line of a block, from which the numbers come that no line states.
#[derive(Clone, Copy)]
struct Block(usize);

impl Block {
    fn error(self, message: String) -> SourceError {
        SourceError {
            line: self.0,
            message,
        }
    }

    /// The number that a line states, else this one.
    fn or<T>(self, stated: Option<Said<T>>, what: T) -> Said<T> {
        let line = self.0;
        stated.unwrap_or(Said { line, what })
    }

    /// The number that a line states, else the computed one, which must fit.
    fn stated<T: TryFrom<usize>>(
        self,
        stated: Option<Said<T>>,
        computed: usize,
        word: &str,
    ) -> Result<Said<T>, SourceError> {
        let large = "too large for its field; state it";
        let line = self.0;
        match (stated, T::try_from(computed)) {
            (Some(said), _) => Ok(said),
            (None, Ok(what)) => Ok(Said { line, what }),
            (None, Err(_)) => {
                Err(self.error(format!("{word} would be {computed}, {large}: {word} N")))
            }
        }
    }

    fn required<T>(self, stated: Option<Said<T>>, word: &str) -> Result<Said<T>, SourceError> {
        stated.ok_or_else(|| self.error(format!("a line is missing: {word} N")))
    }
}
