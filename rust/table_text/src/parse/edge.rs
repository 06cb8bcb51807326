//! An edge line and the lines inside it.

use super::expect_depth;
use super::forms::{misfit, Level};
use crate::line::Line;
use crate::source::{EdgeKind, EdgePart, EdgeSource, Said, NO_HIGH, OP_ADD, OP_SET};
use crate::SourceError;

/// Reads an edge line and the lines inside it.
pub fn parse_edge(kind: EdgeKind, head: &Line, inside: &[Line]) -> Result<EdgeSource, SourceError> {
    let (mut edge, channel) = edge_head(kind, head)?;
    for line in inside {
        expect_depth(line, Level::Edge)?;
        edge_line(&mut edge, line)?;
    }
    if let Some(channel) = channel {
        insert_channel(&mut edge, head.said(channel));
    }
    Ok(edge)
}

/// The edge without its bounds and items, and the channel named by a send.
fn edge_head(kind: EdgeKind, head: &Line) -> Result<(EdgeSource, Option<u8>), SourceError> {
    let (source, destination, channel) = match (kind, &head.words[1..]) {
        (_, [source, "->", destination]) => (source, destination, None),
        (EdgeKind::Send, [source, "->", destination, "on", channel]) => {
            (source, destination, Some(head.number(channel)?))
        }
        _ => return Err(misfit(head, Level::Component)),
    };
    let edge = EdgeSource {
        kind,
        source: head.number(source)?,
        destination: head.number(destination)?,
        resets: Vec::new(),
        stated_kind: None,
        reset_mask: None,
        clock_guards: None,
        data_guards: None,
        items: None,
        parts: Vec::new(),
    };
    Ok((edge, channel))
}

fn edge_line(edge: &mut EdgeSource, line: &Line) -> Result<(), SourceError> {
    match line.words.as_slice() {
        ["kind", number] => line.set(&mut edge.stated_kind, number),
        ["mask", number] => line.set(&mut edge.reset_mask, number),
        ["clock", "bounds", number] => line.set(&mut edge.clock_guards, number),
        ["data", "bounds", number] => line.set(&mut edge.data_guards, number),
        ["items", number] => line.set(&mut edge.items, number),
        ["reset", clocks @ ..] if !clocks.is_empty() => add_resets(edge, line, clocks),
        _ => {
            let part = edge_part(line)?;
            check_once(edge, &part, line)?;
            check_kind(edge.kind, &part, line)?;
            check_order(&edge.parts, &part, line)?;
            edge.parts.push(line.said(part));
            Ok(())
        }
    }
}

fn edge_part(line: &Line) -> Result<EdgePart, SourceError> {
    match line.words.as_slice() {
        ["budget", number] => Ok(EdgePart::Budget(line.number(number)?)),
        ["when", clock, "from", low] => clock_guard(line, clock, low, None),
        ["when", clock, "from", low, "to", high] => clock_guard(line, clock, low, Some(high)),
        ["data", variable, "from", low, "to", high] => Ok(EdgePart::DataGuard {
            variable: line.named('v', variable)?,
            low: line.number(low)?,
            high: line.number(high)?,
        }),
        ["set", variable, number] => update(line, OP_SET, variable, number),
        ["add", variable, number] => update(line, OP_ADD, variable, number),
        ["op", op, variable, number] => update(line, line.number(op)?, variable, number),
        ["on", channel, "->", location] => Ok(EdgePart::ReceivePair {
            channel: line.number(channel)?,
            location: line.number(location)?,
        }),
        ["bytes", ..] => Ok(EdgePart::Bytes(line.raw_bytes()?)),
        _ => Err(misfit(line, Level::Edge)),
    }
}

fn clock_guard(
    line: &Line,
    clock: &str,
    low: &str,
    high: Option<&str>,
) -> Result<EdgePart, SourceError> {
    Ok(EdgePart::ClockGuard {
        clock: line.named('x', clock)?,
        low: line.number(low)?,
        high: high.map_or(Ok(NO_HIGH), |word| line.number(word))?,
    })
}

fn update(line: &Line, op: u8, variable: &str, number: &str) -> Result<EdgePart, SourceError> {
    Ok(EdgePart::Update {
        variable: line.named('v', variable)?,
        op,
        number: line.number(number)?,
    })
}

fn add_resets(edge: &mut EdgeSource, line: &Line, clocks: &[&str]) -> Result<(), SourceError> {
    for word in clocks {
        let clock = line.named('x', word)?;
        if clock > 7 {
            return Err(line.error(format!("{word} has no bit in the mask (x0 to x7)")));
        }
        if edge.resets.iter().any(|reset| reset.what == clock) {
            return Err(line.error(format!("{word} is reset a second time")));
        }
        edge.resets.push(line.said(clock));
    }
    Ok(())
}

/// An edge has one budget.
fn check_once(edge: &EdgeSource, part: &EdgePart, line: &Line) -> Result<(), SourceError> {
    if matches!(part, EdgePart::Budget(_)) && edge.has_budget() {
        return Err(line.error("the budget is stated a second time"));
    }
    Ok(())
}

/// Updates belong to internal edges, pairs to receive edges.
fn check_kind(kind: EdgeKind, part: &EdgePart, line: &Line) -> Result<(), SourceError> {
    match (part, kind) {
        (EdgePart::Update { .. }, EdgeKind::Send | EdgeKind::Receive) => {
            Err(line.error("updates belong to internal edges"))
        }
        (EdgePart::ReceivePair { .. }, EdgeKind::Internal | EdgeKind::Send) => {
            Err(line.error("'on N -> N' belongs to receive edges"))
        }
        _ => Ok(()),
    }
}

/// The budget comes before clock bounds, these before data bounds, and all before items.
fn check_order(before: &[Said<EdgePart>], part: &EdgePart, line: &Line) -> Result<(), SourceError> {
    let stage = stage_of(part);
    if stage > 0 && before.iter().any(|earlier| stage_of(&earlier.what) > stage) {
        return Err(
            line.error("out of order: first 'budget', then 'when', then 'data', then the items")
        );
    }
    Ok(())
}

/// 0 for raw bytes, which may stand anywhere.
fn stage_of(part: &EdgePart) -> u8 {
    match part {
        EdgePart::Bytes(_) => 0,
        EdgePart::Budget(_) => 1,
        EdgePart::ClockGuard { .. } => 2,
        EdgePart::DataGuard { .. } => 3,
        EdgePart::Update { .. } | EdgePart::SendChannel(_) | EdgePart::ReceivePair { .. } => 4,
    }
}

/// The channel of a send stands directly after its last bound, or else its budget.
fn insert_channel(edge: &mut EdgeSource, channel: Said<u8>) {
    let is_before = |part: &Said<EdgePart>| matches!(stage_of(&part.what), 1..=3);
    let place = edge
        .parts
        .iter()
        .rposition(is_before)
        .map_or(0, |last| last + 1);
    let item = Said {
        line: channel.line,
        what: EdgePart::SendChannel(channel.what),
    };
    edge.parts.insert(place, item);
}
