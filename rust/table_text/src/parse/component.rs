//! The lines inside a component.

use super::edge::parse_edge;
use super::forms::{misfit, Level};
use super::{expect_depth, expect_nothing_inside, split_block};
use crate::line::Line;
use crate::source::{ComponentPart, ComponentSource, EdgeKind};
use crate::SourceError;

/// Reads a `component` line and the lines inside it.
pub fn parse_component(head: &Line, inside: &[Line]) -> Result<ComponentSource, SourceError> {
    if head.words.len() > 1 {
        return Err(misfit(head, Level::Table));
    }
    let mut component = ComponentSource::default();
    let mut rest = inside;
    while let Some((line, after)) = rest.split_first() {
        expect_depth(line, Level::Component)?;
        let (deeper, next) = split_block(after, line.depth);
        component_line(&mut component, line, deeper)?;
        rest = next;
    }
    Ok(component)
}

fn component_line(
    component: &mut ComponentSource,
    line: &Line,
    inside: &[Line],
) -> Result<(), SourceError> {
    if let Some(kind) = edge_kind(line.words[0]) {
        let edge = parse_edge(kind, line, inside)?;
        component.parts.push(line.said(ComponentPart::Edge(edge)));
        return Ok(());
    }
    expect_nothing_inside(line, inside)?;
    match line.words.as_slice() {
        ["length", number] => line.set(&mut component.length, number),
        ["locations", number] => line.set(&mut component.locations, number),
        ["initial", number] => line.set(&mut component.initial_location, number),
        ["clocks", number] => line.set(&mut component.clocks, number),
        ["variables", number] => line.set(&mut component.variables, number),
        ["edges", number] => line.set(&mut component.edges, number),
        ["location", clock, "<=", bound] => add_location(component, line, clock, bound),
        ["bytes", ..] => {
            let raw = ComponentPart::Bytes(line.raw_bytes()?);
            component.parts.push(line.said(raw));
            Ok(())
        }
        _ => Err(misfit(line, Level::Component)),
    }
}

fn edge_kind(word: &str) -> Option<EdgeKind> {
    match word {
        "internal" => Some(EdgeKind::Internal),
        "send" => Some(EdgeKind::Send),
        "receive" => Some(EdgeKind::Receive),
        _ => None,
    }
}

fn add_location(
    component: &mut ComponentSource,
    line: &Line,
    clock: &str,
    bound: &str,
) -> Result<(), SourceError> {
    let is_edge = |part: &ComponentPart| matches!(part, ComponentPart::Edge(_));
    if component.parts.iter().any(|part| is_edge(&part.what)) {
        return Err(line.error("a location after an edge; the table has all locations first"));
    }
    let location = ComponentPart::Location {
        invariant_clock: line.named('x', clock)?,
        invariant_bound: line.number(bound)?,
    };
    component.parts.push(line.said(location));
    Ok(())
}
