//! Source text to `TableSource`, one file a level of indentation.

mod component;
mod edge;
mod forms;

use crate::line::{split_lines, Line};
use crate::source::{TablePart, TableSource};
use crate::SourceError;
use forms::{misfit, Level};

/// Reads a whole source text.
pub fn parse_table(text: &str) -> Result<TableSource, SourceError> {
    let lines = split_lines(text)?;
    let mut table = TableSource::default();
    let mut rest = lines.as_slice();
    while let Some((line, after)) = rest.split_first() {
        let (inside, next) = split_block(after, line.depth);
        table_line(&mut table, line, inside)?;
        rest = next;
    }
    Ok(table)
}

/// The lines indented deeper than `depth`, and those that come after them.
fn split_block<'l, 't>(lines: &'l [Line<'t>], depth: usize) -> (&'l [Line<'t>], &'l [Line<'t>]) {
    let inside = lines.iter().take_while(|line| line.depth > depth).count();
    lines.split_at(inside)
}

fn table_line(table: &mut TableSource, line: &Line, inside: &[Line]) -> Result<(), SourceError> {
    expect_depth(line, Level::Table)?;
    if line.words[0] == "component" {
        let component = component::parse_component(line, inside)?;
        table.parts.push(line.said(TablePart::Component(component)));
        return Ok(());
    }
    expect_nothing_inside(line, inside)?;
    match line.words.as_slice() {
        ["version", number] => line.set(&mut table.version, number),
        ["length", number] => line.set(&mut table.length, number),
        ["components", number] => line.set(&mut table.components, number),
        ["channels", number] => line.set(&mut table.channels, number),
        ["horizon", number] => line.set(&mut table.horizon, number),
        ["bands", bands @ ..] => set_bands(table, line, bands),
        ["cut", number] => line.set(&mut table.cut, number),
        ["bytes", ..] => {
            let raw = TablePart::Bytes(line.raw_bytes()?);
            table.parts.push(line.said(raw));
            Ok(())
        }
        _ => Err(misfit(line, Level::Table)),
    }
}

fn set_bands(table: &mut TableSource, line: &Line, words: &[&str]) -> Result<(), SourceError> {
    if table.bands.is_some() {
        return Err(line.error("the bands are stated a second time"));
    }
    let bands: Result<Vec<u8>, SourceError> = words.iter().map(|word| line.number(word)).collect();
    table.bands = Some(line.said(bands?));
    Ok(())
}

/// A line deeper than the block it stands in belongs to no line above it.
fn expect_depth(line: &Line, level: Level) -> Result<(), SourceError> {
    if line.depth == level as usize {
        Ok(())
    } else {
        Err(line.error("indented too far: there is no component or edge above it to belong to"))
    }
}

fn expect_nothing_inside(line: &Line, inside: &[Line]) -> Result<(), SourceError> {
    match inside.first() {
        None => Ok(()),
        Some(first) => {
            Err(first.error(format!("nothing can be indented under '{}'", line.words[0])))
        }
    }
}
