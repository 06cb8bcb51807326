//! Bytes to text, for a table of version 1, 2 or 3 whose parts all fit.
//!
//! Ranges are not tried: a number out of range is written as it is. What the
//! text could not say without stated counts or raw bytes is an error.

use crate::source::{NO_HIGH, OP_ADD, OP_SET};
use std::fmt;

/// Where a table stops being readable, counted from byte 0, and why.
#[derive(Debug, Clone, PartialEq, Eq)]
pub struct DecodeError {
    pub offset: usize,
    pub message: String,
}

impl fmt::Display for DecodeError {
    fn fmt(&self, out: &mut fmt::Formatter<'_>) -> fmt::Result {
        write!(out, "byte {}: {}", self.offset, self.message)
    }
}

impl std::error::Error for DecodeError {}

/// The text of a table. Encoding it gives the same bytes.
pub fn decode(bytes: &[u8]) -> Result<String, DecodeError> {
    let mut cursor = Cursor::new(bytes, 0);
    let mut text = String::new();
    let components = decode_header(&mut cursor, bytes.len(), &mut text)?;
    let mut budgets = Budgets::of(bytes);
    for number in 0..components {
        let mut inside = component_part(&mut cursor)?;
        text += &format!("component  # {number}\n");
        decode_component(&mut inside, &mut budgets, &mut text)?;
        inside.expect_end("the component's last part")?;
    }
    cursor.expect_end("the last component")?;
    budgets.say_version(&mut text);
    Ok(text)
}

/// The budgets of a table's edges: 0 is said by no line, unless all are.
struct Budgets {
    /// Whether the version has them.
    present: bool,
    /// Where the lines inside the first edge begin in the text.
    first_edge: Option<usize>,
    /// Whether one is said.
    said: bool,
}

impl Budgets {
    fn of(bytes: &[u8]) -> Budgets {
        Budgets {
            present: bytes.first().is_some_and(|version| *version >= 3),
            first_edge: None,
            said: false,
        }
    }

    /// The budget behind an edge's 7 bytes, 0 in a version that has none.
    fn read(&self, cursor: &mut Cursor) -> Result<u16, DecodeError> {
        match self.present {
            true => cursor.word("an edge's budget"),
            false => Ok(0),
        }
    }

    /// Writes the line of a budget behind that of its edge.
    fn say(&mut self, budget: u16, text: &mut String) {
        self.first_edge.get_or_insert(text.len());
        if budget > 0 {
            *text += &format!("    budget {budget}\n");
            self.said = true;
        }
    }

    /// Where no line makes the table one of version 3, the first edge's budget does,
    /// or without an edge the version.
    fn say_version(&self, text: &mut String) {
        if self.present && !self.said {
            match self.first_edge {
                Some(place) => text.insert_str(place, "    budget 0\n"),
                None => text.insert_str(0, "version 3\n"),
            }
        }
    }
}

/// Writes the header's lines and answers the number of components.
fn decode_header(
    cursor: &mut Cursor,
    handed_in: usize,
    text: &mut String,
) -> Result<u8, DecodeError> {
    let start = cursor.clone();
    let version = cursor.byte("the version")?;
    if !(1..=3).contains(&version) {
        return Err(start.error("only tables of version 1, 2 or 3 are read"));
    }
    let length = cursor.word("the total length")?;
    if usize::from(length) != handed_in {
        let message = format!("the stated length is {length}, the table has {handed_in} bytes");
        return Err(start.error(&message));
    }
    let components = cursor.byte("the number of components")?;
    let channels = cursor.byte("the number of channels")?;
    let horizon = cursor.word("the horizon")?;
    *text += &format!("horizon {horizon}\nchannels {channels}\n");
    if version >= 2 {
        *text += &bands_line(channels, cursor)?;
    }
    Ok(components)
}

/// The bands of the channels, one byte each behind the header.
fn bands_line(channels: u8, cursor: &mut Cursor) -> Result<String, DecodeError> {
    let mut text = "bands".to_string();
    for _ in 0..channels {
        text += &format!(" {}", cursor.byte("a channel's band")?);
    }
    Ok(text + "\n")
}

/// The bytes of the next component, after its length.
fn component_part<'a>(cursor: &mut Cursor<'a>) -> Result<Cursor<'a>, DecodeError> {
    let start = cursor.clone();
    let length = usize::from(cursor.word("a component's length")?);
    let Some(rest) = length.checked_sub(2) else {
        return Err(start.error("a component's length does not hold its own two bytes"));
    };
    let offset = cursor.offset;
    Ok(Cursor::new(cursor.take(rest, "a component")?, offset))
}

fn decode_component(
    cursor: &mut Cursor,
    budgets: &mut Budgets,
    text: &mut String,
) -> Result<(), DecodeError> {
    let locations = cursor.byte("the number of locations")?;
    let initial = cursor.byte("the initial location")?;
    let clocks = cursor.byte("the number of clocks")?;
    let variables = cursor.byte("the number of variables")?;
    let edges = cursor.byte("the number of edges")?;
    *text += &format!("  clocks {clocks}\n  variables {variables}\n  initial {initial}\n");
    for number in 0..locations {
        let clock = cursor.byte("a location's clock")?;
        let bound = cursor.word("a location's bound")?;
        *text += &format!("  location x{clock} <= {bound}  # {number}\n");
    }
    for number in 0..edges {
        decode_edge(number, cursor, budgets, text)?;
    }
    Ok(())
}

/// The numbers of an edge's 7 bytes.
struct EdgeHead {
    kind: u8,
    source: u8,
    destination: u8,
    reset_mask: u8,
    clock_guards: u8,
    data_guards: u8,
    items: u8,
}

fn edge_head(cursor: &mut Cursor) -> Result<EdgeHead, DecodeError> {
    Ok(EdgeHead {
        kind: cursor.byte("an edge's kind")?,
        source: cursor.byte("an edge's source")?,
        destination: cursor.byte("an edge's destination")?,
        reset_mask: cursor.byte("an edge's reset mask")?,
        clock_guards: cursor.byte("an edge's count of clock bounds")?,
        data_guards: cursor.byte("an edge's count of data bounds")?,
        items: cursor.byte("an edge's count of items")?,
    })
}

fn decode_edge(
    number: u8,
    cursor: &mut Cursor,
    budgets: &mut Budgets,
    text: &mut String,
) -> Result<(), DecodeError> {
    let start = cursor.clone();
    let head = edge_head(cursor)?;
    let budget = budgets.read(cursor)?;
    let guards = guard_lines(&head, cursor)?;
    let resets = reset_line(head.reset_mask);
    let (name, channel, items) = match head.kind {
        0 => ("internal", String::new(), update_lines(head.items, cursor)?),
        1 if head.items == 1 => {
            let channel = cursor.byte("a send's channel")?;
            ("send", format!(" on {channel}"), String::new())
        }
        1 => return Err(start.error("a send edge must have exactly one item")),
        2 => ("receive", String::new(), pair_lines(head.items, cursor)?),
        _ => return Err(start.error("an edge's kind must be 0, 1 or 2")),
    };
    let EdgeHead {
        source,
        destination,
        ..
    } = head;
    *text += &format!("  {name} {source} -> {destination}{channel}  # {number}\n");
    budgets.say(budget, text);
    *text += &(guards + &resets + &items);
    Ok(())
}

fn guard_lines(head: &EdgeHead, cursor: &mut Cursor) -> Result<String, DecodeError> {
    let mut text = String::new();
    for _ in 0..head.clock_guards {
        let clock = cursor.byte("a clock bound's clock")?;
        let low = cursor.word("a clock bound's low")?;
        let high = match cursor.word("a clock bound's high")? {
            NO_HIGH => String::new(),
            high => format!(" to {high}"),
        };
        text += &format!("    when x{clock} from {low}{high}\n");
    }
    for _ in 0..head.data_guards {
        let variable = cursor.byte("a data bound's variable")?;
        let low = cursor.signed_word("a data bound's low")?;
        let high = cursor.signed_word("a data bound's high")?;
        text += &format!("    data v{variable} from {low} to {high}\n");
    }
    Ok(text)
}

fn reset_line(mask: u8) -> String {
    if mask == 0 {
        return String::new();
    }
    let clocks = (0..8).filter(|clock| mask >> clock & 1 == 1);
    let names: Vec<String> = clocks.map(|clock| format!("x{clock}")).collect();
    format!("    reset {}\n", names.join(" "))
}

fn update_lines(items: u8, cursor: &mut Cursor) -> Result<String, DecodeError> {
    let mut text = String::new();
    for _ in 0..items {
        let variable = cursor.byte("an update's variable")?;
        let action = match cursor.byte("an update's kind")? {
            OP_SET => "set".to_string(),
            OP_ADD => "add".to_string(),
            other => format!("op {other}"),
        };
        let number = cursor.signed_word("an update's number")?;
        text += &format!("    {action} v{variable} {number}\n");
    }
    Ok(text)
}

fn pair_lines(items: u8, cursor: &mut Cursor) -> Result<String, DecodeError> {
    let mut text = String::new();
    for _ in 0..items {
        let channel = cursor.byte("a pair's channel")?;
        let location = cursor.byte("a pair's location")?;
        text += &format!("    on {channel} -> {location}\n");
    }
    Ok(text)
}

/// The bytes still to be read, and how many of the table stand before them.
#[derive(Clone)]
struct Cursor<'a> {
    rest: &'a [u8],
    offset: usize,
}

impl<'a> Cursor<'a> {
    fn new(rest: &'a [u8], offset: usize) -> Self {
        Cursor { rest, offset }
    }

    fn error(&self, message: &str) -> DecodeError {
        DecodeError {
            offset: self.offset,
            message: message.to_string(),
        }
    }

    fn take(&mut self, count: usize, what: &str) -> Result<&'a [u8], DecodeError> {
        if count > self.rest.len() {
            return Err(self.error(&format!("{what} does not fit")));
        }
        let (taken, rest) = self.rest.split_at(count);
        self.rest = rest;
        self.offset += count;
        Ok(taken)
    }

    fn byte(&mut self, what: &str) -> Result<u8, DecodeError> {
        Ok(self.take(1, what)?[0])
    }

    fn word(&mut self, what: &str) -> Result<u16, DecodeError> {
        let taken = self.take(2, what)?;
        Ok(u16::from_be_bytes([taken[0], taken[1]]))
    }

    fn signed_word(&mut self, what: &str) -> Result<i16, DecodeError> {
        let taken = self.take(2, what)?;
        Ok(i16::from_be_bytes([taken[0], taken[1]]))
    }

    fn expect_end(&self, what: &str) -> Result<(), DecodeError> {
        if self.rest.is_empty() {
            Ok(())
        } else {
            Err(self.error(&format!("bytes left over after {what}")))
        }
    }
}
