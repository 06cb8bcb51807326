//! The network of a table as a text for UPPAAL: what several transitions of an edge
//! have in common is written once and then copied.

mod pieces;

use crate::table::*;
use crate::{demand_room, Refusal, Yardstick};
use pieces::{clock, decimal, numbered, Pieces};

/// Where the count of variables stands in a component.
const VARIABLES_AT: usize = 5;
/// Where the count of channels stands in the header.
const CHANNELS_AT: usize = 4;

/// Buffers that are used again for each text.
#[derive(Default)]
pub(crate) struct Export {
    text: Vec<u8>,
    pieces: Pieces,
}

/// An edge of a component, and its number.
struct Own<'a> {
    component: &'a Component,
    edge: &'a Edge,
    number: u8,
    bytes: &'a [u8],
}

/// What comes of an edge: the message, the sign behind its channel, and where it leads.
#[derive(Clone, Copy)]
struct Outcome {
    message: Option<u8>,
    sign: u8,
    target: u8,
}

impl Yardstick {
    /// Writes the network of a table as a text for UPPAAL and gives the count of its
    /// bytes.
    pub fn uppaal(&mut self, bytes: &[u8], text: &mut [u8]) -> Result<usize, Refusal> {
        self.check(bytes)?;
        let mut edges = self
            .table
            .present()
            .iter()
            .flat_map(|own| own.present_edges());
        if edges.any(|edge| edge.budget != 0) {
            return Err(Refusal::whole(25));
        }
        let written = self.export.write(&self.table, bytes);
        demand_room(text.len(), written.len())?;
        text[..written.len()].copy_from_slice(written);
        Ok(written.len())
    }
}

impl Export {
    /// The text of a table.
    fn write(&mut self, table: &Table, bytes: &[u8]) -> &[u8] {
        let text = &mut self.text;
        text.clear();
        declare(text, b"chan ", b'c', bytes[CHANNELS_AT]);
        let mut at = HEAD
            + if table.version == 1 {
                0
            } else {
                bytes[CHANNELS_AT].into()
            };
        for (number, component) in (0..).zip(table.present()) {
            let variables = bytes[at + VARIABLES_AT];
            process(text, number, component, variables);
            locations(text, &mut self.pieces, component, bytes);
            text.extend(b";\ninit L");
            decimal(text, component.initial.into());
            text.extend(b";\ntrans");
            transitions(text, &mut self.pieces, component, bytes);
            text.extend(b";\n}\n");
            at += usize::from(u16::from_be_bytes([bytes[at], bytes[at + 1]]));
        }
        text.push(b'\n');
        declare(text, b"system ", b'P', table.count as u8);
        text
    }
}

/// A line with so many numbered names, if there are any.
fn declare(text: &mut Vec<u8>, kind: &[u8], letter: u8, count: u8) {
    if count == 0 {
        return;
    }
    text.extend(kind);
    for number in 0..count {
        if number > 0 {
            text.extend(b", ");
        }
        numbered(text, letter, number.into());
    }
    text.extend(b";\n");
}

/// The front of a process, up to its locations.
fn process(text: &mut Vec<u8>, number: u16, component: &Component, variables: u8) {
    text.extend(b"\nprocess P");
    decimal(text, number);
    text.extend(b"() {\n");
    declare(text, b"clock ", b'x', component.clocks);
    declare(text, b"int[-32768,32767] ", b'v', variables);
    text.extend(b"state");
}

/// The component's own locations, then the waiting ones.
fn locations(text: &mut Vec<u8>, pieces: &mut Pieces, component: &Component, bytes: &[u8]) {
    let mut between: &[u8] = b"\n  L";
    for (number, location) in (0..).zip(component.present_locations()) {
        text.extend(between);
        decimal(text, number);
        text.extend(b" { ");
        clock(text, location.clock, b" <= ", location.bound);
        text.extend(b" }");
        between = b",\n  L";
    }
    for (number, edge) in (0..).zip(component.present_edges()) {
        let own = Own {
            component,
            edge,
            number,
            bytes,
        };
        pieces.fill_uppers(&own);
        each_outcome(&own, |outcome| {
            text.extend(b",\n  W");
            waiting(text, number, outcome.message);
            text.extend(b" { ");
            text.extend_from_slice(&pieces.within);
            text.extend(b" }");
        });
    }
}

/// The steps in and out of each edge.
fn transitions(text: &mut Vec<u8>, pieces: &mut Pieces, component: &Component, bytes: &[u8]) {
    let mut between: &[u8] = b"\n  L";
    for (number, edge) in (0..).zip(component.present_edges()) {
        let own = Own {
            component,
            edge,
            number,
            bytes,
        };
        pieces.fill_uppers(&own);
        pieces.fill_conditions(&own);
        pieces.fill_close(&own);
        each_outcome(&own, |outcome| {
            if edge.kind == Kind::Receive && outcome.message.is_none() {
                for end in pieces.ends() {
                    step_in(text, between, &own, outcome, end, &pieces.conditions);
                    between = b",\n  L";
                }
            } else {
                step_in(
                    text,
                    between,
                    &own,
                    outcome,
                    &pieces.within,
                    &pieces.conditions,
                );
                between = b",\n  L";
            }
            steps_out(text, &own, outcome, pieces);
        });
    }
}

/// One outcome of an internal edge or of a send; the pairs and the timeout of a receive.
#[inline]
fn each_outcome(own: &Own, mut one: impl FnMut(Outcome)) {
    let target = own.edge.destination;
    let (message, sign) = (None, 0);
    let alone = Outcome {
        message,
        sign,
        target,
    };
    match own.edge.kind {
        Kind::Internal => one(alone),
        Kind::Send => one(Outcome {
            message: Some(own.edge.channel()),
            sign: b'!',
            target,
        }),
        Kind::Receive => {
            for &[channel, target] in own.edge.pairs(own.bytes) {
                one(Outcome {
                    message: Some(channel),
                    sign: b'?',
                    target,
                });
            }
            one(alone);
        }
    }
}

/// A transition into a waiting location.
#[inline]
fn step_in(
    text: &mut Vec<u8>,
    between: &[u8],
    own: &Own,
    outcome: Outcome,
    ticks: &[u8],
    conditions: &[u8],
) {
    text.extend_from_slice(between);
    decimal(text, own.edge.source.into());
    text.extend(b" -> W");
    waiting(text, own.number, outcome.message);
    text.extend(b" { guard ");
    text.extend_from_slice(ticks);
    text.extend_from_slice(conditions);
    if let Some(channel) = outcome.message {
        text.extend(b"; sync c");
        decimal(text, channel.into());
        text.push(outcome.sign);
    }
    text.extend(b"; }");
}

/// The transitions out of a waiting location.
#[inline]
fn steps_out(text: &mut Vec<u8>, own: &Own, outcome: Outcome, pieces: &Pieces) {
    for end in pieces.ends() {
        text.extend(b",\n  W");
        waiting(text, own.number, outcome.message);
        text.extend(b" -> L");
        decimal(text, outcome.target.into());
        text.extend(b" { guard ");
        text.extend_from_slice(end);
        text.extend_from_slice(&pieces.close);
    }
}

/// The name of a waiting location behind its letter.
#[inline]
fn waiting(text: &mut Vec<u8>, edge: u8, message: Option<u8>) {
    decimal(text, edge.into());
    if let Some(channel) = message {
        text.extend(b"_c");
        decimal(text, channel.into());
    }
}
