//! What several transitions of an edge have in common, and how numbers are written.

use super::Own;
use crate::table::*;
use std::cmp::Ordering;

/// The most upper bounds of an edge: the invariant, and a high of each clock bound.
const UPPERS: usize = 5;

/// What the transitions of an edge are made of.
#[derive(Default)]
pub(super) struct Pieces {
    /// No upper bound is passed.
    pub(super) within: Vec<u8>,
    /// For each upper bound: it is the first that is reached.
    ends: [Vec<u8>; UPPERS],
    /// How many upper bounds there are.
    uppers: usize,
    /// The lows, the data bounds and the ranges of sums, each behind ` && `.
    pub(super) conditions: Vec<u8>,
    /// What stands behind the guard of a step out.
    pub(super) close: Vec<u8>,
}

impl Pieces {
    /// For each upper bound: it is the first that is reached.
    pub(super) fn ends(&self) -> &[Vec<u8>] {
        &self.ends[..self.uppers.min(UPPERS)]
    }

    /// The upper bounds of an edge: that none is passed, and for each that it is the
    /// first that is reached.
    pub(super) fn fill_uppers(&mut self, own: &Own) {
        let location = own.component.location(own.edge.source);
        let mut uppers = [(location.clock, location.bound); UPPERS];
        self.uppers = 1;
        for &[clock, _, _, high, low] in own.edge.clock_bounds(own.bytes) {
            let bound = u16::from_be_bytes([high, low]);
            if bound != NO_HIGH {
                uppers[self.uppers % UPPERS] = (clock, bound);
                self.uppers += 1;
            }
        }
        let uppers = &uppers[..self.uppers.min(UPPERS)];
        bounded(&mut self.within, uppers, None);
        for (first, end) in self.ends.iter_mut().enumerate().take(uppers.len()) {
            bounded(end, uppers, Some(first));
        }
    }

    /// What else the step in asks for.
    pub(super) fn fill_conditions(&mut self, own: &Own) {
        let text = &mut self.conditions;
        text.clear();
        for &[number, high, low, ..] in own.edge.clock_bounds(own.bytes) {
            text.extend(b" && ");
            clock(text, number, b" >= ", u16::from_be_bytes([high, low]));
        }
        for &[variable, a, b, c, d] in own.edge.data_bounds(own.bytes) {
            text.extend(b" && ");
            numbered(text, b'v', variable.into());
            text.extend(b" >= ");
            signed(text, i16::from_be_bytes([a, b]).into());
            text.extend(b" && ");
            numbered(text, b'v', variable.into());
            text.extend(b" <= ");
            signed(text, i16::from_be_bytes([c, d]).into());
        }
        if own.edge.kind == Kind::Internal {
            ranges(text, own.edge.updates(own.bytes));
        }
    }

    /// What the step out changes.
    pub(super) fn fill_close(&mut self, own: &Own) {
        let text = &mut self.close;
        text.clear();
        text.extend(b"; assign ");
        let none = text.len();
        if own.edge.kind == Kind::Internal {
            for &[variable, operation, high, low] in own.edge.updates(own.bytes) {
                let number = i16::from_be_bytes([high, low]).into();
                assignment(text, variable, operation, number);
            }
        }
        for number in Bits(own.edge.mask.into()) {
            numbered(text, b'x', number as u16);
            text.extend(b" := 0, ");
        }
        if text.len() == none {
            text.clear();
        } else {
            text.truncate(text.len() - 2);
        }
        text.extend(b"; }");
    }
}

/// Upper bounds, of which one is the first that is reached, or any or none.
fn bounded(text: &mut Vec<u8>, uppers: &[(u8, u16)], first: Option<usize>) {
    text.clear();
    for (place, &(number, bound)) in uppers.iter().enumerate() {
        if place > 0 {
            text.extend(b" && ");
        }
        let relation: &[u8] = match first.map(|first| place.cmp(&first)) {
            Some(Ordering::Less) => b" < ",
            Some(Ordering::Equal) => b" == ",
            _ => b" <= ",
        };
        clock(text, number, relation, bound);
    }
}

/// That each add of these updates stays in range.
fn ranges(text: &mut Vec<u8>, updates: &[[u8; UPDATE]]) {
    // The sum of each variable, and whether it stands for itself, set by an update.
    let mut sums = [(0, false); VARIABLES];
    for &[variable, operation, high, low] in updates {
        let number = i32::from(i16::from_be_bytes([high, low]));
        let (sum, known) = &mut sums[usize::from(variable) % VARIABLES];
        if operation == 0 {
            (*sum, *known) = (number, true);
            continue;
        }
        *sum += number;
        if !*known {
            for end in [&b" >= -32768"[..], b" <= 32767"] {
                text.extend(b" && ");
                numbered(text, b'v', variable.into());
                added(text, *sum);
                text.extend(end);
            }
        } else if i16::try_from(*sum).is_err() {
            text.extend(b" && false");
        }
    }
}

/// An update behind which another may follow.
fn assignment(text: &mut Vec<u8>, variable: u8, operation: u8, number: i32) {
    numbered(text, b'v', variable.into());
    text.extend(b" := ");
    if operation == 0 {
        signed(text, number);
    } else {
        numbered(text, b'v', variable.into());
        added(text, number);
    }
    text.extend(b", ");
}

/// A clock compared with a bound.
#[inline]
pub(super) fn clock(text: &mut Vec<u8>, number: u8, relation: &[u8], bound: u16) {
    numbered(text, b'x', number.into());
    text.extend_from_slice(relation);
    decimal(text, bound);
}

/// A numbered name.
#[inline]
pub(super) fn numbered(text: &mut Vec<u8>, letter: u8, number: u16) {
    text.push(letter);
    decimal(text, number);
}

/// A number that is added to what stands before it.
fn added(text: &mut Vec<u8>, number: i32) {
    text.extend(if number < 0 { b" - " } else { b" + " });
    large(text, number.unsigned_abs());
}

fn signed(text: &mut Vec<u8>, number: i32) {
    if number < 0 {
        text.push(b'-');
    }
    large(text, number.unsigned_abs());
}

/// A number of up to six digits: the sum of four adds.
fn large(text: &mut Vec<u8>, number: u32) {
    if number >= 10_000 {
        decimal(text, (number / 10_000) as u16);
        let rest = number % 10_000;
        for part in [1000, 100, 10, 1] {
            text.push(b'0' + (rest / part % 10) as u8);
        }
    } else {
        decimal(text, number as u16);
    }
}

/// A number in decimal.
#[inline]
pub(super) fn decimal(text: &mut Vec<u8>, number: u16) {
    if number < 10 {
        text.push(b'0' + number as u8);
        return;
    }
    let mut digits = [0; 5];
    let mut first = digits.len();
    let mut rest = number;
    while rest > 0 {
        first -= 1;
        digits[first] = b'0' + (rest % 10) as u8;
        rest /= 10;
    }
    text.extend_from_slice(&digits[first..]);
}
