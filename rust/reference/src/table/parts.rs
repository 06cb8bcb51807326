//! The parts of a table, each tried for its fit and then for its numbers.
//!
//! "each part (component, its first 7 bytes, location, edge's 7 bytes, bound,
//! item) must fit before its contents are tried, for 5, then 6". A budget is "a part
//! of its own, after each edge's 7 bytes" (document 02, wish 8).

use super::*;

/// The number of a check from 4 to 6, its component still to be named.
#[derive(Clone, Copy)]
pub(super) struct Fault(u8);

impl Fault {
    /// "4. Does each part fit its component, and end exactly there [...]?"
    pub(super) const FIT: Fault = Fault(4);
    /// "5. Is every number in its range and every mask bit a clock?"
    pub(super) const RANGE: Fault = Fault(5);
    /// "6. Does no receive edge list a channel twice?"
    pub(super) const TWICE: Fault = Fault(6);

    /// "for 4 to 9 the one read or opened".
    pub(super) fn of(self, component: u8) -> Refusal {
        Refusal::new(self.0, component)
    }
}

/// The contents of a part, or why it is refused.
pub(super) type Part<T> = Result<T, Fault>;

/// The header's numbers.
#[derive(Clone, Copy)]
pub(super) struct Header<'a> {
    pub(super) version: u8,
    pub(super) components: u8,
    pub(super) channels: u8,
    pub(super) horizon: u16,
    /// The bands behind the header, none in version 1.
    pub(super) bands: &'a [u8],
}

/// The numbers of a component's first 7 bytes after its length.
#[derive(Clone, Copy)]
pub(super) struct Head {
    pub(super) locations: u8,
    pub(super) initial: u8,
    pub(super) clocks: u8,
    pub(super) variables: u8,
    pub(super) edges: u8,
    pub(super) channels: u8,
    /// Whether the table's version has budgets.
    pub(super) budgets: bool,
}

/// The kind of an edge with its count of items.
#[derive(Clone, Copy)]
pub(super) enum Kind {
    Internal(u8),
    Send,
    Receive(u8),
}

/// The contents of an edge's 7 bytes.
#[derive(Clone, Copy)]
pub(super) struct EdgeHead {
    pub(super) kind: Kind,
    pub(super) source: u8,
    pub(super) destination: u8,
    pub(super) mask: u8,
    pub(super) clock_bounds: u8,
    pub(super) data_bounds: u8,
}

/// The bytes that are still to be read.
pub(super) struct Reader<'a> {
    rest: &'a [u8],
}

/// Checks 1 to 3, and a reader of what follows the header and the bands.
pub(super) fn header(bytes: &[u8]) -> Result<(Header<'_>, Reader<'_>), Refusal> {
    let version = *bytes.first().ok_or(Refusal::whole(1))?;
    if !VERSIONS.contains(&version) {
        return Err(Refusal::whole(1));
    }
    let Some((head, rest)) = bytes.split_first_chunk::<7>() else {
        return Err(Refusal::whole(2));
    };
    if two(head[1], head[2]) as usize != bytes.len() || !LENGTHS.contains(&bytes.len()) {
        return Err(Refusal::whole(2));
    }
    let (components, channels, horizon) = (head[3], head[4], two(head[5], head[6]));
    let in_range = (1..=MAX_COMPONENTS as u8).contains(&components)
        && channels <= MAX_CHANNELS
        && (1..=MAX_TICKS).contains(&horizon);
    if !in_range {
        return Err(Refusal::whole(3));
    }
    let (bands, rest) = bands(version, channels, rest)?;
    let header = Header {
        version,
        components,
        channels,
        horizon,
        bands,
    };
    Ok((header, Reader { rest }))
}

/// Checks 1 to 3 alone.
pub fn check_header(bytes: &[u8]) -> Result<(), Refusal> {
    header(bytes).map(|_| ())
}

/// The bands behind the header, and what follows them: "a band above 3, or a
/// table too short for its bands, is answered with 3".
fn bands(version: u8, channels: u8, rest: &[u8]) -> Result<(&[u8], &[u8]), Refusal> {
    let count = match Table::has_bands(version) {
        true => channels as usize,
        false => 0,
    };
    match rest.split_at_checked(count) {
        Some((bands, rest)) if bands.iter().all(|band| *band <= MAX_BAND) => Ok((bands, rest)),
        _ => Err(Refusal::whole(3)),
    }
}

impl<'a> Reader<'a> {
    /// How many bytes are still to be read.
    pub(super) fn left(&self) -> usize {
        self.rest.len()
    }

    /// Nothing may be left over: "and end exactly there, and the last
    /// component at the table's end".
    pub(super) fn end(&self) -> Part<()> {
        demand(self.rest.is_empty(), Fault::FIT)
    }

    /// The next component's bytes, its two length bytes included.
    #[inline]
    pub(super) fn component(&mut self) -> Part<Reader<'a>> {
        let Some(length) = self.rest.first_chunk::<2>() else {
            return Err(Fault::FIT);
        };
        let length = two(length[0], length[1]) as usize;
        let Some((own, rest)) = self.rest.split_at_checked(length) else {
            return Err(Fault::FIT);
        };
        self.rest = rest;
        Ok(Reader { rest: own })
    }

    /// "its length, these two bytes included (2 bytes); locations 1 to 16;
    /// initial location; clocks 1 to 4; variables 0 to 4; edges 1 to 32".
    #[inline]
    pub(super) fn head(&mut self, header: &Header) -> Part<Head> {
        let &[_, _, locations, initial, clocks, variables, edges] = self.take()?;
        let in_range = (1..=MAX_LOCATIONS).contains(&locations)
            && initial < locations
            && (1..=MAX_CLOCKS as u8).contains(&clocks)
            && variables <= MAX_VARIABLES as u8
            && (1..=MAX_EDGES).contains(&edges);
        demand(in_range, Fault::RANGE)?;
        Ok(Head {
            locations,
            initial,
            clocks,
            variables,
            edges,
            channels: header.channels,
            budgets: Table::has_budgets(header.version),
        })
    }

    /// "Location, 3 bytes: clock, and bound q (0 to 60,000)."
    #[inline]
    pub(super) fn location(&mut self, head: &Head) -> Part<Location> {
        let &[clock, high, low] = self.take()?;
        let bound = two(high, low);
        demand(clock < head.clocks && bound <= MAX_TICKS, Fault::RANGE)?;
        Ok(Location { clock, bound })
    }

    /// "7 bytes: kind, source, destination, reset mask (bit i for clock i),
    /// counts of clock bounds (0 to 4), data bounds (0 to 4; 0 for receive)
    /// and items."
    #[inline]
    pub(super) fn edge(&mut self, head: &Head) -> Part<EdgeHead> {
        let &[kind, source, destination, mask, clock_bounds, data_bounds, items] = self.take()?;
        let in_range = source < head.locations
            && destination < head.locations
            && mask >> head.clocks == 0
            && clock_bounds <= 4
            && data_bounds <= 4;
        demand(in_range, Fault::RANGE)?;
        let kind = match kind {
            0 if items <= 4 => Kind::Internal(items),
            1 if items == 1 => Kind::Send,
            2 if data_bounds == 0 && (1..=8).contains(&items) => Kind::Receive(items),
            _ => return Err(Fault::RANGE),
        };
        Ok(EdgeHead {
            kind,
            source,
            destination,
            mask,
            clock_bounds,
            data_bounds,
        })
    }

    /// "a 2-byte budget (0 to 60,000), a part of its own, after each edge's 7
    /// bytes"; nothing stands there, and it is 0, in a version without budgets. "a
    /// budget above 60,000 is a 5".
    #[inline]
    pub(super) fn budget(&mut self, head: &Head) -> Part<u16> {
        if !head.budgets {
            return Ok(0);
        }
        let &[high, low] = self.take()?;
        let budget = two(high, low);
        demand(budget <= MAX_TICKS, Fault::RANGE)?;
        Ok(budget)
    }

    /// "Clock bound, 5 bytes: clock, low (0 to 60,000), high (0 to 60,000, or
    /// 65,535 for none)."
    #[inline]
    pub(super) fn clock_bound(&mut self, head: &Head) -> Part<ClockBound> {
        let &[clock, a, b, c, d] = self.take()?;
        let (low, high) = (two(a, b), two(c, d));
        let in_range =
            clock < head.clocks && low <= MAX_TICKS && (high <= MAX_TICKS || high == NO_HIGH);
        demand(in_range, Fault::RANGE)?;
        let high = (high != NO_HIGH).then_some(high);
        Ok(ClockBound { clock, low, high })
    }

    /// "Data bound, 5 bytes: variable, low, high, two's complement."
    #[inline]
    pub(super) fn data_bound(&mut self, head: &Head) -> Part<DataBound> {
        let &[variable, a, b, c, d] = self.take()?;
        demand(variable < head.variables, Fault::RANGE)?;
        Ok(DataBound {
            variable,
            low: signed(a, b),
            high: signed(c, d),
        })
    }

    /// "updates of 4 bytes: variable, 0 set or 1 add, signed number".
    #[inline]
    pub(super) fn update(&mut self, head: &Head) -> Part<Update> {
        let &[variable, operation, a, b] = self.take()?;
        demand(variable < head.variables, Fault::RANGE)?;
        let operation = match operation {
            0 => Operation::Set,
            1 => Operation::Add,
            _ => return Err(Fault::RANGE),
        };
        Ok(Update {
            variable,
            operation,
            number: signed(a, b),
        })
    }

    /// "Send: exactly one item, 1 byte, the channel."
    #[inline]
    pub(super) fn channel(&mut self, head: &Head) -> Part<u8> {
        let &[channel] = self.take()?;
        demand(channel < head.channels, Fault::RANGE)?;
        Ok(channel)
    }

    /// "pairs of channel and location", the channels seen so far as bits.
    #[inline]
    pub(super) fn pair(&mut self, head: &Head, seen: &mut u16) -> Part<Pair> {
        let &[channel, location] = self.take()?;
        let in_range = channel < head.channels && location < head.locations;
        demand(in_range, Fault::RANGE)?;
        demand(*seen >> channel & 1 == 0, Fault::TWICE)?;
        *seen |= 1 << channel;
        Ok(Pair { channel, location })
    }

    /// The next bytes, which must fit.
    #[inline]
    fn take<const N: usize>(&mut self) -> Part<&'a [u8; N]> {
        let Some((part, rest)) = self.rest.split_first_chunk::<N>() else {
            return Err(Fault::FIT);
        };
        self.rest = rest;
        Ok(part)
    }
}

#[inline]
fn demand(holds: bool, fault: Fault) -> Part<()> {
    if holds {
        Ok(())
    } else {
        Err(fault)
    }
}

#[inline]
fn two(high: u8, low: u8) -> u16 {
    u16::from_be_bytes([high, low])
}

#[inline]
fn signed(high: u8, low: u8) -> i16 {
    i16::from_be_bytes([high, low])
}
