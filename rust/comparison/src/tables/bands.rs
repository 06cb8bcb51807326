//! The version of a table, and the bands of its channels.

use crate::random::Random;
use reference::table::{Table, MAX_BAND};

/// The version of a table that has so many channels, and its bands: half are
/// of version 2, each band drawn from all four.
pub fn drawn(random: &mut Random, channels: u8) -> (u8, Vec<u8>) {
    match random.once_in(2) {
        true => (1, Vec::new()),
        false => (2, of_each(random, channels)),
    }
}

/// A band of each channel.
pub fn of_each(random: &mut Random, channels: u8) -> Vec<u8> {
    (0..channels).map(|_| any(random)).collect()
}

/// Any band.
fn any(random: &mut Random) -> u8 {
    random.count(&(0..=MAX_BAND))
}

/// Gives a table so many channels; those that it had keep their bands.
pub fn with_channels(random: &mut Random, table: &mut Table, channels: u8) {
    table.channels = channels;
    if Table::has_bands(table.version) {
        table.bands.resize_with(channels.into(), || any(random));
    }
}

/// Puts all channels on one band, so that any two sends may disturb each
/// other.
pub fn on_one_band(random: &mut Random, table: &mut Table) {
    table.bands.fill(any(random));
}

/// Makes a table one of version 2 in which the first so many channels share
/// no band with the others.
pub fn apart(random: &mut Random, table: &mut Table, first: u8) {
    let mut bands: Vec<u8> = (0..=MAX_BAND).collect();
    random.shuffle(&mut bands);
    let (one, other) = bands.split_at(random.within(1..=MAX_BAND.into()));
    let band = |channel| match channel < first {
        true => random.pick(one),
        false => random.pick(other),
    };
    table.version = 2;
    table.bands = (0..table.channels).map(band).collect();
}
