//! Well-formed tables of an exact length.

use super::edges::{edge, form_of_length, Own};
use super::{bands, with_edges, Values, HEAD, LOCATION};
use crate::random::Random;
use reference::table::*;

/// The lengths of edges used here. With a variable there is an internal edge
/// of each of them: 7 bytes, up to 8 bounds of 5 bytes, up to 4 updates of 4.
const EDGE: [usize; 2] = [23, 47];
/// The lengths of components used here: from 16 locations and one edge of the
/// least length to 1 location and 32 edges of the greatest length. Between
/// them each length can be had with each number of locations.
const COMPONENT: [usize; 2] = [
    HEAD + 16 * LOCATION + EDGE[0],
    HEAD + LOCATION + MAX_EDGES as usize * EDGE[1],
];
/// The least length that [`of_length`] can give.
pub const SHORTEST_EXACT: usize = HEAD + MAX_CHANNELS as usize + COMPONENT[0];

/// A table of exactly so many bytes, from [`SHORTEST_EXACT`] on. It is well
/// formed if these are at most 8,192.
pub fn of_length(random: &mut Random, length: usize, values: Values) -> Table {
    let channels = random.count(&(0..=MAX_CHANNELS));
    let (version, bands) = bands::drawn(random, channels);
    let lengths = split(
        random,
        length - HEAD - bands.len(),
        COMPONENT,
        MAX_COMPONENTS,
    );
    let one = |length| component(random, channels, length, values);
    let components = lengths.into_iter().map(one).collect();
    Table {
        version,
        bands,
        channels,
        horizon: values.horizon(random),
        components,
    }
}

fn component(random: &mut Random, channels: u8, length: usize, values: Values) -> Component {
    let own = Own {
        locations: random.count(&(1..=MAX_LOCATIONS)),
        clocks: random.count(&(1..=MAX_CLOCKS as u8)),
        variables: random.count(&(1..=MAX_VARIABLES as u8)),
        channels,
        values,
    };
    let left = length - HEAD - LOCATION * usize::from(own.locations);
    let lengths = split(random, left, EDGE, MAX_EDGES.into());
    let one = |length| {
        let form = form_of_length(random, &own, length);
        edge(random, &own, form)
    };
    let edges = lengths.into_iter().map(one).collect();
    with_edges(random, &own, edges)
}

/// Splits a length into at most so many lengths, each from the least to the
/// greatest.
fn split(
    random: &mut Random,
    length: usize,
    [least, greatest]: [usize; 2],
    most: usize,
) -> Vec<usize> {
    let parts = random.within(length.div_ceil(greatest)..=most.min(length / least));
    let mut left = length;
    let one = |later| {
        let low = least.max(left.saturating_sub(later * greatest));
        let high = greatest.min(left - later * least);
        let part = random.within(low..=high);
        left -= part;
        part
    };
    (0..parts).rev().map(one).collect()
}
