//! Tables made from a plan: first the windows of each component, then the
//! locations, clocks and edges that give these windows. What a plan promises
//! (no two senders at once, one listener around each send) the table keeps, so
//! it is accepted; a plan that breaks one promise gives a near miss.

mod bounds;
mod component;
mod decoys;
mod horizon;
mod lanes;
mod slots;
mod style;
mod worker;

pub use component::component;
pub use horizon::{greatest_horizon, near_passages, passages, shortened};
pub use lanes::{Lane, Step, Target, Work};
pub use slots::{Plan, Size, Slot};
pub use style::Style;
pub use worker::{worker, Work as WorkerSize};

use super::bands;
use crate::random::Random;
use reference::table::{write_table, Table, LENGTHS};

/// The table of these lanes, one component a lane. If it would be too long in
/// this style it gets fewer edges that are not taken, or is written plainly.
/// There is room for bands behind its header, if it has none.
pub fn table(
    random: &mut Random,
    lanes: &[Lane],
    channels: u8,
    horizon: u16,
    style: &Style,
) -> Table {
    for decoys in [style.decoys, style.decoys / 3, 0] {
        let style = Style { decoys, ..*style };
        let table = in_style(random, lanes, channels, horizon, &style);
        if write_table(&table).len() + usize::from(channels) <= *LENGTHS.end() {
            return table;
        }
    }
    in_style(random, lanes, channels, horizon, &Style::PLAIN)
}

fn in_style(
    random: &mut Random,
    lanes: &[Lane],
    channels: u8,
    horizon: u16,
    style: &Style,
) -> Table {
    let (version, bands) = bands::drawn(random, channels);
    let one = |lane: &Lane| component(random, lane, channels, style);
    Table {
        version,
        bands,
        channels,
        horizon,
        components: lanes.iter().map(one).collect(),
    }
}
