//! A plan's table, written from its first byte to its last.

use crate::{demand_room, Refusal};

/// The bytes of the header.
const HEADER: usize = 7;
/// The bytes of a probe.
const PROBE: usize = 38;
/// The bytes of a hub without slots, and those of a slot.
const HUB: [usize; 2] = [22, 17];

/// Writes the table of a plan for so many probes with this slot, guard and
/// period, and gives the count of its bytes.
///
/// ```
/// use yardstick::plan;
///
/// let mut table = [0; 84];
/// assert_eq!(plan([1, 1, 1, 4], &mut table), Ok(84));
/// ```
pub fn plan(numbers: [u32; 4], table: &mut [u8]) -> Result<usize, Refusal> {
    let [probes, slot, guard, period] = numbers;
    let in_range = (1..=7).contains(&probes)
        && (1..=1000).contains(&slot)
        && (1..=1000).contains(&guard)
        && period <= 30_000;
    // The product is taken of numbers in their ranges alone.
    if !in_range || probes * (slot + 2 * guard) >= period {
        return Err(Refusal::whole(18));
    }
    let count = probes as usize;
    let size = HEADER + HUB[0] + (PROBE + HUB[1]) * count;
    demand_room(table.len(), size)?;
    let (head, rest) = table[..size].split_at_mut(HEADER);
    head.copy_from_slice(&header(size, probes as u8, 2 * period as u16));
    let (all, hub) = rest.split_at_mut(PROBE * count);
    let width = slot + 2 * guard;
    for (channel, probe) in (0..).zip(all.chunks_exact_mut(PROBE)) {
        let low = (u32::from(channel) * width + guard) as u16;
        write_probe(channel, low, low + slot as u16, period as u16, probe);
    }
    write_hub(probes as u8, width as u16, period as u16, hub);
    Ok(size)
}

fn header(size: usize, probes: u8, horizon: u16) -> [u8; HEADER] {
    let [[a, b], [c, d]] = [size as u16, horizon].map(u16::to_be_bytes);
    [1, a, b, probes + 1, probes, c, d]
}

fn component(size: usize, parts: u8) -> [u8; 7] {
    let [a, b] = (size as u16).to_be_bytes();
    [a, b, parts, 0, 1, 0, parts]
}

fn location(bound: u16) -> [u8; 3] {
    let [a, b] = bound.to_be_bytes();
    [0, a, b]
}

fn edge([kind, source, destination, mask, items]: [u8; 5], low: u16) -> [u8; 12] {
    let [a, b] = low.to_be_bytes();
    [
        kind,
        source,
        destination,
        mask,
        1,
        0,
        items,
        0,
        a,
        b,
        255,
        255,
    ]
}

fn write_probe(channel: u8, low: u16, end: u16, period: u16, out: &mut [u8]) {
    out[..7].copy_from_slice(&component(PROBE, 2));
    out[7..10].copy_from_slice(&location(end));
    out[10..13].copy_from_slice(&location(period));
    out[13..25].copy_from_slice(&edge([1, 0, 1, 0, 1], low));
    out[25] = channel;
    out[26..].copy_from_slice(&edge([0, 1, 0, 1, 0], period - 1));
}

fn write_hub(probes: u8, width: u16, period: u16, out: &mut [u8]) {
    let count = usize::from(probes);
    let head = component(out.len(), probes + 1);
    out[..7].copy_from_slice(&head);
    let (locations, edges) = out[7..].split_at_mut(3 * count + 3);
    let (edges, last) = edges.split_at_mut(14 * count);
    let slots = locations
        .chunks_exact_mut(3)
        .zip(edges.chunks_exact_mut(14));
    for (slot, (place, left)) in (0..probes).zip(slots) {
        place.copy_from_slice(&location((u16::from(slot) + 1) * width));
        left[..12].copy_from_slice(&edge([2, slot, slot + 1, 0, 1], u16::from(slot) * width));
        left[12..].copy_from_slice(&[slot, slot + 1]);
    }
    locations[3 * count..].copy_from_slice(&location(period));
    last.copy_from_slice(&edge([0, probes, 0, 1, 0], period - 1));
}
