//! Offsets for the nodes of a table at a spread.

use crate::random::Random;

/// Offsets up to the spread: none, the same for all, for fewer nodes than there
/// are, at both ends, any; now and then more than there are nodes, the further
/// ones of any size.
pub fn permitted(random: &mut Random, spread: u32, nodes: usize) -> Vec<u32> {
    let any = |random: &mut Random| random.below(spread as usize + 1) as u32;
    match random.below(9) {
        0 => Vec::new(),
        1 => vec![any(random); nodes],
        2 => (0..random.below(nodes)).map(|_| any(random)).collect(),
        3 | 4 => (0..nodes).map(|_| random.pick(&[0, spread])).collect(),
        5 => {
            let mut offsets: Vec<u32> = (0..nodes).map(|_| any(random)).collect();
            let more = random.within(1..=9);
            offsets.extend((0..more).map(|_| above(random, spread)));
            offsets
        }
        _ => (0..nodes).map(|_| any(random)).collect(),
    }
}

/// Offsets of which one or more, of nodes that there are, are above the spread.
pub fn not_permitted(random: &mut Random, spread: u32, nodes: usize) -> Vec<u32> {
    let mut offsets = permitted(random, spread, nodes);
    let place = random.below(nodes);
    if offsets.len() <= place {
        offsets.resize(place + 1, 0);
    }
    offsets[place] = above(random, spread);
    offsets
}

/// An offset above the spread, mostly by one.
fn above(random: &mut Random, spread: u32) -> u32 {
    let next = spread.saturating_add(1);
    random.pick(&[next, next, spread.saturating_add(256), u32::MAX])
}

#[cfg(test)]
mod tests {
    use super::*;

    #[test]
    fn offsets_are_permitted_or_not() {
        let mut random = Random::new(3);
        let [mut fewer, mut more, mut at_the_spread] = [0; 3];
        for round in 0..600 {
            let (spread, nodes) = (round % 5, 1 + round as usize % 8);
            let own = |offsets: &[u32]| offsets.iter().take(nodes).all(|o| *o <= spread);
            let offsets = permitted(&mut random, spread, nodes);
            assert!(own(&offsets));
            fewer += usize::from(offsets.len() < nodes);
            more += usize::from(offsets.len() > nodes);
            at_the_spread += usize::from(spread > 0 && offsets.contains(&spread));
            assert!(!own(&not_permitted(&mut random, spread, nodes)));
        }
        assert!(fewer > 50 && more > 20 && at_the_spread > 100);
    }
}
