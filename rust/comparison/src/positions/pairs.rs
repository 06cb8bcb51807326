//! Which pairs are asked: sorted ones, next to entries, readies and ends, and damaged
//! ones.

use crate::random::Random;
use reference::schedule::Passage;
use timed_network::{FIELDS, POSITION};

/// How many pairs are asked at once, by turns.
const COUNTS: [usize; 5] = [0, 1, 2, 17, 300];

/// How many pairs are asked, by turns.
pub fn count(turn: u64) -> usize {
    COUNTS[(turn % COUNTS.len() as u64) as usize]
}

/// So many pairs about an accepted table, as numbers, sorted by tick: components at the
/// entry, the ready and the end of a passage and a tick before them, at tick 0 and at
/// the last one below the horizon.
pub fn drawn(
    random: &mut Random,
    passages: &[[u32; FIELDS]],
    horizon: u32,
    count: usize,
) -> Vec<u32> {
    let most = passages.iter().map(|row| row[0]).max().unwrap_or(0);
    let mut pair = || {
        let [own, _, _, entry, ready, end, _] = random.pick(passages);
        let other = random.within(0..=most as usize) as u32;
        let tick = random.pick(&[entry, ready, end, 0, horizon - 1]);
        let before = u32::from(random.once_in(3));
        let tick = tick.saturating_sub(before).min(horizon - 1);
        [random.pick(&[own, own, other]), tick]
    };
    let mut pairs: Vec<[u32; 2]> = (0..count).map(|_| pair()).collect();
    pairs.sort_by_key(|[_, tick]| *tick);
    pairs.into_flattened()
}

/// Pairs about some of the passages, so many at most, as numbers, sorted by tick: their
/// component at both sides of entry, ready and end, below the horizon; and all components
/// at one of these ticks.
pub fn around(random: &mut Random, passages: &[Passage], horizon: u32, most: usize) -> Vec<u32> {
    let components = passages.iter().map(|passage| passage.component).max();
    let components = components.map_or(0, |last| u32::from(last) + 1);
    let mut pairs: Vec<[u32; 2]> = Vec::new();
    for _ in 0..random.within(1..=most) {
        let passage = &passages[random.below(passages.len())];
        let ticks = [passage.entry, passage.ready, passage.end];
        let near = ticks
            .iter()
            .flat_map(|tick| [tick.saturating_sub(1), *tick]);
        let near: Vec<u32> = near.filter(|tick| *tick < horizon).collect();
        pairs.extend(near.iter().map(|tick| [passage.component.into(), *tick]));
        if random.once_in(4) {
            let tick = random.pick(&near);
            pairs.extend((0..components).map(|component| [component, tick]));
        }
    }
    pairs.sort_by_key(|[_, tick]| *tick);
    pairs.into_flattened()
}

/// The same with one pair that is bad, or two pairs exchanged, which may be; or with a
/// number left over. The first component that there is not, and the horizon.
pub fn damaged(random: &mut Random, numbers: &mut Vec<u32>, absent: u32, horizon: u32) {
    let any = random.number() as u32;
    if numbers.len() < 2 || random.once_in(4) {
        numbers.push(random.pick(&[0, absent, any]));
        return;
    }
    let place = 2 * random.below(numbers.len() / 2);
    match random.below(6) {
        0 => numbers[place] = absent,
        1 => numbers[place + 1] = horizon,
        2 => numbers[place] |= 256 * (1 + (any >> 9)),
        3 => numbers[place + 1] |= 65_536 * (1 + (any >> 17)),
        4 => numbers[place + 1] = numbers[place + 1].saturating_sub(1),
        _ => {
            let other = 2 * random.below(numbers.len() / 2);
            numbers.swap(place, other);
            numbers.swap(place + 1, other + 1);
        }
    }
}

/// The same with two faults, behind the first pair: of two pairs, of which the first
/// decides, or of one, where 21 does.
pub fn damaged_twice(random: &mut Random, numbers: &mut [u32], absent: u32, horizon: u32) {
    for _ in 0..2 {
        let place = 2 * random.within(1..=numbers.len() / 2 - 1);
        match random.below(4) {
            0 => numbers[place] = absent,
            1 => numbers[place + 1] = horizon,
            2 => numbers[place + 1] = numbers[place - 1].saturating_sub(1),
            _ => {
                numbers[place] = absent;
                numbers[place + 1] = numbers[place - 1].saturating_sub(1);
            }
        }
    }
}

/// The length that is lent for so many pairs, by turns.
pub fn length(pairs: usize, turn: u64) -> usize {
    let exact = POSITION * pairs;
    let lengths = [exact, exact + 1, exact.saturating_sub(1), exact + 100, 0];
    lengths[(turn % lengths.len() as u64) as usize]
}

#[cfg(test)]
mod tests {
    use super::*;
    use crate::readers::second_positions;
    use crate::runs::Subject;
    use crate::tables::WORKED_EXAMPLE;
    use timed_network::Verdict;

    /// The refusal that the pairs get, 0 for none.
    fn number(pairs: &[u32]) -> u8 {
        match second_positions(&WORKED_EXAMPLE, pairs, &mut [0; 1_000]).verdict {
            Verdict::Accepted => 0,
            Verdict::Refused { number, .. } => number,
        }
    }

    #[test]
    fn pairs_of_all_kinds_are_drawn() {
        let passages = [
            [0, 0, 0, 0, 3, 5, 0],
            [1, 0, 0, 0, 2, 6, 0],
            [0, 1, 1, 5, 8, 10, 255],
        ];
        let mut random = Random::new(1);
        let many = drawn(&mut random, &passages, 20, 2_000);
        let pairs: Vec<&[u32]> = many.chunks(2).collect();
        for component in [0, 1] {
            for tick in [0, 1, 2, 3, 4, 5, 6, 7, 8, 9, 10, 18, 19] {
                assert!(
                    pairs.contains(&&[component, tick][..]),
                    "{component} {tick}"
                );
            }
        }
        assert!(pairs.is_sorted_by_key(|pair| pair[1]));
        assert!(pairs.iter().all(|pair| pair[0] < 2 && pair[1] < 20));
        let mut numbers: Vec<u8> = Vec::new();
        for _ in 0..500 {
            let mut pairs = drawn(&mut random, &passages, 20, 17);
            damaged(&mut random, &mut pairs, 2, 20);
            numbers.push(number(&pairs));
        }
        for number in [0, 21, 24] {
            let count = numbers.iter().filter(|given| **given == number).count();
            assert!(count > 30, "{number}: {count}");
        }
        assert_eq!(
            [0, 1, 2, 3, 4].map(|turn| length(2, turn)),
            [6, 7, 5, 106, 0]
        );
        assert_eq!([0, 1, 2, 3, 4, 5].map(count), [0, 1, 2, 17, 300, 0]);
    }

    #[test]
    fn pairs_around_passages_are_drawn() {
        let subject = Subject::new(&WORKED_EXAMPLE).unwrap();
        let mut random = Random::new(1);
        let mut seen: Vec<[u32; 2]> = Vec::new();
        let mut numbers = [0; 2];
        for _ in 0..200 {
            let mut pairs = around(&mut random, &subject.passages, 20, 8);
            assert_eq!(number(&pairs), 0);
            seen.extend(pairs.as_chunks::<2>().0);
            if pairs.len() < 4 {
                continue;
            }
            damaged_twice(&mut random, &mut pairs, 2, 20);
            match number(&pairs) {
                21 => numbers[0] += 1,
                24 => numbers[1] += 1,
                other => assert_eq!(other, 0),
            }
        }
        for tick in [0, 2, 3, 4, 5, 7, 8, 9, 10, 19] {
            assert!(seen.contains(&[0, tick]), "{tick}");
        }
        for tick in [0, 1, 2, 5, 6, 8, 9, 10, 18, 19] {
            assert!(seen.contains(&[1, tick]), "{tick}");
        }
        assert!(numbers.iter().all(|count| *count > 30), "{numbers:?}");
    }
}
