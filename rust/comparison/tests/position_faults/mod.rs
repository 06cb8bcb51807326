//! Positions that are wrong in one point: in the answers, in the number read, and in
//! what is refused.

mod refusals;

pub use refusals::*;

use comparison::readers::second_positions;
use reference::checks::verdict;
use reference::positions::Question;
use reference::schedule::Passage;
use timed_network::{Positioned, Verdict, POSITION};

/// The pairs of numbers.
fn pairs(numbers: &[u32]) -> Vec<Question> {
    let pair = |numbers: &[u32]| Question {
        component: numbers[0],
        tick: numbers[1],
    };
    numbers.chunks_exact(2).map(pair).collect()
}

/// The second implementation's answer, each pair's passage and window made anew.
fn retold(
    (table, numbers): (&[u8], &[u32]),
    answers: &mut [u8],
    position: fn(&[Passage], &Question) -> (usize, bool),
) -> Positioned {
    let told = second_positions(table, numbers, answers);
    if let (Verdict::Accepted, Ok((_, passages))) = (told.verdict, verdict(table)) {
        for (place, pair) in answers.chunks_exact_mut(POSITION).zip(pairs(numbers)) {
            let (passage, in_window) = position(&passages, &pair);
            let [high, low] = (passage as u16).to_be_bytes();
            place.copy_from_slice(&[high, low, u8::from(in_window)]);
        }
    }
    told
}

/// The right passage of a pair.
fn named(passages: &[Passage], pair: &Question) -> usize {
    let entered = |p: &Passage| u32::from(p.component) == pair.component && p.entry <= pair.tick;
    passages.iter().rposition(entered).unwrap()
}

/// The passage that ends at the tick for the one entered there.
pub fn before_its_end_counts(table: &[u8], numbers: &[u32], answers: &mut [u8]) -> Positioned {
    retold((table, numbers), answers, |passages, pair| {
        let own = |p: &Passage| u32::from(p.component) == pair.component && p.end >= pair.tick;
        let place = passages.iter().position(own).unwrap();
        (place, pair.tick >= passages[place].ready)
    })
}

pub fn ready_is_before(table: &[u8], numbers: &[u32], answers: &mut [u8]) -> Positioned {
    retold((table, numbers), answers, |passages, pair| {
        let place = named(passages, pair);
        (place, pair.tick > passages[place].ready)
    })
}

/// The number among the component's own passages.
pub fn own_number(table: &[u8], numbers: &[u32], answers: &mut [u8]) -> Positioned {
    retold((table, numbers), answers, |passages, pair| {
        let place = named(passages, pair);
        let before = passages[..place].iter();
        let own = before.filter(|p| u32::from(p.component) == pair.component);
        (own.count(), pair.tick >= passages[place].ready)
    })
}

/// The passage read last, of whichever component.
pub fn latest_of_all(table: &[u8], numbers: &[u32], answers: &mut [u8]) -> Positioned {
    retold((table, numbers), answers, |passages, pair| {
        let entered = |p: &Passage| p.entry <= pair.tick;
        let place = passages.iter().rposition(entered).unwrap();
        (place, pair.tick >= passages[place].ready)
    })
}

pub fn low_byte_first(table: &[u8], numbers: &[u32], answers: &mut [u8]) -> Positioned {
    let told = second_positions(table, numbers, answers);
    if told.verdict == Verdict::Accepted {
        let written = answers.chunks_exact_mut(POSITION).take(numbers.len() / 2);
        written.for_each(|place| place.swap(0, 1));
    }
    told
}

/// The answers from the last pair to the first.
pub fn backwards(table: &[u8], numbers: &[u32], answers: &mut [u8]) -> Positioned {
    let told = second_positions(table, numbers, answers);
    if told.verdict == Verdict::Accepted {
        let count = numbers.len() / 2;
        for place in 0..count / 2 {
            for byte in 0..POSITION {
                answers.swap(
                    POSITION * place + byte,
                    POSITION * (count - 1 - place) + byte,
                );
            }
        }
    }
    told
}

/// The right answer with another number read: of the passages and the ticks of the pairs.
fn reading(
    (table, numbers): (&[u8], &[u32]),
    answers: &mut [u8],
    read: fn(&[Passage], &[Question]) -> usize,
) -> Positioned {
    let told = second_positions(table, numbers, answers);
    match (told.verdict, verdict(table)) {
        (Verdict::Accepted, Ok((_, passages))) => Positioned {
            read: read(&passages, &pairs(numbers)),
            ..told
        },
        _ => told,
    }
}

/// How many passages were entered by a tick.
fn entered(passages: &[Passage], tick: u32) -> usize {
    passages.iter().filter(|p| p.entry <= tick).count()
}

pub fn reads_all(table: &[u8], numbers: &[u32], answers: &mut [u8]) -> Positioned {
    reading((table, numbers), answers, |passages, pairs| match pairs {
        [] => 0,
        _ => passages.len(),
    })
}

pub fn reads_one_more(table: &[u8], numbers: &[u32], answers: &mut [u8]) -> Positioned {
    reading((table, numbers), answers, |passages, pairs| {
        let last = pairs
            .last()
            .map_or(0, |pair| entered(passages, pair.tick) + 1);
        last.min(passages.len())
    })
}

pub fn reads_to_the_first_tick(table: &[u8], numbers: &[u32], answers: &mut [u8]) -> Positioned {
    reading((table, numbers), answers, |passages, pairs| {
        pairs.first().map_or(0, |pair| entered(passages, pair.tick))
    })
}

pub fn reads_without_a_pair(table: &[u8], numbers: &[u32], answers: &mut [u8]) -> Positioned {
    reading((table, numbers), answers, |passages, pairs| {
        entered(passages, pairs.last().map_or(0, |pair| pair.tick))
    })
}

pub fn reads_before_the_tick(table: &[u8], numbers: &[u32], answers: &mut [u8]) -> Positioned {
    reading((table, numbers), answers, |passages, pairs| {
        let before = |tick: u32| passages.iter().filter(|p| p.entry < tick).count();
        pairs.last().map_or(0, |pair| before(pair.tick))
    })
}

pub fn reads_own_ones(table: &[u8], numbers: &[u32], answers: &mut [u8]) -> Positioned {
    reading((table, numbers), answers, |passages, pairs| {
        let Some(last) = pairs.last() else {
            return 0;
        };
        let own = passages
            .iter()
            .filter(|p| u32::from(p.component) == last.component);
        own.filter(|p| p.entry <= last.tick).count()
    })
}
