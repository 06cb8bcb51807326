//! Refusals of pairs that are wrong in one point, and lent bytes.

use super::pairs;
use comparison::readers::{refused, second_positions};
use reference::checks::verdict;
use reference::positions::{first_bad, Question};
use reference::table::Table;
use timed_network::{Positioned, Verdict, POSITION};

/// The refusal of pairs by another rule, where the table is accepted.
fn judged(
    (table, numbers): (&[u8], &[u32]),
    answers: &mut [u8],
    bad: fn(&Table, &[Question]) -> Option<u8>,
) -> Positioned {
    let Ok((read, passages)) = verdict(table) else {
        return second_positions(table, numbers, answers);
    };
    if let Some(number) = bad(&read, &pairs(numbers)) {
        return Positioned {
            verdict: refused(number, 255),
            read: 0,
        };
    }
    let told = second_positions(table, numbers, answers);
    match told.verdict {
        // A pair that this rule takes: any answer will do.
        Verdict::Refused {
            number: 21 | 24, ..
        } => Positioned {
            verdict: Verdict::Accepted,
            read: passages.len(),
        },
        _ => told,
    }
}

fn is_absent(table: &Table, pair: &Question) -> bool {
    pair.component as usize >= table.components.len() || pair.tick >= table.horizon.into()
}

fn falls(pairs: &[Question], place: usize) -> bool {
    place > 0 && pairs[place].tick < pairs[place - 1].tick
}

pub fn twenty_four_before_21(table: &[u8], numbers: &[u32], answers: &mut [u8]) -> Positioned {
    judged((table, numbers), answers, |table, pairs| {
        (0..pairs.len()).find_map(|place| match falls(pairs, place) {
            true => Some(24),
            false => is_absent(table, &pairs[place]).then_some(21),
        })
    })
}

pub fn all_21_first(table: &[u8], numbers: &[u32], answers: &mut [u8]) -> Positioned {
    judged((table, numbers), answers, |table, pairs| {
        let absent = pairs.iter().any(|pair| is_absent(table, pair));
        match absent {
            true => Some(21),
            false => first_bad(table, pairs).map(|(_, number)| number),
        }
    })
}

pub fn last_bad_pair(table: &[u8], numbers: &[u32], answers: &mut [u8]) -> Positioned {
    judged((table, numbers), answers, |table, pairs| {
        let bad = |place: usize| match is_absent(table, &pairs[place]) {
            true => Some(21),
            false => falls(pairs, place).then_some(24),
        };
        (0..pairs.len()).rev().find_map(bad)
    })
}

pub fn equal_ticks_fall(table: &[u8], numbers: &[u32], answers: &mut [u8]) -> Positioned {
    judged((table, numbers), answers, |table, pairs| {
        let equal = |place: usize| place > 0 && pairs[place].tick <= pairs[place - 1].tick;
        (0..pairs.len()).find_map(|place| match is_absent(table, &pairs[place]) {
            true => Some(21),
            false => equal(place).then_some(24),
        })
    })
}

pub fn below_the_first_falls(table: &[u8], numbers: &[u32], answers: &mut [u8]) -> Positioned {
    judged((table, numbers), answers, |table, pairs| {
        let below = |pair: &&Question| is_absent(table, pair) || pair.tick < pairs[0].tick;
        let bad = pairs.iter().find(below)?;
        Some(if is_absent(table, bad) { 21 } else { 24 })
    })
}

pub fn unsorted_taken(table: &[u8], numbers: &[u32], answers: &mut [u8]) -> Positioned {
    judged((table, numbers), answers, |table, pairs| {
        pairs
            .iter()
            .any(|pair| is_absent(table, pair))
            .then_some(21)
    })
}

pub fn tick_h(table: &[u8], numbers: &[u32], answers: &mut [u8]) -> Positioned {
    judged((table, numbers), answers, |table, pairs| {
        let horizon = u32::from(table.horizon);
        let nearer: Vec<Question> = pairs
            .iter()
            .map(|pair| Question {
                tick: pair.tick - u32::from(pair.tick == horizon),
                ..*pair
            })
            .collect();
        first_bad(table, &nearer).map(|(_, number)| number)
    })
}

pub fn component_of_8_bits(table: &[u8], numbers: &[u32], answers: &mut [u8]) -> Positioned {
    let cut = |(place, number): (usize, &u32)| number & [255, u32::MAX][place % 2];
    let numbers: Vec<u32> = numbers.iter().enumerate().map(cut).collect();
    second_positions(table, &numbers, answers)
}

pub fn tick_of_16_bits(table: &[u8], numbers: &[u32], answers: &mut [u8]) -> Positioned {
    let cut = |(place, number): (usize, &u32)| number & [u32::MAX, 65_535][place % 2];
    let numbers: Vec<u32> = numbers.iter().enumerate().map(cut).collect();
    second_positions(table, &numbers, answers)
}

pub fn thirteen_first(table: &[u8], numbers: &[u32], answers: &mut [u8]) -> Positioned {
    let told = second_positions(table, numbers, answers);
    match told.verdict {
        Verdict::Refused {
            number: 21 | 24, ..
        } if answers.len() / POSITION < numbers.len() / 2 => Positioned {
            verdict: refused(13, 255),
            ..told
        },
        _ => told,
    }
}

pub fn names_a_component(table: &[u8], numbers: &[u32], answers: &mut [u8]) -> Positioned {
    let told = second_positions(table, numbers, answers);
    match told.verdict {
        Verdict::Refused {
            number: number @ (21 | 24),
            ..
        } => Positioned {
            verdict: refused(number, 0),
            ..told
        },
        _ => told,
    }
}

pub fn pairs_before_the_table(table: &[u8], numbers: &[u32], answers: &mut [u8]) -> Positioned {
    let told = second_positions(table, numbers, answers);
    match told.verdict {
        Verdict::Refused { number, .. } if number != 13 && pairs(numbers).len() > 2 => Positioned {
            verdict: refused(21, 255),
            ..told
        },
        _ => told,
    }
}

/// Writes the answers up to the first bad pair.
pub fn writes_before_it_refuses(table: &[u8], numbers: &[u32], answers: &mut [u8]) -> Positioned {
    let told = second_positions(table, numbers, answers);
    if let (
        Verdict::Refused {
            number: 21 | 24, ..
        },
        Ok((read, _)),
    ) = (told.verdict, verdict(table))
    {
        let good = first_bad(&read, &pairs(numbers)).map_or(0, |(place, _)| place);
        second_positions(table, &numbers[..2 * good], answers);
    }
    told
}

/// Writes as many answers as there is room for.
pub fn writes_what_fits(table: &[u8], numbers: &[u32], answers: &mut [u8]) -> Positioned {
    let told = second_positions(table, numbers, answers);
    if told.verdict == refused(13, 255) {
        let room = answers.len() / POSITION;
        second_positions(table, &numbers[..2 * room], answers);
    }
    told
}

pub fn wants_one_more(table: &[u8], numbers: &[u32], answers: &mut [u8]) -> Positioned {
    match answers.split_last_mut() {
        Some((_, answers)) => second_positions(table, numbers, answers),
        None => second_positions(table, numbers, answers),
    }
}

/// Asks for bytes where there is no question.
pub fn wants_bytes_for_none(table: &[u8], numbers: &[u32], answers: &mut [u8]) -> Positioned {
    let told = second_positions(table, numbers, answers);
    match told.verdict {
        Verdict::Accepted if answers.len() < POSITION => Positioned {
            verdict: refused(13, 255),
            read: 0,
        },
        _ => told,
    }
}

/// A number left over is a component at tick 0.
pub fn left_over_is_a_pair(table: &[u8], numbers: &[u32], answers: &mut [u8]) -> Positioned {
    match numbers.len() % 2 {
        0 => second_positions(table, numbers, answers),
        _ => second_positions(table, &[numbers, &[0]].concat(), answers),
    }
}
