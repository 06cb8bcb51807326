//! Where a table is refused: what both say, as the words of the vectors, and how
//! often each way came.

mod tally;

pub use tally::Places;

use crate::readers::{OpeningNumbers, PlaceNumbers, NONE};
use std::ops::RangeInclusive;
use timed_network::{Entry, Verdict};

/// The numbers of the checks that a place belongs to.
pub const READ: RangeInclusive<u8> = 4..=6;
/// The numbers of the checks that a refused opening belongs to.
pub const OPENED: RangeInclusive<u8> = 7..=9;

/// Number and component of a refusal by one of these checks.
pub fn refused_by(verdict: Verdict, checks: &RangeInclusive<u8>) -> Option<(i64, i64)> {
    match verdict {
        Verdict::Refused { number, component } if checks.contains(&number) => {
            Some((number.into(), component.into()))
        }
        _ => None,
    }
}

/// A place as the vectors write it.
pub fn place_words(place: &Option<PlaceNumbers>) -> String {
    let Some(numbers) = place else {
        return "none".to_string();
    };
    let word = |(at, number): (usize, &u32)| match at {
        3 | 4 if *number == NONE.into() => "-".to_string(),
        _ => number.to_string(),
    };
    let words: Vec<String> = numbers.iter().enumerate().map(word).collect();
    words.join(" ")
}

/// A refused opening as the vectors write it.
pub fn opening_words(opening: &Option<OpeningNumbers>) -> String {
    let Some(numbers) = opening else {
        return "none".to_string();
    };
    let mut text = String::new();
    for (at, number) in numbers.iter().enumerate() {
        text.push_str(match at {
            0 => "",
            6..=8 | 10..=12 => ",",
            _ => " ",
        });
        match at {
            16 | 17 if *number == NONE.into() => text.push('-'),
            _ => text.push_str(&number.to_string()),
        }
    }
    text
}

/// The entry of an opening, for the edge choice; nothing where a number of it is none
/// that an entry can have.
pub fn entry(opening: &OpeningNumbers) -> Option<Entry> {
    let clocks: [i64; 4] = opening[5..9].try_into().ok()?;
    let values: [i64; 4] = opening[9..13].try_into().ok()?;
    let mut entry = Entry {
        component: opening[1].try_into().ok()?,
        location: opening[4].try_into().ok()?,
        ..Entry::default()
    };
    for at in 0..4 {
        entry.clocks[at] = clocks[at].try_into().ok()?;
        entry.values[at] = values[at].try_into().ok()?;
    }
    Some(entry)
}

#[cfg(test)]
mod tests {
    use super::*;

    #[test]
    fn words_are_those_of_the_vectors() {
        let place = Some([5, 0, 5, 0, 255, 27, 3, 2, 255, 0, 60_001, 1]);
        assert_eq!(place_words(&place), "5 0 5 0 - 27 3 2 255 0 60001 1");
        let place = Some([4, 1, 10, 255, 255, 33, 0, 0, 12, 0, 1, 0]);
        assert_eq!(place_words(&place), "4 1 10 - - 33 0 0 12 0 1 0");
        let opening = [
            8, 1, 3, 255, 1, 6, 0, 255, 0, -7, 0, 0, 1, 3, 1, 2, 255, 255,
        ];
        let words = "8 1 3 255 1 6,0,255,0 -7,0,0,1 3 1 2 - -";
        assert_eq!(opening_words(&Some(opening)), words);
        let opening = [9, 0, 0, 0, 0, 0, 0, 0, 0, 0, 0, 0, 0, 0, 0, 0, 1, 3];
        let words = "9 0 0 0 0 0,0,0,0 0,0,0,0 0 0 0 1 3";
        assert_eq!(opening_words(&Some(opening)), words);
        assert_eq!(
            (place_words(&None), opening_words(&None)),
            ("none".to_string(), "none".to_string())
        );
    }

    #[test]
    fn the_entry_of_an_opening() {
        let mut opening = [8, 1, 3, 6, 2, 6, 5, 4, 3, -7, 0, 1, 2, 3, 1, 2, 255, 255];
        let expected = Entry {
            component: 1,
            location: 2,
            clocks: [6, 5, 4, 3],
            values: [-7, 0, 1, 2],
        };
        assert_eq!(entry(&opening), Some(expected));
        opening[9] = -32_769;
        assert_eq!(entry(&opening), None);
    }
}
