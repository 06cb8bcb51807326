//! How often a table was refused in each way.

use crate::readers::{OpeningNumbers, PlaceNumbers};
use std::fmt;

/// A number that checks 4 to 6 try: check, part, offset, width.
type Number = [u32; 4];

/// Which numbers just out of their range there are: one less than the least, the
/// limit itself, and others. With 6, where the number is in its range: the second pair
/// of an edge, and later ones.
type Sides = [bool; 3];

const BELOW: Sides = [true, false, true];
const ABOVE: Sides = [false, true, true];
const BOTH: Sides = [true; 3];

/// All numbers at which checks 4 to 6 may stop.
const NUMBERS: [(Number, Sides); 38] = [
    ([4, 1, 0, 0], BELOW),
    ([4, 2, 0, 0], BELOW),
    ([4, 3, 0, 0], BELOW),
    ([4, 4, 0, 0], BELOW),
    ([4, 5, 0, 0], BELOW),
    ([4, 6, 0, 0], BELOW),
    ([4, 7, 0, 0], BELOW),
    ([4, 8, 0, 0], [true, false, false]),
    ([4, 9, 0, 0], BELOW),
    ([4, 1, 0, 2], ABOVE),
    ([4, 10, 0, 0], ABOVE),
    ([4, 11, 0, 0], ABOVE),
    ([5, 2, 2, 1], BOTH),
    ([5, 2, 3, 1], ABOVE),
    ([5, 2, 4, 1], BOTH),
    ([5, 2, 5, 1], ABOVE),
    ([5, 2, 6, 1], BOTH),
    ([5, 3, 0, 1], ABOVE),
    ([5, 3, 1, 2], ABOVE),
    ([5, 4, 0, 1], ABOVE),
    ([5, 4, 1, 1], ABOVE),
    ([5, 4, 2, 1], ABOVE),
    ([5, 4, 3, 1], ABOVE),
    ([5, 4, 4, 1], ABOVE),
    ([5, 4, 5, 1], ABOVE),
    ([5, 4, 6, 1], BOTH),
    ([5, 5, 0, 1], ABOVE),
    ([5, 5, 1, 2], ABOVE),
    ([5, 5, 3, 2], ABOVE),
    ([5, 6, 0, 1], ABOVE),
    ([5, 7, 0, 1], ABOVE),
    ([5, 7, 1, 1], ABOVE),
    ([5, 8, 0, 1], ABOVE),
    ([5, 9, 0, 1], ABOVE),
    ([5, 9, 1, 1], ABOVE),
    ([6, 9, 0, 1], [true, true, false]),
    ([4, 12, 0, 0], BELOW),
    ([5, 12, 0, 2], ABOVE),
];

/// The ways in which an opening is refused.
const OPENINGS: [&str; 12] = [
    "7",
    "8 at the start, no edge leaves",
    "8 at the start, all blocked",
    "8 at the start, none with a window",
    "8 at the start, both",
    "8 later, no edge leaves",
    "8 later, all blocked",
    "8 later, none with a window",
    "8 later, both",
    "9 at the start",
    "9 later, by the first update",
    "9 later, by another update",
];

/// Where tables were refused.
#[derive(Clone, Copy, Debug, PartialEq, Eq)]
pub struct Places {
    /// By the number at fault, in the order of the list above, and the side.
    pub places: [[u64; 3]; NUMBERS.len()],
    /// In tables of version 2.
    pub on_bands: u64,
    /// In tables of version 3.
    pub with_budgets: u64,
    /// By the way, in the order of the list above.
    pub openings: [u64; OPENINGS.len()],
    /// Tables that were asked for a place or an opening and have none.
    pub none: u64,
}

impl Default for Places {
    fn default() -> Places {
        Places {
            places: [[0; 3]; NUMBERS.len()],
            on_bands: 0,
            with_budgets: 0,
            openings: [0; OPENINGS.len()],
            none: 0,
        }
    }
}

impl Places {
    /// All tables.
    pub fn all(&self) -> u64 {
        let places: u64 = self.places.iter().flatten().sum();
        places + self.openings.iter().sum::<u64>() + self.none
    }

    /// Counts a place; whether there is such a one.
    pub fn count_place(&mut self, place: &PlaceNumbers, version: u8) -> bool {
        let [check, _, part, _, index, _, offset, width, value, least, limit, _] = *place;
        let number = [check, part, offset, width];
        let side = match check {
            6 => usize::from(index != 1),
            _ if value + 1 == least => 0,
            _ if value == limit => 1,
            _ => 2,
        };
        let known = NUMBERS
            .iter()
            .position(|(known, sides)| *known == number && sides[side]);
        if let Some(at) = known {
            self.places[at][side] += 1;
            self.on_bands += u64::from(version == 2);
            self.with_budgets += u64::from(version == 3);
        }
        known.is_some()
    }

    /// Counts an opening; whether there is such a one.
    pub fn count_opening(&mut self, opening: &OpeningNumbers) -> bool {
        let later = usize::from(opening[3] > 0);
        let [leaving, blocked, windowless] = [opening[13], opening[14], opening[15]];
        let way = match opening[0] {
            7 => 0,
            8 if leaving != blocked + windowless => return false,
            8 if leaving == 0 => 1 + 4 * later,
            8 if windowless == 0 => 2 + 4 * later,
            8 if blocked == 0 => 3 + 4 * later,
            8 => 4 + 4 * later,
            9 if later == 0 => 9,
            9 if opening[17] == 0 => 10,
            9 => 11,
            _ => return false,
        };
        self.openings[way] += 1;
        true
    }

    /// Adds what another one counted.
    pub fn add(&mut self, other: &Places) {
        let places = self.places.iter_mut().flatten();
        let openings = self.openings.iter_mut();
        let others = other.places.iter().flatten().chain(&other.openings);
        for (all, own) in places.chain(openings).zip(others) {
            *all += own;
        }
        self.on_bands += other.on_bands;
        self.with_budgets += other.with_budgets;
        self.none += other.none;
    }

    /// How many places there are with this check.
    fn of_check(&self, check: u32) -> u64 {
        let counts = NUMBERS.iter().zip(self.places);
        let own = counts.filter(|((number, _), _)| number[0] == check);
        own.map(|(_, counts)| counts.iter().sum::<u64>()).sum()
    }

    /// Each way with how often it came.
    fn ways(&self) -> impl Iterator<Item = (u64, String)> + '_ {
        let sides = |(at, (number, sides)): (usize, &(Number, Sides))| {
            let (own, number) = (self.places[at], *number);
            let there = (0..3).zip(*sides).filter(|(_, there)| *there);
            there.map(move |(side, _)| (own[side], way(number, side)))
        };
        let places: Vec<_> = NUMBERS.iter().enumerate().flat_map(sides).collect();
        let openings = self.openings.into_iter().zip(OPENINGS);
        let openings = openings.map(|(count, way)| (count, format!("openings refused with {way}")));
        let others = [
            (self.on_bands, "places in tables of version 2"),
            (self.with_budgets, "places in tables of version 3"),
            (self.none, "tables with no place and no refused opening"),
        ];
        let others = others.map(|(count, what)| (count, what.to_string()));
        places.into_iter().chain(openings).chain(others)
    }

    /// The ways that came too rarely.
    pub fn gaps(&self, least: u64) -> Vec<String> {
        let rare = self.ways().filter(|(count, _)| *count < least);
        rare.map(|(count, what)| format!("{what}: {count}, fewer than {least}"))
            .collect()
    }

    /// The way that came least often, and how often it did.
    pub fn rarest(&self) -> (u64, String) {
        self.ways().min().expect("there are ways")
    }
}

/// A number at which checks 4 to 6 stop, in words.
fn way([check, part, offset, width]: Number, side: usize) -> String {
    let number = format!("places with {check} in part {part} at offset {offset}, width {width}");
    let side = match (check, side) {
        (6, 0) => "in the second pair",
        (6, _) => "in a later pair",
        (_, 0) => "one below the least",
        (_, 1) => "the limit",
        _ => "farther out",
    };
    format!("{number}, {side}")
}

/// All counts by the number of the check.
impl fmt::Display for Places {
    fn fmt(&self, out: &mut fmt::Formatter<'_>) -> fmt::Result {
        let places: u64 = self.places.iter().flatten().sum();
        write!(out, "{places} places")?;
        for (check, before) in [(4, ": "), (5, ", "), (6, ", ")] {
            write!(out, "{before}{check}: {}", self.of_check(check))?;
        }
        let [seven, eight @ .., nine, first, other] = self.openings;
        let openings: u64 = self.openings.iter().sum();
        write!(out, "; {openings} refused openings: 7: {seven}")?;
        let [start, later] = [&eight[..4], &eight[4..]].map(|ways| ways.iter().sum::<u64>());
        write!(out, ", 8: {start} at the start, {later} later")?;
        write!(out, ", 9: {nine} at the start, {} later", first + other)?;
        write!(out, "; {} with neither", self.none)
    }
}

#[cfg(test)]
mod tests {
    use super::*;

    #[test]
    fn places_are_counted_by_number_and_side() {
        let mut places = Places::default();
        let range = |value, least, limit| [5, 0, 2, 255, 255, 7, 2, 1, value, least, limit, 0];
        for (value, side) in [(0, 0), (17, 1), (18, 2), (255, 2)] {
            let before = places.places[12][side];
            assert!(places.count_place(&range(value, 1, 17), 1));
            assert_eq!(places.places[12][side], before + 1);
        }
        let pair = |index| [6, 1, 9, 0, index, 75, 0, 1, 0, 0, 1, 0];
        assert!(places.count_place(&pair(1), 2) && places.count_place(&pair(7), 2));
        assert_eq!((places.places[35], places.on_bands), ([1, 1, 0], 2));
        let budget = [5, 0, 12, 0, 255, 24, 0, 2, 60_001, 0, 60_001, 0];
        assert!(places.count_place(&budget, 3));
        assert_eq!((places.places[37], places.with_budgets), ([0, 1, 0], 1));
        let no_such_offset = [5, 0, 2, 255, 255, 7, 7, 1, 0, 1, 17, 0];
        assert!(!places.count_place(&no_such_offset, 1));
        let no_such_side = [4, 0, 8, 0, 0, 32, 0, 0, 1, 1, 8193, 0];
        assert!(!places.count_place(&no_such_side, 1));
        assert_eq!(places.all(), 7);
    }

    #[test]
    fn openings_are_counted_by_way() {
        let mut places = Places::default();
        let opening = |number, tick, edges: [i64; 3], update| {
            let [leaving, blocked, windowless] = edges;
            let mut numbers = [0; 18];
            numbers[..4].copy_from_slice(&[number, 0, 0, tick]);
            numbers[13..].copy_from_slice(&[leaving, blocked, windowless, 255, update]);
            numbers
        };
        let none = 255;
        for (at, numbers) in [
            (0, opening(7, 1024, [0; 3], none)),
            (1, opening(8, 0, [0; 3], none)),
            (2, opening(8, 0, [2, 2, 0], none)),
            (3, opening(8, 0, [2, 0, 2], none)),
            (8, opening(8, 3, [3, 1, 2], none)),
            (9, opening(9, 0, [0; 3], 1)),
            (10, opening(9, 4, [0; 3], 0)),
            (11, opening(9, 4, [0; 3], 3)),
        ] {
            assert!(places.count_opening(&numbers));
            assert_eq!(places.openings[at], 1);
        }
        assert!(!places.count_opening(&opening(8, 3, [3, 1, 1], none)));
        assert!(!places.count_opening(&opening(6, 3, [0; 3], none)));
        let told = "0 places: 4: 0, 5: 0, 6: 0; 8 refused openings: 7: 1, \
                    8: 3 at the start, 1 later, 9: 1 at the start, 2 later; 0 with neither";
        assert_eq!(places.to_string(), told);
        let gaps = places.gaps(1);
        let missing = "openings refused with 8 at the start, both: 0, fewer than 1";
        assert!(gaps.contains(&missing.to_string()));
        assert!(gaps.contains(
            &"places with 5 in part 4 at offset 6, width 1, one below the least: 0, fewer than 1"
                .to_string()
        ));
        assert_eq!(places.rarest().0, 0);
        let mut twice = places;
        twice.add(&places);
        assert_eq!((twice.all(), twice.openings[11]), (16, 2));
    }
}
