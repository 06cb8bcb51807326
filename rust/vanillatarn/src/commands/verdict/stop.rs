//! Where the check stopped, as the library tells it.

use crate::lines;
use timed_network::{refusal_place, refused_opening, Part, Place, RefusedOpening, Verdict};

/// A place in the bytes after 4 to 6, an opening after 7 to 9.
pub enum Stop {
    Place(Place),
    Opening(RefusedOpening),
}

/// What the library tells of a table with this verdict; nothing after any other
/// number. A spread that is refused, with 19, hides the rest.
pub fn stop_of(table: &[u8], verdict: Verdict) -> Option<Stop> {
    match verdict {
        Verdict::Refused { number: 4..=6, .. } => refusal_place(table).map(Stop::Place),
        Verdict::Refused { number: 7..=9, .. } => refused_opening(table).map(Stop::Opening),
        _ => None,
    }
}

impl Stop {
    /// What decides which lines of a text it is about. The first 7 bytes of a
    /// component begin with its length, which is there.
    pub fn place(&self) -> lines::Stop {
        match self {
            Stop::Place(place) => {
                let byte = (place.start + place.offset) as usize;
                let there = place.width > 0 || place.value > 0 || place.part == Part::ComponentHead;
                if there {
                    lines::Stop::Byte(byte)
                } else {
                    lines::Stop::Missing(byte)
                }
            }
            Stop::Opening(opening) => lines::Stop::Opening {
                component: opening.entry.component,
                location: opening.entry.location,
                update: opening.overflow,
            },
        }
    }
}
