//! Where the tables of a class are refused.

use super::Trial;
use crate::difference::{Outcome, Stop};
use crate::lists::Unlike;
use crate::places::{entry, opening_words, place_words, refused_by, OPENED, READ};
use crate::readers::{OpeningNumbers, PlaceNumbers, Reader};
use timed_network::Verdict;

const PLACE: &str = "refusal_place";
const OPENING: &str = "refused_opening";

impl Trial<'_> {
    /// Asks both where a table is refused. A place is told exactly if one of checks 4
    /// to 6 refuses it, an opening exactly if one of 7 to 9 does, with the number and
    /// the component of the verdict.
    pub(super) fn locate(&mut self, input: &[u8], verdict: Verdict) -> Outcome {
        let place = self.place(input)?;
        let told = place.map(|place| (place[0].into(), place[1].into()));
        self.hold(input, PLACE, told, refused_by(verdict, &READ))?;
        let opening = self.opening(input)?;
        let told = opening.map(|opening| (opening[0], opening[1]));
        self.hold(input, OPENING, told, refused_by(verdict, &OPENED))?;
        if let Some(opening) = opening {
            self.choose_at_opening(input, &opening)?;
        }
        self.count_located(input, place, opening)
    }

    /// What is told of a place or an opening has the verdict's number and component.
    fn hold(
        &self,
        input: &[u8],
        call: &str,
        told: Option<(i64, i64)>,
        refused: Option<(i64, i64)>,
    ) -> Outcome {
        if told == refused {
            return Ok(());
        }
        let words = |told: Option<(i64, i64)>| match told {
            Some((number, component)) => format!("something with {number} {component}"),
            None => "nothing".to_string(),
        };
        self.demand(input, call, words(told), words(refused))
    }

    /// Where both say that checks 4 to 6 stop.
    fn place(&self, input: &[u8]) -> Result<Option<PlaceNumbers>, Stop> {
        let library = (self.readers.library.refusal_place)(input);
        let second = (self.readers.second.refusal_place)(input);
        if library == second {
            return Ok(library);
        }
        let unlike = Unlike {
            library: place_words(&library),
            second: place_words(&second),
        };
        Err(self.differs(input, PLACE.to_string(), unlike, None))
    }

    /// Where both say that checks 7 to 9 stop.
    fn opening(&self, input: &[u8]) -> Result<Option<OpeningNumbers>, Stop> {
        let library = (self.readers.library.refused_opening)(input);
        let second = (self.readers.second.refused_opening)(input);
        if library == second {
            return Ok(library);
        }
        let unlike = Unlike {
            library: opening_words(&library),
            second: opening_words(&second),
        };
        Err(self.differs(input, OPENING.to_string(), unlike, None))
    }

    /// At the entry of an opening with 8 no edge is taken, with 9 the one told.
    fn choose_at_opening(&mut self, input: &[u8], opening: &OpeningNumbers) -> Outcome {
        let words = |edge: Option<i64>| match edge {
            Some(edge) => format!("edge {edge} at the entry"),
            None => "no edge at the entry".to_string(),
        };
        let expected = match opening[0] {
            8 => None,
            9 => Some(opening[16]),
            _ => return Ok(()),
        };
        let Some(entry) = entry(opening) else {
            let told = opening_words(&Some(*opening));
            return self.demand(input, OPENING, told, "an entry that there is".to_string());
        };
        let chosen = self.choose(input, &entry)?;
        let taken = chosen.ok().and_then(|choice| choice.taken);
        let taken = taken.map(|taken| taken.edge.into());
        self.demand(input, "edge_choice", words(taken), words(expected))
    }

    /// Counts a table by where it is refused.
    fn count_located(
        &mut self,
        input: &[u8],
        place: Option<PlaceNumbers>,
        opening: Option<OpeningNumbers>,
    ) -> Outcome {
        let counts = &mut self.tally.places;
        let known = match (&place, &opening) {
            (Some(place), _) => counts.count_place(place, input[0]),
            (None, Some(opening)) => counts.count_opening(opening),
            (None, None) => {
                counts.none += 1;
                true
            }
        };
        if known {
            return Ok(());
        }
        let told = format!("{}; {}", place_words(&place), opening_words(&opening));
        let expected = "a way in which a table can be refused".to_string();
        self.demand(input, "refusal_place and refused_opening", told, expected)
    }

    /// Both have to say in these words where checks 4 to 6 stop.
    pub fn expect_place(&mut self, input: &[u8], answer: &str) -> Outcome {
        let said = |reader: &Reader| place_words(&(reader.refusal_place)(input));
        self.expect_said(input, PLACE, said, answer)
    }

    /// Both have to say in these words where checks 7 to 9 stop.
    pub fn expect_opening(&mut self, input: &[u8], answer: &str) -> Outcome {
        let said = |reader: &Reader| opening_words(&(reader.refused_opening)(input));
        self.expect_said(input, OPENING, said, answer)
    }

    fn expect_said(
        &mut self,
        input: &[u8],
        call: &str,
        said: impl Fn(&Reader) -> String,
        answer: &str,
    ) -> Outcome {
        for reader in [self.readers.library, self.readers.second] {
            self.demand(input, call, said(&reader), answer.to_string())?;
        }
        self.compare(input)
    }
}
