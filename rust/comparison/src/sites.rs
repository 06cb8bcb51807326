//! Sequences of calls of a site: which are drawn, what the site is after each, and what
//! was counted of it.

mod tally;

pub use tally::Sites;

use crate::lists::Unlike;
use crate::random::Random;
use crate::readers::Readers;
use timed_network::{SiteNumbers, PLACES};

/// A call of a site.
#[derive(Clone, Copy, Debug, PartialEq, Eq)]
pub enum Asked<'a> {
    /// The network of a table is put into a place.
    Put(&'a [u8], u8),
    /// The network in a place is taken out.
    Take(u8),
}

/// A table that may be put in, with its airtime as the second implementation has it; none
/// where it is refused.
#[derive(Clone, Debug, PartialEq, Eq)]
pub struct Candidate {
    /// The table.
    pub table: Vec<u8>,
    /// Its airtime.
    pub airtime: Option<u32>,
}

impl Candidate {
    /// A table, whatever it is.
    pub fn new(table: Vec<u8>) -> Candidate {
        let network = reference::site::network(&table);
        Candidate {
            airtime: network.ok().map(|network| network.airtime),
            table,
        }
    }
}

/// The most calls of a sequence.
const CALLS: usize = 200;

/// A limit next to the sum of some of the airtimes, or far from all.
pub fn limit(random: &mut Random, pool: &[Candidate]) -> u32 {
    let networks: Vec<u32> = pool.iter().filter_map(|table| table.airtime).collect();
    let count = random.within(1..=usize::from(PLACES));
    let sum: u32 = match networks[..] {
        [] => 0,
        _ => (0..count).map(|_| random.pick(&networks)).sum(),
    };
    let far = random.pick(&[0, 1, u32::MAX, sum / 2, random.clone().number() as u32]);
    random.pick(&[sum, sum, sum, sum + 1, sum.saturating_sub(1), far])
}

/// 1 to 200 calls: tables of the pool put into places and networks taken out, now and
/// then with a place that there is not.
pub fn drawn<'a>(random: &mut Random, pool: &'a [Candidate]) -> Vec<Asked<'a>> {
    let most = random.pick(&[1, 5, 20, CALLS]);
    let calls = random.within(1..=most);
    (0..calls).map(|_| call(random, pool)).collect()
}

fn call<'a>(random: &mut Random, pool: &'a [Candidate]) -> Asked<'a> {
    let own = random.below(PLACES.into()) as u8;
    let place = match random.below(24) {
        0 => random.pick(&[PLACES, PLACES + 1, 128, own + 8, u8::MAX]),
        1 => random.byte(),
        _ => own,
    };
    match random.below(5) {
        0 | 1 => Asked::Take(place),
        _ => Asked::Put(&pool[random.below(pool.len())].table, place),
    }
}

/// A site in words, all its fields.
pub fn words(site: &SiteNumbers) -> String {
    let SiteNumbers {
        limit,
        horizons,
        airtimes,
        in_use,
        number,
        component,
    } = site;
    format!(
        "number {number}, component {component}, {in_use} in use of {limit}, \
         horizons {horizons:?}, airtimes {airtimes:?}"
    )
}

/// Where two sites differ for the first time in a sequence.
#[derive(Clone, Debug, PartialEq, Eq)]
pub struct Parted {
    /// How many calls were made.
    pub calls: usize,
    /// What both are.
    pub unlike: Unlike,
}

/// Makes the calls on both sides, and compares the sites from the empty ones on, field by
/// field after each call.
pub fn compare(readers: &Readers, limit: u32, calls: &[Asked]) -> Result<Vec<SiteNumbers>, Parted> {
    let library = (readers.library.site)(limit, calls);
    let second = (readers.second.site)(limit, calls);
    assert_eq!(
        (library.len(), second.len()),
        (calls.len() + 1, calls.len() + 1)
    );
    let unlike = (0..library.len()).find(|at| library[*at] != second[*at]);
    match unlike {
        None => Ok(library),
        Some(calls) => Err(Parted {
            calls,
            unlike: Unlike {
                library: words(&library[calls]),
                second: words(&second[calls]),
            },
        }),
    }
}

#[cfg(test)]
mod tests {
    use super::*;
    use crate::readers::Reader;
    use crate::tables::WORKED_EXAMPLE;

    /// A site that forgets what is in use.
    fn nothing_in_use(limit: u32, calls: &[Asked]) -> Vec<SiteNumbers> {
        let sites = (Reader::second().site)(limit, calls).into_iter();
        let forgets = |site| SiteNumbers { in_use: 0, ..site };
        sites.map(forgets).collect()
    }

    #[test]
    fn the_first_difference_is_told() {
        let second = Reader::second();
        let library = Reader {
            site: nothing_in_use,
            ..second
        };
        let readers = Readers { library, second };
        let calls = [Asked::Take(0), Asked::Put(&WORKED_EXAMPLE, 2)];
        let parted = compare(&readers, 6, &calls).unwrap_err();
        assert_eq!(parted.calls, 2);
        let said = "number 0, component 255, 6 in use of 6, horizons [0, 0, 20, 0], \
                    airtimes [0, 0, 6, 0]";
        assert_eq!(parted.unlike.second, said);
        let readers = Readers {
            library: second,
            second,
        };
        let sites = compare(&readers, 5, &calls).unwrap();
        let numbers: Vec<u8> = sites.iter().map(|site| site.number).collect();
        assert_eq!(numbers, [0, 26, 28]);
    }

    #[test]
    fn calls_of_all_kinds_are_drawn() {
        let pool = [
            Candidate::new(WORKED_EXAMPLE.to_vec()),
            Candidate::new(vec![]),
        ];
        assert_eq!((pool[0].airtime, pool[1].airtime), (Some(6), None));
        let mut random = Random::new(1);
        let limits: Vec<u32> = (0..500).map(|_| limit(&mut random, &pool)).collect();
        for wanted in [0, 5, 6, 7, 11, 12, 13, 24, u32::MAX] {
            assert!(limits.contains(&wanted), "{wanted}");
        }
        let sequences: Vec<Vec<Asked>> = (0..500).map(|_| drawn(&mut random, &pool)).collect();
        let longest = sequences.iter().map(Vec::len).max();
        assert!(longest.is_some_and(|calls| (150..=CALLS).contains(&calls)));
        assert!(sequences.iter().any(|calls| calls.len() == 1));
        for place in [0, 1, 2, 3, 4, 255] {
            let all = || sequences.iter().flatten();
            assert!(all().any(|call| *call == Asked::Take(place)));
            assert!(all().any(|call| *call == Asked::Put(&WORKED_EXAMPLE, place)));
        }
    }
}
