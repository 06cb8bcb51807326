//! Airtimes and sites: the vectors, and a site whose places come and go.

mod common;

use common::*;
use yardstick::{Network, Refusal, Site, Yardstick};

/// One call of a sequence: `put:PLACE:HEX` or `take:PLACE`.
fn called(yardstick: &mut Yardstick, site: &mut Site, word: &str) -> Result<(), Refusal> {
    let words: Vec<&str> = word.split(':').collect();
    match words[..] {
        ["put", place, table] => {
            let network = yardstick.airtime(&unhex(table))?;
            site.put(network, place.parse().unwrap())
        }
        ["take", place] => site.take(place.parse().unwrap()),
        _ => panic!("neither put nor take: {word}"),
    }
}

#[test]
fn all_vectors() {
    let mut yardstick = Yardstick::new();
    let mut counts = [0; 2];
    for line in text("vectors/sites.tsv").lines() {
        let fields: Vec<&str> = line.split('\t').collect();
        let words: Vec<&str> = fields[1].split(' ').collect();
        let given = match words[..] {
            ["air", table] => {
                counts[0] += 1;
                let network = yardstick.airtime(&unhex(table));
                told(network.map(|network| network.airtime.to_string()))
            }
            ["ledger", limit, ref calls @ ..] => {
                counts[1] += 1;
                let mut site = Site::new(limit.parse().unwrap());
                let one = |word: &&str| {
                    let answer = called(&mut yardstick, &mut site, word);
                    told(answer.map(|()| site.in_use().to_string()))
                };
                let answers: Vec<String> = calls.iter().map(one).collect();
                match answers[..] {
                    [] => "-".to_string(),
                    _ => answers.join("|"),
                }
            }
            _ => panic!("neither air nor ledger: {words:?}"),
        };
        assert_eq!(given, fields[2], "{}", fields[0]);
    }
    assert_eq!(counts, [26, 58]);
}

/// An emptied place holds nothing, and any horizon may come when all are empty.
#[test]
fn places_come_and_go() {
    let network = |horizon, airtime| Network { horizon, airtime };
    let mut site = Site::new(10);
    for place in 0..4 {
        assert_eq!(site.put(network(20, 2), place), Ok(()));
    }
    assert_eq!(site.in_use(), 8);
    for place in 0..4 {
        assert_eq!(site.take(place), Ok(()));
        assert_eq!(site.places()[usize::from(place)], Network::default());
    }
    assert_eq!((site.in_use(), site.limit()), (0, 10));
    assert_eq!(site.put(network(7, 10), 3), Ok(()));
}
