//! The safe calls `airtime` and those of a `Site`: the vectors, the struct after each
//! call, refusals.

mod common;

use common::*;
use timed_network::{airtime, Network, Refusal, Refused, Site, SiteNumbers, Verdict, PLACES};

/// The worked example with another horizon.
fn with_horizon(horizon: u8) -> Vec<u8> {
    with(6, horizon)
}

fn told(answer: Result<u64, Refused>) -> String {
    match answer {
        Ok(number) => number.to_string(),
        Err(refused) => Verdict::from(refused).to_string(),
    }
}

/// One call of a sequence: `put:PLACE:HEX` or `take:PLACE`.
fn called(site: &mut Site, word: &str) -> Result<u64, Refused> {
    let words: Vec<&str> = word.split(':').collect();
    match words[..] {
        ["put", place, table] => site.put(&unhex(table), place.parse().unwrap()),
        ["take", place] => site.take(place.parse().unwrap()),
        _ => panic!("neither put nor take: {word}"),
    }
}

/// The answers to a sequence of calls. After each the struct agrees with itself.
fn sequence(limit: &str, calls: &[&str]) -> String {
    let mut site = Site::new(limit.parse().unwrap());
    let mut answers = Vec::new();
    for word in calls {
        let before = site.numbers();
        let answer = called(&mut site, word);
        hold(&site, &before, &answer);
        answers.push(told(answer));
    }
    match answers[..] {
        [] => "-".to_string(),
        _ => answers.join("|"),
    }
}

/// What holds after any call of a site that only its calls wrote.
fn hold(site: &Site, before: &SiteNumbers, answer: &Result<u64, Refused>) {
    let now = site.numbers();
    assert_eq!((now.limit, site.limit()), (before.limit, before.limit));
    let present = (0..PLACES).filter_map(|place| site.network(place));
    let sum: u64 = present.map(|network| u64::from(network.airtime)).sum();
    assert_eq!((now.in_use, site.in_use()), (sum, sum));
    assert_eq!(site.left(), u64::from(site.limit()) - sum);
    let verdict = match answer {
        Ok(in_use) => {
            assert_eq!(*in_use, sum);
            (0, 255)
        }
        Err(refused) => {
            assert_eq!(now.in_use, before.in_use);
            assert_eq!(
                (now.horizons, now.airtimes),
                (before.horizons, before.airtimes)
            );
            let component = refused.component.unwrap_or(255);
            (refused.refusal.number(), component)
        }
    };
    assert_eq!((now.number, now.component), verdict);
    for (horizon, airtime) in now.horizons.iter().zip(now.airtimes) {
        assert!(*horizon != 0 || airtime == 0);
    }
}

#[test]
fn all_vectors() {
    let mut counts = [0; 2];
    for line in text("vectors/sites.tsv").lines() {
        let fields: Vec<&str> = line.split('\t').collect();
        let words: Vec<&str> = fields[1].split(' ').collect();
        let given = match words[..] {
            ["air", table] => {
                counts[0] += 1;
                told(airtime(&unhex(table)).map(|network| network.airtime.into()))
            }
            ["ledger", limit, ref calls @ ..] => {
                counts[1] += 1;
                sequence(limit, calls)
            }
            _ => panic!("neither air nor ledger: {words:?}"),
        };
        assert_eq!(given, fields[2], "{}", fields[0]);
    }
    assert_eq!(counts, [26, 58]);
}

#[test]
fn an_empty_site() {
    for limit in [0, 1, u32::MAX] {
        let site = Site::new(limit);
        let expected = SiteNumbers {
            limit,
            horizons: [0; 4],
            airtimes: [0; 4],
            in_use: 0,
            number: 0,
            component: 255,
        };
        assert_eq!(site.numbers(), expected);
        assert_eq!((site.left(), site.in_use()), (limit.into(), 0));
        assert!((0..=u8::MAX).all(|place| site.network(place).is_none()));
    }
}

/// The table's own refusal, then 26, then 27, then 28.
#[test]
fn the_order_of_the_refusals() {
    let other = with_horizon(10);
    let late = with(70, 3);
    let mut site = Site::new(7);
    assert_eq!(site.put(&PROBE_AND_HUB, 2), Ok(6));
    let own = Some(Network {
        horizon: 20,
        airtime: 6,
    });
    for place in 0..=u8::MAX {
        let wrong = place > 3 || place == 2;
        let number = if wrong { 26 } else { 27 };
        assert_eq!(site.put(&late, place), Err(refusal(16, 0)));
        assert_eq!(site.put(&[], place), Err(refusal(1, 255)));
        assert_eq!(site.put(&other, place), Err(refusal(number, 255)));
        let number = if wrong { 26 } else { 28 };
        assert_eq!(site.put(&PROBE_AND_HUB, place), Err(refusal(number, 255)));
        if place != 2 {
            assert_eq!(site.take(place), Err(refusal(26, 255)));
        }
        let numbers = site.numbers();
        assert_eq!(
            (numbers.horizons, numbers.airtimes),
            ([0, 0, 20, 0], [0, 0, 6, 0])
        );
        assert_eq!((site.network(2), site.in_use()), (own, 6));
    }
    let refused = site.take(9).unwrap_err();
    assert_eq!(refused.refusal, Refusal::SitePlace);
    assert_eq!(site.take(2), Ok(0));
    assert_eq!(site.put(&other, 0), Ok(3));
}

/// A copy goes its own way.
#[test]
fn a_copy_is_a_site_of_its_own() {
    let mut site = Site::new(20);
    assert_eq!(site.put(&PROBE_AND_HUB, 0), Ok(6));
    let mut copy = site.clone();
    assert_eq!(copy.put(&PROBE_AND_HUB, 1), Ok(12));
    assert_eq!(site.take(0), Ok(0));
    assert_eq!((site.in_use(), copy.in_use()), (0, 12));
}
