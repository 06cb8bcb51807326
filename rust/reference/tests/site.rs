//! Airtimes and sites: the vectors, hand-made cases, and what holds over any sequence of
//! calls.

mod common;

use common::*;
use reference::checks::verdict;
use reference::site::*;
use reference::table::*;

/// The airtime in use after each call, or the refusal; `-` for no calls.
fn sequence(limit: &str, calls: &[String]) -> String {
    let mut site = Site::new(limit.parse().unwrap());
    let mut answers = Vec::new();
    for word in calls {
        let words: Vec<&str> = word.split(':').collect();
        let answer = match words[..] {
            ["put", place, table] => site.put(&unhex(table), place.parse().unwrap()),
            ["take", place] => site.take(place.parse().unwrap()),
            _ => panic!("neither put nor take: {word}"),
        };
        answers.push(told(answer.map(|()| site.in_use().to_string())));
    }
    match answers[..] {
        [] => "-".to_string(),
        _ => answers.join("|"),
    }
}

#[test]
fn all_vectors() {
    let mut counts = [0; 2];
    for vector in vectors_of_sites() {
        let given = match &vector.request[..] {
            [word, table] if word == "air" => {
                counts[0] += 1;
                let network = network(&unhex(table));
                told(network.map(|network| network.airtime.to_string()))
            }
            [word, limit, calls @ ..] if word == "ledger" => {
                counts[1] += 1;
                sequence(limit, calls)
            }
            request => panic!("neither air nor ledger: {request:?}"),
        };
        assert_eq!(given, vector.answer, "{}", vector.name);
    }
    assert_eq!(counts, [26, 58]);
}

/// A sender and a listener around it: the send from `ready` to 9, the horizon at will.
fn one_send(ready: u16, horizon: u16) -> Vec<u8> {
    let rest = |low| edge(1, 0, 1, low, internal(&[]));
    let send = edge(0, 1, 0, ready, Action::Send(0));
    let listen = edge(0, 1, 0, 0, receive(&[(0, 1)]));
    let mut sends = component(&[9, 1000], vec![send, rest(999)]);
    let mut hears = component(&[12, 1000], vec![listen, rest(999)]);
    (sends.variables, hears.variables) = (0, 0);
    write_table(&Table {
        channels: 1,
        ..table(horizon, vec![sends, hears])
    })
}

/// "with ready < H", and each window whole.
#[test]
fn sends_up_to_the_horizon() {
    for (ready, horizon, expected) in [(4, 6, 6), (5, 6, 5), (6, 6, 0), (6, 7, 4), (1, 900, 9)] {
        let network = network(&one_send(ready, horizon)).unwrap();
        assert_eq!((network.horizon, network.airtime), (horizon, expected));
    }
}

/// Receives and internal edges do not count, however long their windows are.
#[test]
fn sends_alone_count() {
    let (table, passages) = verdict(&probe_and_hub()).unwrap();
    let sends: Vec<_> = passages
        .iter()
        .filter(|passage| passage.component == 0 && passage.edge == 0)
        .collect();
    assert_eq!((passages.len(), sends.len()), (8, 2));
    assert_eq!(airtime(&table, &passages), 6);
    assert_eq!(airtime(&table, &[]), 0);
}

/// The networks of a small pool, by their tables: three of one horizon, one of another,
/// one refused.
fn pool() -> [Vec<u8>; 5] {
    let mut other = probe_and_hub();
    other[6] = 10;
    let mut late = probe_and_hub();
    late[70] = 3;
    [
        probe_and_hub(),
        one_send(4, 20),
        one_send(9, 20),
        other,
        late,
    ]
}

/// Over any sequence of calls the airtime in use is a plain sum over what was put in and
/// not taken out since, at most the limit; refused calls change nothing, and a call its
/// own place alone.
#[test]
fn any_sequence_of_calls() {
    let pool = pool();
    let mut numbers = Numbers(88172645463325252);
    for _ in 0..300 {
        let limit = numbers.below(26) as u32;
        let mut site = Site::new(limit);
        let mut held: [Option<Network>; 4] = [None; 4];
        for _ in 0..numbers.below(60) {
            let place = numbers.below(6);
            let table = &pool[numbers.below(5)];
            let own = held.get_mut(place);
            if numbers.below(3) == 0 {
                if site.take(place as u8).is_ok() {
                    *own.unwrap() = None;
                }
            } else if site.put(table, place as u8).is_ok() {
                *own.unwrap() = Some(network(table).unwrap());
            }
            let present = held.iter().flatten();
            let sum: u64 = present.map(|network| u64::from(network.airtime)).sum();
            assert_eq!(site.in_use(), sum);
            assert!(sum <= u64::from(limit) && site.limit() == limit);
            let places = [0, 1, 2, 3].map(|place| site.network(place));
            assert_eq!(places, held);
        }
    }
}

/// The horizon of a site is that of the networks present, no longer.
#[test]
fn the_horizon_goes_with_the_last_network() {
    let [own, _, _, other, _] = pool();
    let mut site = Site::new(100);
    assert_eq!(site.put(&own, 1), Ok(()));
    assert_eq!(site.put(&own, 2), Ok(()));
    assert_eq!(site.take(1), Ok(()));
    assert_eq!(site.put(&other, 0), Err(refused(27, 255)));
    assert_eq!(site.take(2), Ok(()));
    assert_eq!(site.put(&other, 0), Ok(()));
    assert_eq!(site.put(&own, 0), Err(refused(26, 255)));
    assert_eq!(site.put(&own, 3), Err(refused(27, 255)));
}
