//! Nodes that wake apart, wish 6 of document 02: its vectors, the old check and
//! the old run as the case without a spread, and plans with their guard.

mod common;

use common::*;
use reference::calls;
use reference::checks::{
    check_messages_within, largest_spread, met_within, verdict, verdict_within, MAX_SPREAD,
};
use reference::plan::{plan, Slots};
use reference::run::{End, TICK};
use reference::schedule::Passage;
use reference::table::*;

fn number(word: &str) -> u32 {
    word.parse().unwrap()
}

/// The answer to a request. `lent` says how many bytes are lent to a run, else
/// there are as many as any run takes.
fn answer(request: &[&str]) -> Result<String, Refusal> {
    match request {
        ["lent", bytes, "run", words @ ..] => {
            run_answer(words, bytes.parse().unwrap()).map(without_finishes)
        }
        ["run", words @ ..] => run_answer(words, AMPLE).map(without_finishes),
        ["check", table, spread] => {
            calls::check_spread(&unhex(table), number(spread)).map(|()| "accepted".to_string())
        }
        ["schedule", table] => {
            let (_, passages) = verdict(&unhex(table))?;
            let text = reference::schedule::print(&passages);
            Ok(text.lines().collect::<Vec<_>>().join("|"))
        }
        ["program", table] => {
            let mut program = vec![0; 65_536];
            let length = calls::translate(&unhex(table), &mut program)?;
            Ok(hex(&program[..length]))
        }
        _ => panic!("no such request: {request:?}"),
    }
}

#[test]
fn all_vectors() {
    let all = vectors_apart();
    assert_eq!(all.len(), 150);
    for vector in all {
        let words: Vec<&str> = vector.request.iter().map(String::as_str).collect();
        let given = told(answer(&words));
        assert_eq!(given, vector.answer, "{}", vector.name);
    }
}

/// "G = 0 is the old check", and without offsets the old run.
#[test]
fn without_a_spread_all_is_as_before() {
    let mut runs = 0;
    for vector in vectors() {
        let words: Vec<&str> = vector.request.iter().map(String::as_str).collect();
        let given = match words[..] {
            ["check", table] => answer(&["check", table, "0"]),
            ["run", table, choices] => {
                runs += 1;
                answer(&["run", table, choices, "0"])
            }
            _ => continue,
        };
        assert_eq!(told(given), vector.answer, "{}", vector.name);
    }
    assert!(runs > 100, "{runs} runs");
}

/// The first fault at a spread, sentence by sentence over all pairs of passages,
/// with the passage at fault and those that it meets.
fn by_definition<'a>(
    table: &Table,
    passages: &'a [Passage],
    spread: u32,
) -> Option<(Refusal, Vec<&'a Passage>)> {
    let sent = |p: &Passage| match p.edge_in(table).action {
        Action::Send(channel) => Some(channel),
        _ => None,
    };
    let counts = |p: &&Passage| sent(p).is_some() && p.ready < u32::from(table.horizon);
    let near = |p: &Passage, q: &Passage| {
        let (first, second) = if p.ready <= q.ready { (p, q) } else { (q, p) };
        second.ready.saturating_sub(first.end) <= spread
    };
    let channel = |p: &Passage| sent(p).unwrap();
    let hears = |p: &Passage, q: &Passage| {
        p.component != q.component && near(p, q) && p.edge_in(table).listens_to(channel(q))
    };
    let sends: Vec<&Passage> = passages.iter().filter(counts).collect();
    let fault = |number, own: &'a Passage, met: Vec<&'a Passage>| {
        Some((
            Refusal::new(number, own.component),
            [vec![own], met].concat(),
        ))
    };
    for &send in &sends {
        let band = |p: &Passage| table.band(channel(p));
        let disturbs =
            |q: &&Passage| q.component != send.component && near(q, send) && band(q) == band(send);
        let met: Vec<&Passage> = sends.iter().copied().filter(disturbs).collect();
        if !met.is_empty() {
            return fault(10, send, met);
        }
    }
    for &send in &sends {
        let heard: Vec<&Passage> = passages.iter().filter(|p| hears(p, send)).collect();
        let number = match heard[..] {
            [] => 11,
            [one] if send.ready <= one.ready + spread => 16,
            [one] if one.end <= send.end + spread => 17,
            [_] => continue,
            _ => 15,
        };
        return fault(number, send, heard);
    }
    passages.iter().find_map(|receive| {
        let heard = sends.iter().copied().filter(|send| hears(receive, send));
        let heard: Vec<&Passage> = heard.collect();
        fault(12, receive, heard).filter(|(_, list)| list.len() > 2)
    })
}

#[test]
fn the_checks_by_all_pairs_of_passages() {
    let mut counts = std::collections::BTreeMap::new();
    let mut turn = 0;
    for_each_schedule(20_000, |table, passages| {
        turn += 1;
        let spread = [0, 1, 2, 3, 7, MAX_SPREAD][turn % 6];
        let answer = check_messages_within(table, passages, spread).err();
        let met = met_within(table, passages, spread);
        let found = by_definition(table, passages, spread);
        assert_eq!(answer.map(|answer| (answer, met.clone())), found);
        assert!(answer.is_some() || met.is_empty());
        *counts.entry(answer.map_or(0, |r| r.number)).or_insert(0) += 1;
    });
    println!("{counts:?}");
    let numbers: Vec<u8> = counts.into_keys().collect();
    assert_eq!(numbers, [0, 10, 11, 12, 15, 16, 17]);
}

/// A table accepted at a spread is accepted at every smaller one: those accepted
/// are those up to the largest.
#[test]
fn a_smaller_spread_is_accepted_too() {
    let mut largest = std::collections::BTreeMap::new();
    for_each_schedule(4000, |table, passages| {
        let fine = |spread: u32| check_messages_within(table, passages, spread).is_ok();
        let found = largest_spread(table, passages);
        let beyond = found.map_or(0, |spread| spread + 1);
        for spread in (0..40).chain([500, 998, 999, MAX_SPREAD]) {
            assert_eq!(fine(spread), spread < beyond, "{spread}");
        }
        *largest.entry(found).or_insert(0) += 1;
    });
    println!("{largest:?}");
    for spread in [None, Some(0), Some(1), Some(2), Some(MAX_SPREAD)] {
        assert!(largest.contains_key(&spread), "{spread:?}: {largest:?}");
    }
}

/// The lines of the stored windows, from the worked example at a spread.
#[test]
fn which_windows_met() {
    let table = probe_and_hub();
    let met = |spread, list: &mut [u32]| calls::meetings_spread(&table, spread, list);
    let mut list = [77; 23];
    let answer = met(0, &mut list);
    assert_eq!((answer.table, answer.listed), (Ok(()), Ok(0)));
    assert_eq!(list, [77; 23]);
    // The hub starts a tick before the send.
    let answer = met(1, &mut list);
    assert_eq!((answer.table, answer.listed), (Err(refused(16, 0)), Ok(2)));
    assert_eq!(list[..7], [0, 0, 0, 0, 3, 5, 0]);
    assert_eq!(list[7..14], [1, 0, 0, 0, 2, 6, 0]);
    assert_eq!(list[14..], [77; 9]);
    // From the end of the send to the hub's second window there are 7 ticks.
    let answer = met(7, &mut list);
    assert_eq!((answer.table, answer.listed), (Err(refused(15, 0)), Ok(3)));
    assert_eq!(list[14..21], [1, 0, 0, 10, 12, 16, 0]);
    assert_eq!(list[21..], [77; 2]);
    let answer = met(6, &mut list[..13]);
    let short = Err(refused(13, 255));
    assert_eq!((answer.table, answer.listed), (Err(refused(16, 0)), short));
    assert_eq!(list[7..14], [1, 0, 0, 0, 2, 6, 0]);
    let answer = met(1001, &mut []);
    assert_eq!(
        (answer.table, answer.listed),
        (Err(refused(19, 255)), Ok(0))
    );
    assert_eq!(calls::largest_spread(&table), Ok(0));
    assert_eq!(calls::largest_spread(&[]), Err(refused(1, 255)));
}

/// "A plan with guard g is proved accepted for every G below g." At g its
/// listener starts too late.
#[test]
fn plans_and_their_guard() {
    let mut numbers = Numbers(88_172_645_463_325_252);
    for _ in 0..200 {
        let probes = 1 + numbers.below(7) as u32;
        let slot = 1 + numbers.below([5, 1000][numbers.0 as usize % 2]) as u32;
        let guard = 1 + numbers.below([5, 1000][numbers.0 as usize % 2]) as u32;
        let least = probes * (slot + 2 * guard) + 1;
        if least > 30_000 {
            continue;
        }
        let slots = Slots {
            probes,
            slot,
            guard,
            period: least + numbers.below((30_001 - least) as usize) as u32,
        };
        let table = write_table(&plan(&slots).unwrap());
        for spread in [0, guard / 2, guard - 1] {
            assert_eq!(calls::check_spread(&table, spread), Ok(()), "{slots:?}");
        }
        let refusal = calls::check_spread(&table, guard).unwrap_err();
        assert_eq!(refusal, refused(16, 0), "{slots:?}");
        assert_eq!(calls::largest_spread(&table), Ok(guard - 1), "{slots:?}");
    }
}

#[test]
fn nineteen_after_3_and_before_4() {
    let table = probe_and_hub();
    let at = |bytes: &[u8], spread| verdict_within(bytes, spread).unwrap_err();
    assert_eq!(at(&table, MAX_SPREAD + 1), refused(19, 255));
    assert_eq!(at(&table, u32::MAX), refused(19, 255));
    assert_eq!(at(&table, MAX_SPREAD), refused(15, 0));
    let mut without_components = table.clone();
    without_components[3] = 0;
    assert_eq!(at(&without_components, u32::MAX), refused(3, 255));
    let mut long_component = table.clone();
    long_component[7] = 9;
    assert_eq!(at(&long_component, MAX_SPREAD + 1), refused(19, 255));
    assert_eq!(at(&long_component, MAX_SPREAD), refused(4, 0));
}

#[test]
fn twenty_after_14() {
    let slots = Slots {
        probes: 1,
        slot: 2,
        guard: 3,
        period: 20,
    };
    let table = write_table(&plan(&slots).unwrap());
    let mut bytes = [77; AMPLE];
    let mut run = |choices: &[u8], offsets: &[u32]| {
        calls::run_apart(&table, choices, 2, offsets, &mut bytes).map(|(outcome, _)| outcome.end)
    };
    assert_eq!(run(&[], &[3]), Err(refused(20, 255)));
    assert_eq!(run(&[], &[2, 3]), Err(refused(20, 255)));
    assert_eq!(run(&[], &[2, 2, 3]), Ok(End::UsedUp));
    assert_eq!(run(&[TICK; 1_000_000], &[3]), Err(refused(20, 255)));
    assert_eq!(run(&[TICK; 1_000_001], &[3]), Err(refused(14, 255)));
    assert_eq!(run(&[0], &[1, 1]), Ok(End::NotAllowed));
    assert_eq!(run(&[TICK, 0], &[1, 1]), Ok(End::UsedUp));
    assert!(bytes.iter().all(|byte| *byte == 77));
}
