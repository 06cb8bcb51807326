//! Pairs of ticks, schedules and runs to any horizon: the vectors, hand-made cases, and
//! what holds of every table.

mod common;

use common::*;
use reference::calls;
use reference::checks::verdict;
use reference::horizon::{schedule_to, Stay};
use reference::period::{pair, Pair};
use reference::plan::{plan, Slots};
use reference::run::{End, OBSERVATION, TICK};
use reference::schedule::Passage;
use reference::table::*;

/// The answer to `long` with so many bytes lent.
fn long_answer(words: &[String], lent: usize) -> Result<String, Refusal> {
    let mut bytes = vec![77; lent];
    let horizon = words[2].parse().unwrap();
    let answer = calls::run_to(&unhex(&words[0]), &unhex(&words[1]), horizon, &mut bytes);
    run_told(answer, &bytes)
}

fn period_answer(table: &str) -> Result<String, Refusal> {
    let pair = calls::period(&unhex(table))?;
    Ok(pair.map_or("none".to_string(), |pair| {
        format!("{} {}", pair.from, pair.to)
    }))
}

#[test]
fn all_vectors() {
    let mut counts = [0; 2];
    for vector in vectors_of_periods() {
        let words = &vector.request;
        let given = match (words[0].as_str(), words.len()) {
            ("period", 2) => {
                counts[0] += 1;
                period_answer(&words[1])
            }
            ("long", 4) => {
                counts[1] += 1;
                long_answer(&words[1..], AMPLE)
            }
            ("lent", 6) => {
                counts[1] += 1;
                long_answer(&words[3..], words[1].parse().unwrap())
            }
            _ => panic!("neither period nor long: {words:?}"),
        };
        assert_eq!(told(given), vector.answer, "{}", vector.name);
    }
    assert_eq!(counts, [64, 75]);
}

/// The tables of the vectors, each once.
fn tables() -> Vec<Vec<u8>> {
    let of = |vector: &Vector| unhex(vector.request.iter().find(|w| w.len() > 30).unwrap());
    let vectors = vectors_of_periods();
    let named = vectors.iter().filter(|v| v.answer != "refused 1 255");
    let mut all: Vec<Vec<u8>> = named.map(of).collect();
    all.sort();
    all.dedup();
    all
}

/// The first pair by every tick below H, with the state told from the last passage that
/// each component has entered by then: at a tick at which one does not enter its entry
/// is an earlier one.
fn by_every_tick(table: &Table, passages: &[Passage]) -> Option<Pair> {
    let horizon = u32::from(table.horizon);
    let at = |tick: u32| -> Vec<Passage> {
        let numbers = 0..table.components.len();
        let last = |number| {
            let own = |p: &&Passage| usize::from(p.component) == number && p.entry <= tick;
            *passages.iter().rfind(own).unwrap()
        };
        numbers.map(last).collect()
    };
    let enter = |tick: &u32| at(*tick).iter().all(|p| p.entry == *tick);
    let joint: Vec<u32> = (0..horizon).filter(enter).collect();
    let values = |tick: u32| -> Vec<_> {
        let told = |p: &Passage| (p.location, p.clocks, p.variables);
        at(tick).iter().map(told).collect()
    };
    let pairs = joint
        .iter()
        .flat_map(|to| joint.iter().map(move |from| (*from, *to)));
    let mut like = pairs.filter(|(from, to)| from < to && values(*from) == values(*to));
    like.next().map(|(from, to)| Pair { from, to })
}

#[test]
fn first_pair_by_every_tick() {
    let mut counts = [0; 2];
    for_each_schedule(1500, |table, passages| {
        if table.horizon <= 200 && passages.len() <= 200 {
            let found = pair(table, passages);
            assert_eq!(found, by_every_tick(table, passages));
            counts[usize::from(found.is_some())] += 1;
        }
    });
    assert!(counts[0] > 100 && counts[1] > 30, "{counts:?}");
}

/// Passages of one schedule as those of the other: the seven fields.
fn same(stay: &Stay, passage: &Passage) -> bool {
    let own = &stay.passage;
    (own.component, own.edge, own.location, own.message)
        == (
            passage.component,
            passage.edge,
            passage.location,
            passage.message,
        )
        && (stay.entry, stay.ready(), stay.end())
            == (
                passage.entry.into(),
                passage.ready.into(),
                passage.end.into(),
            )
}

/// To the table's own horizon it is the table's schedule, whatever the table.
#[test]
fn own_horizon() {
    for_each_schedule(1500, |table, passages| {
        let horizon = u64::from(table.horizon);
        let stays = schedule_to(table, horizon, passages.len()).unwrap();
        assert_eq!(stays.len(), passages.len());
        assert!(stays.iter().zip(passages).all(|(one, two)| same(one, two)));
        assert!(schedule_to(table, horizon, passages.len() - 1).is_none());
    });
}

/// To a shorter one it has the passages entered below it, and to a longer one it is the
/// schedule of a table that differs in H alone.
#[test]
fn shorter_and_longer_horizons() {
    let mut longer = 0;
    for bytes in tables() {
        let Ok((table, passages)) = verdict(&bytes) else {
            continue;
        };
        for horizon in 1..table.horizon.min(80) {
            let stays = schedule_to(&table, horizon.into(), 1024).unwrap();
            let entered = passages.iter().filter(|p| p.entry < horizon.into());
            assert_eq!(stays.len(), entered.count());
        }
        if pair(&table, &passages).is_none() {
            continue;
        }
        for more in [1, 2, 7, 50, 333] {
            let horizon = table.horizon.saturating_add(more).min(60_000);
            let other = Table {
                horizon,
                ..table.clone()
            };
            // Checks 8 to 12 are passed there too, and 7 if there are so few.
            let stays = schedule_to(&table, horizon.into(), 4096).unwrap();
            match verdict(&write_table(&other)) {
                Ok((_, passages)) => {
                    assert!(stays.len() == passages.len());
                    assert!(stays.iter().zip(&passages).all(|(one, two)| same(one, two)));
                    longer += 1;
                }
                Err(refusal) => assert!(refusal.number == 7 && stays.len() > 1024),
            }
        }
    }
    assert!(longer > 100, "{longer}");
}

/// Checks 10 to 12 by ticks, over a schedule to any horizon.
fn independent(table: &Table, stays: &[Stay], horizon: u64) -> bool {
    let meet = |one: &Stay, two: &Stay| {
        one.passage.component != two.passage.component
            && one.ready() <= two.end()
            && two.ready() <= one.end()
    };
    let edge = |stay: &Stay| stay.passage.edge_in(table);
    let channel = |stay: &Stay| match edge(stay).action {
        Action::Send(channel) if stay.ready() < horizon => Some(channel),
        _ => None,
    };
    let hears = |stay: &Stay, channel: u8| edge(stay).listens_to(channel);
    stays.iter().all(|one| {
        let near = || stays.iter().filter(|other| meet(one, other));
        let sends_on = |c: u8| near().filter(move |other| channel(other) == Some(c));
        match channel(one) {
            Some(own) => {
                let band = |c| table.band(c) == table.band(own);
                let mut listeners = near().filter(|other| hears(other, own));
                let good = listeners
                    .next()
                    .is_some_and(|l| l.ready() < one.ready() && one.end() < l.end());
                let alone = !near().any(|other| channel(other).is_some_and(band));
                good && listeners.next().is_none() && alone
            }
            None => {
                let channels = (0..table.channels).filter(|c| hears(one, *c));
                channels.map(|c| sends_on(c).count()).sum::<usize>() <= 1
            }
        }
    })
}

/// "Where it reports one, the network is [...] free of a global scheduler for every
/// later horizon too", and from b on the passages are those from a on.
#[test]
fn every_later_horizon() {
    let mut tried = 0;
    for bytes in tables() {
        let Ok((table, passages)) = verdict(&bytes) else {
            continue;
        };
        let Some(Pair { from, to }) = pair(&table, &passages) else {
            continue;
        };
        let (from, to) = (u64::from(from), u64::from(to));
        for horizon in [to + 1, to + 5, 3 * to + 2, to + 7 * (to - from), 400] {
            let Some(stays) = schedule_to(&table, horizon.max(table.horizon.into()), 3000) else {
                continue;
            };
            assert!(independent(
                &table,
                &stays,
                horizon.max(table.horizon.into())
            ));
            let left = |tick: u64| stays.iter().filter(move |stay| stay.entry >= tick);
            for (early, late) in left(from).zip(left(to)) {
                assert_eq!(early.entry + (to - from), late.entry);
                let (one, two) = (&early.passage, &late.passage);
                assert_eq!((one.component, one.edge), (two.component, two.edge));
                assert_eq!(
                    (one.clocks, one.variables, one.ready, one.end),
                    (two.clocks, two.variables, two.ready, two.end)
                );
            }
            tried += 1;
        }
    }
    assert!(tried > 150, "{tried}");
}

/// "Every plan of Wish 4 has such a pair, 0 and p."
#[test]
fn every_plan_has_its_pair() {
    let mut numbers = Numbers(88172645463325252);
    for _ in 0..60 {
        let (probes, slot) = (1 + numbers.below(7) as u32, 1 + numbers.below(20) as u32);
        let guard = 1 + numbers.below(20) as u32;
        let period = probes * (slot + 2 * guard) + 1 + numbers.below(300) as u32;
        let slots = Slots {
            probes,
            slot,
            guard,
            period,
        };
        let table = write_table(&plan(&slots).unwrap());
        let found = Pair {
            from: 0,
            to: period,
        };
        assert_eq!(calls::period(&table), Ok(Some(found)));
    }
}

/// One component that passes every 30,000 ticks enters at 0 and 30,000 below 60,000,
/// one that passes every 60,000 ticks at 0 alone: it has no pair.
#[test]
fn the_largest_horizon() {
    let slow = write_table(&table(60_000, vec![steady(30_000)]));
    let found = Pair {
        from: 0,
        to: 30_000,
    };
    assert_eq!(calls::period(&slow), Ok(Some(found)));
    let passages = u32::MAX as usize / 30_000 + 1;
    let mut bytes = vec![77; passages * OBSERVATION];
    let ticks = [TICK; 3];
    // Nobody works, so the node is late with the first tick, whatever the horizon.
    let (outcome, count) = calls::run_to(&slow, &ticks, u32::MAX, &mut bytes).unwrap();
    assert_eq!((outcome.end, outcome.tick, count), (End::Late, 1, 0));
    let short = &mut bytes[1..];
    assert_eq!(
        calls::run_to(&slow, &[], u32::MAX, short),
        Err(refused(13, 255))
    );
    let never = write_table(&table(60_000, vec![steady(60_000)]));
    assert_eq!(calls::period(&never), Ok(None));
    assert_eq!(
        calls::run_to(&never, &[], 60_001, &mut bytes),
        Err(refused(29, 255))
    );
}

/// The statements of one node in a period of `steady`: trial, high, low, keep and take,
/// then sleep, done, zero, enter and choose; then the ticks up to the next entry.
fn one_period(ticks: usize) -> Vec<u8> {
    let mut choices = vec![0; 10];
    choices.extend(std::iter::repeat_n(TICK, ticks));
    choices
}

/// More than 1,000,000 choices, more than 60,000 ticks and more than 1,024 passages in
/// one run: "check 14 doesn't apply".
#[test]
fn more_of_everything() {
    let own = write_table(&table(8, vec![steady(4)]));
    let choices = one_period(4).repeat(90_000);
    let mut bytes = vec![77; 100_001 * OBSERVATION];
    let (outcome, count) = calls::run_to(&own, &choices, 400_001, &mut bytes).unwrap();
    assert_eq!((outcome.end, outcome.tick), (End::UsedUp, 360_000));
    assert_eq!(outcome.used, choices.len() as u64);
    assert!(choices.len() > calls::MAX_CHOICES && count == 90_000);
    let last = &bytes[(count - 1) * OBSERVATION..count * OBSERVATION];
    assert_eq!(&last[4..8], &359_996u32.to_be_bytes());
    assert_eq!(&last[32..36], &359_992u32.to_be_bytes());
}

/// To the table's own horizon a run is the run without one, for any choices.
#[test]
fn same_at_home() {
    for vector in vectors_of_finishes().iter().chain(&vectors_of_periods()) {
        let at = match vector.request[0].as_str() {
            "run" | "long" => 1,
            _ => continue,
        };
        let (bytes, choices) = (unhex(&vector.request[at]), unhex(&vector.request[at + 1]));
        let Ok((table, _)) = verdict(&bytes) else {
            continue;
        };
        let horizon = u32::from(table.horizon);
        let (mut one, mut two) = (vec![77; AMPLE], vec![77; AMPLE]);
        let without = calls::run(&bytes, &choices, &mut one);
        let to_it = calls::run_to(&bytes, &choices, horizon, &mut two);
        assert_eq!((without, one), (to_it, two));
    }
}
