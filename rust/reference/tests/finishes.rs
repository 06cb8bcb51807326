//! Finish ticks in the observations, wish 9 of document 02: its vectors, cases worked
//! out by hand for each kind of work, and the log of works as another source.

mod common;

use common::*;
use reference::checks::verdict_within;
use reference::program::program;
use reference::run::*;
use reference::schedule::{schedule, Passage};
use reference::table::*;

#[test]
fn all_vectors() {
    let all = vectors_of_finishes();
    assert_eq!(all.len(), 84);
    for vector in all {
        let words: Vec<&str> = vector.request.iter().map(String::as_str).collect();
        let given = match words[..] {
            ["lent", bytes, "run", ref words @ ..] => run_answer(words, bytes.parse().unwrap()),
            ["run", ref words @ ..] => run_answer(words, AMPLE),
            _ => panic!("no such request: {words:?}"),
        };
        assert_eq!(told(given), vector.answer, "{}", vector.name);
    }
}

/// The finish tick in an observation.
fn finish(observation: &[u8; OBSERVATION]) -> u32 {
    u32::from_be_bytes(*observation[FINISH_TICK..].first_chunk().unwrap())
}

/// What a node's observations have as their finish ticks.
fn finishes_of(run: &Run, node: u8) -> Vec<u32> {
    let own = run.observations.iter().filter(|o| o[0] == node);
    own.map(finish).collect()
}

/// Runs a table with offsets, without asking whether checks 10 to 12 accept it.
fn run_of(table: &Table, offsets: &[u32], choices: &[u8]) -> Run {
    let passages = schedule(table).unwrap();
    run_apart(table, &passages, &program(table), choices, offsets).unwrap()
}

/// So many choices of a node, or ticks.
fn times(choice: u8, count: usize) -> Vec<u8> {
    vec![choice; count]
}

/// One node with windows of several ticks: two updates from 2 to 6, then none from 8
/// to 10, again and again.
fn worker() -> Table {
    let updates = internal(&[(Operation::Set, 5), (Operation::Add, 1)]);
    let edges = vec![edge(0, 1, 0, 2, updates), edge(1, 0, 1, 8, internal(&[]))];
    table(40, vec![component(&[6, 10], edges)])
}

/// Its first sleep, the set at tick 2, the add at 3, done at 5; then the second sleep at
/// 8 and done at 10, and the third sleep at 12.
#[test]
fn a_work_is_finished_by_done() {
    let choices = [
        times(0, 5),
        times(TICK, 2),
        times(0, 2),
        times(TICK, 1),
        times(0, 1),
        times(TICK, 2),
        // Done, age, enter, choose, then trial, high, low, keep and take.
        times(0, 9),
        times(TICK, 3),
        times(0, 1),
        times(TICK, 2),
        times(0, 9),
        times(TICK, 2),
        times(0, 1),
    ];
    let run = run_of(&worker(), &[], &choices.concat());
    assert_eq!(run.outcome.end, End::UsedUp);
    assert_eq!(finishes_of(&run, 0), [NO_WORK, 5, 10]);
    let ticks: Vec<u8> = run.observations.iter().map(|o| o[7]).collect();
    assert_eq!(ticks, [2, 8, 12]);
    let last = "000000000000000c000000020000000000000000000000000006000000000000";
    assert_eq!(hex(&run.observations[2]), format!("{last}0000000a"));
}

/// The same with an offset of 7: the node's own ticks are the same.
#[test]
fn the_finish_tick_is_by_the_own_clock() {
    let choices = [
        times(TICK, 7),
        times(0, 5),
        times(TICK, 2),
        times(0, 3),
        times(TICK, 1),
        times(0, 9),
        times(TICK, 5),
        times(0, 1),
    ];
    let run = run_of(&worker(), &[7], &choices.concat());
    assert_eq!((run.outcome.end, run.outcome.tick), (End::UsedUp, 15));
    assert_eq!(finishes_of(&run, 0), [NO_WORK, 3]);
    assert_eq!(run.log, [Event::Done { node: 0, tick: 10 }]);
}

/// Both nodes to their first sleep, the hub's sleep at its 2, the probe's at its 3.
fn to_the_message(offsets: [usize; 2]) -> Vec<u8> {
    let mut choices = Vec::new();
    for tick in 0..=offsets[0] + 3 {
        for node in [0, 1] {
            let own = tick.checked_sub(offsets[node]);
            let count = match own {
                Some(0) => 5,
                Some(own) if own == 3 - node => 1,
                _ => 0,
            };
            choices.extend(times(node as u8, count));
        }
        choices.push(TICK);
    }
    choices.pop();
    choices
}

/// "by its own clock, for a receive the message": of one message the two nodes note
/// different numbers where they woke apart.
#[test]
fn a_message_has_two_finish_ticks() {
    for (offsets, ticks) in [([0, 0], [4, 4]), ([1, 0], [4, 5]), ([0, 1], [4, 3])] {
        let mut choices = to_the_message(offsets);
        // The message a tick later, then both nodes to their next sleep, 8 and 9.
        choices.extend([TICK, 0]);
        choices.extend([times(0, 8), times(1, 8), times(TICK, 4)].concat());
        let order = match offsets {
            [0, 0] => vec![0, TICK, 1],
            [1, 0] => vec![0, 1],
            _ => vec![0, TICK, TICK, 1],
        };
        choices.extend(order);
        let offsets = offsets.map(|offset| offset as u32);
        let run = run_of(&probe_and_hub_table(), &offsets, &choices);
        assert_eq!(run.outcome.end, End::UsedUp, "{offsets:?}: {run:?}");
        assert_eq!(finishes_of(&run, 0), [NO_WORK, ticks[0]], "{offsets:?}");
        assert_eq!(finishes_of(&run, 1), [NO_WORK, ticks[1]], "{offsets:?}");
    }
}

/// "for a receive the message or timeout": a listen from 2 to 6 that hears nothing, then
/// work from 9 to 10.
#[test]
fn a_timeout_finishes_the_work() {
    let mut table = probe_and_hub_table();
    table.components.remove(0);
    for offset in [0, 1, 7] {
        let choices = [
            times(TICK, offset as usize),
            times(0, 5),
            times(TICK, 2),
            times(0, 1),
            times(TICK, 4),
            times(0, 9),
            times(TICK, 3),
            times(0, 1),
        ];
        let run = run_of(&table, &[offset], &choices.concat());
        assert_eq!(run.outcome.end, End::UsedUp);
        assert_eq!(finishes_of(&run, 0), [NO_WORK, 6], "{offset}");
    }
}

/// What the log says of one node: its works at the ticks of its own clock.
fn in_log(run: &Run, node: u8, offset: u32) -> Vec<u32> {
    let own = run.log.iter().filter_map(|event| match *event {
        Event::Done { node: own, tick } | Event::Timeout { node: own, tick } => {
            (own == node).then_some(tick)
        }
        Event::Message {
            sender,
            receiver,
            tick,
            ..
        } => [sender, receiver].contains(&node).then_some(tick),
    });
    own.map(|tick| tick - offset).collect()
}

/// Holds each node's finish ticks to the log, and each to the window of the passage
/// before: how many there are.
fn hold(run: &Run, passages: &[Passage], offsets: &[u32], nodes: usize) -> usize {
    let mut count = 0;
    for node in 0..nodes as u8 {
        let offset = offsets.get(usize::from(node)).copied().unwrap_or(0);
        let found = finishes_of(run, node);
        let mut expected = vec![NO_WORK];
        expected.extend(in_log(run, node, offset));
        assert!(expected.starts_with(&found), "{found:?} {expected:?}");
        let windows = passages.iter().filter(|p| p.component == node);
        for (finish, passage) in found.iter().skip(1).zip(windows) {
            assert!((passage.ready..=passage.end).contains(finish));
            count += 1;
        }
    }
    count
}

#[test]
fn the_runs_of_all_vectors() {
    let all = [vectors(), vectors_apart(), vectors_of_finishes()];
    let (mut runs, mut count) = (0, 0);
    for vector in all.iter().flatten() {
        let words: Vec<&str> = vector.request.iter().map(String::as_str).collect();
        let ["run", table, choices, ref more @ ..] = words[..] else {
            continue;
        };
        let spread = more.first().map_or(0, |word| word.parse().unwrap());
        let numbers = |word: &&str| word.split(',').map(|n| n.parse().unwrap()).collect();
        let offsets: Vec<u32> = more.get(1).map_or(Vec::new(), numbers);
        let Ok((table, passages)) = verdict_within(&unhex(table), spread) else {
            continue;
        };
        let program = program(&table);
        let run = run_apart(&table, &passages, &program, &unhex(choices), &offsets).unwrap();
        count += hold(&run, &passages, &offsets, table.components.len());
        runs += 1;
    }
    println!("{runs} runs, {count} finish ticks");
    assert!(runs > 300 && count > 1000, "{runs} {count}");
}
