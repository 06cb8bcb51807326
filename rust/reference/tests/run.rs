//! The run: each rule for choices, the four ways to end, observations.

mod common;

use common::*;
use reference::program::{program, Op};
use reference::run::*;
use reference::schedule::schedule;
use reference::table::*;

/// Choices from words: `0` a node, `t` a tick, `1x5` five times.
fn choices(text: &str) -> Vec<u8> {
    let mut all = Vec::new();
    for word in text.split(' ') {
        let (what, count) = word.split_once('x').unwrap_or((word, "1"));
        let choice = if what == "t" {
            TICK
        } else {
            what.parse().unwrap()
        };
        all.extend(std::iter::repeat_n(choice, count.parse().unwrap()));
    }
    all
}

/// Runs a table without asking whether checks 10 to 12 accept it.
fn run_of(table: &Table, text: &str) -> Run {
    let passages = schedule(table).unwrap();
    run(table, &passages, &program(table), &choices(text)).unwrap()
}

fn end_of(table: &Table, text: &str) -> (End, u8, u32, u64) {
    let Outcome {
        end,
        node,
        tick,
        used,
    } = run_of(table, text).outcome;
    (end, node, tick, used)
}

fn example(text: &str) -> (End, u8, u32, u64) {
    end_of(&probe_and_hub_table(), text)
}

/// Both nodes stand at their first sleep, at tick 0.
const ASLEEP: &str = "0x5 1x5";
/// The hub listens, the probe is about to send, at tick 3.
const SENDING: &str = "0x5 1x5 tx2 1 t 0";

#[test]
fn to_the_horizon() {
    let round = "0x5 1x5 tx2 1 t 0 t 0 0x3 1x3";
    let rest = "0x5 1x5 tx4 0 t 1 0x4 1x5";
    let text = format!("{round} {rest} t {round} {rest} t 0x99");
    let run = run_of(&probe_and_hub_table(), &text);
    let used = choices(&text).len() as u64 - 99;
    let expected = Outcome {
        end: End::Horizon,
        node: 255,
        tick: 20,
        used,
    };
    assert_eq!(run.outcome, expected);
    let ticks: Vec<u8> = run.observations.iter().map(|o| o[7]).collect();
    assert_eq!(ticks, [2, 3, 8, 9, 12, 13, 18, 19]);
    assert_eq!(run.log.len(), 6);
}

#[test]
fn observations_and_log() {
    let run = run_of(&probe_and_hub_table(), "0x5 1x5 tx2 1 t 0 t 0");
    let written: Vec<String> = run.observations.iter().map(|o| hex(o)).collect();
    let zeros = "0".repeat(40);
    assert_eq!(
        written,
        [
            format!("010000000000000200000002{zeros}ffffffff"),
            format!("000000000000000300000003{zeros}ffffffff"),
        ]
    );
    let message = Event::Message {
        sender: 0,
        receiver: 1,
        channel: 0,
        tick: 4,
    };
    assert_eq!(run.log, [message]);
}

#[test]
fn used_up_at_each_length() {
    let all = choices("0x5 1x5 tx2 1 t 0 t 0");
    let table = probe_and_hub_table();
    let passages = schedule(&table).unwrap();
    for length in 0..=all.len() {
        let run = run(&table, &passages, &program(&table), &all[..length]).unwrap();
        let ticks = all[..length].iter().filter(|c| **c == TICK).count();
        assert_eq!(run.outcome.end, End::UsedUp);
        assert_eq!(run.outcome.tick, ticks as u32);
        assert_eq!(run.outcome.used, length as u64);
    }
}

#[test]
fn bytes_that_are_no_choice() {
    for byte in [2, 3, 7, 8, 100, 254] {
        let text = format!("0 {byte} 0");
        assert_eq!(example(&text), (End::NotAllowed, 255, 0, 1));
    }
}

#[test]
fn sleep_only_at_its_tick() {
    let not_allowed = |tick, used| (End::NotAllowed, 255, tick, used);
    assert_eq!(example(&format!("{ASLEEP} 1")), not_allowed(0, 10));
    assert_eq!(example(&format!("{ASLEEP} t 1")), not_allowed(1, 11));
    assert_eq!(example(&format!("{ASLEEP} tx2 0")), not_allowed(2, 12));
    assert_eq!(example(&format!("{ASLEEP} tx3")), not_allowed(2, 12));
    assert_eq!(
        example(&format!("{ASLEEP} tx2 1 t")),
        (End::UsedUp, 255, 3, 14)
    );
}

#[test]
fn listen_only_at_its_end() {
    let listening = |more: &str| {
        let mut table = probe_and_hub_table();
        table.components[0].locations[0].bound = 50;
        table.components[0].edges[0].clock_bounds = [clock_bound(30, None)].into_iter().collect();
        end_of(&table, &format!("0x5 1x5 tx2 1 {more}"))
    };
    assert_eq!(listening("1"), (End::NotAllowed, 255, 2, 13));
    assert_eq!(listening("tx3 1"), (End::NotAllowed, 255, 5, 16));
    assert_eq!(listening("tx5"), (End::NotAllowed, 255, 6, 17));
    assert_eq!(listening("tx4 1"), (End::UsedUp, 255, 6, 18));
    // After the timeout: age, enter L2, choose, trial, high, low, keep e2.
    assert_eq!(listening("tx4 1x9"), (End::UsedUp, 255, 6, 26));
    assert_eq!(listening("tx4 1x10"), (End::NotAllowed, 255, 6, 26));
}

#[test]
fn send_wants_a_listener() {
    assert_eq!(example(&format!("{SENDING} 0")), (End::UsedUp, 255, 3, 16));
    let with_hub = |change: fn(&mut Component), text: &str| {
        let mut table = probe_and_hub_table();
        table.channels = 2;
        change(&mut table.components[1]);
        end_of(&table, text)
    };
    let other_channel = with_hub(
        |hub| hub.edges[0].action = receive(&[(1, 1)]),
        &format!("{SENDING} 0"),
    );
    assert_eq!(other_channel, (End::NotAllowed, 255, 3, 15));
    let low = |hub: &mut Component, low| {
        hub.edges[0].clock_bounds = [clock_bound(low, None)].into_iter().collect()
    };
    let mut table = probe_and_hub_table();
    low(&mut table.components[1], 3);
    let same = end_of(&table, "0x5 1x5 tx3 1 0 0");
    assert_eq!(same, (End::UsedUp, 255, 3, 16), "since the same tick");
    low(&mut table.components[1], 4);
    let shorter = end_of(&table, "0x5 1x5 tx3 0 t 1 0");
    assert_eq!(shorter, (End::NotAllowed, 255, 4, 16), "since a later tick");
}

#[test]
fn a_listener_takes_one_message() {
    let mut table = probe_and_hub_table();
    table.components.push(table.components[0].clone());
    let text = "0x5 1x5 2x5 tx2 1 t 0 2 0";
    assert_eq!(end_of(&table, text), (End::UsedUp, 255, 3, 22));
    let second = format!("{text} 2");
    assert_eq!(end_of(&table, &second), (End::NotAllowed, 255, 3, 22));
}

#[test]
fn take_with_nothing_kept() {
    let mut table = probe_and_hub_table();
    table.horizon = 5;
    table.components.truncate(1);
    table.channels = 0;
    let probe = &mut table.components[0];
    probe.edges[0].action = internal(&[]);
    probe.edges.truncate(1);
    // L1 has no edge and is entered at 5; its block is one take.
    assert_eq!(end_of(&table, "0x5 tx3 0x5"), (End::UsedUp, 255, 3, 13));
    assert_eq!(end_of(&table, "0x5 tx3 0x6"), (End::NotAllowed, 255, 3, 13));
    assert_eq!(
        end_of(&table, "0x5 tx3 0x5 tx9"),
        (End::Horizon, 255, 5, 15)
    );
}

#[test]
fn late_work() {
    let late = |more: &str| example(&format!("{SENDING} {more}"));
    assert_eq!(late("tx2"), (End::UsedUp, 255, 5, 17));
    assert_eq!(late("tx3"), (End::Late, 0, 6, 18));
    assert_eq!(late("tx3 0x9"), (End::Late, 0, 6, 18));
    assert_eq!(late("tx2 0 t"), (End::UsedUp, 255, 6, 19));
}

#[test]
fn late_before_a_sleep() {
    assert_eq!(example("tx2"), (End::UsedUp, 255, 2, 2));
    assert_eq!(example("tx3"), (End::Late, 1, 3, 3));
    assert_eq!(example("0x5 1x4 tx3"), (End::Late, 1, 3, 12));
    assert_eq!(example("1x5 tx2 1 tx2"), (End::Late, 0, 4, 10));
    // After the work: the probe's next ready is 8.
    let idle = format!("{SENDING} 0 1x7 tx5");
    assert_eq!(example(&idle), (End::UsedUp, 255, 8, 28));
    assert_eq!(example(&format!("{idle} t")), (End::Late, 0, 9, 29));
}

#[test]
fn the_lowest_late_node_is_named() {
    let mut table = probe_and_hub_table();
    table.components[1].edges[0].clock_bounds = [clock_bound(3, None)].into_iter().collect();
    assert_eq!(end_of(&table, "tx4"), (End::Late, 0, 4, 4));
}

#[test]
fn which_end_comes_first() {
    // Not allowed before late: the hub's sleep is due, the probe is behind.
    assert_eq!(example("1x5 tx3"), (End::NotAllowed, 255, 2, 7));
    let mut table = probe_and_hub_table();
    table.horizon = 4;
    // Late before horizon, horizon before used up.
    assert_eq!(end_of(&table, "1x5 tx2 1 tx2"), (End::Late, 0, 4, 10));
    let all = "0x5 1x5 tx2 1 t 0 t";
    assert_eq!(end_of(&table, all), (End::Horizon, 255, 4, 16));
    assert_eq!(
        end_of(&table, &format!("{all} 9")),
        (End::Horizon, 255, 4, 16)
    );
}

#[test]
fn absent_clocks_and_variables_are_0() {
    let mut table = probe_and_hub_table();
    table.channels = 0;
    table.components.truncate(1);
    let probe = &mut table.components[0];
    probe.clocks = 3;
    probe.variables = 2;
    probe.edges[0].action = internal(&[(Operation::Set, -2)]);
    // After e0: three ages, enter, choose; e1 resets x0 alone.
    let text = "0x5 tx3 0 0x7 0x5 tx5 0";
    let run = run_of(&table, text);
    assert_eq!(run.outcome.end, End::UsedUp);
    let first = "0000000000000003000000030000000300000003000000000000000000000000ffffffff";
    let second = "000101000000000800000008000000080000000800000000fffe00000000000000000003";
    let written: Vec<String> = run.observations.iter().map(|o| hex(o)).collect();
    assert_eq!(written, [first, second]);
    let done = Event::Done { node: 0, tick: 3 };
    assert_eq!(run.log, [done]);
}

/// "After a choice, one node's registers after the statement and nothing of
/// any other node has changed, send and tick excepted."
#[test]
fn a_choice_changes_one_node() {
    let table = probe_and_hub_table();
    let (passages, bytes) = (schedule(&table).unwrap(), program(&table));
    let mut machine = Machine::new(&table, &passages, &bytes).unwrap();
    for choice in choices("0x5 1x5 tx2 1 t 0 t 0 0x8 1x8 tx4 0x3") {
        let before: Vec<_> = machine.nodes().iter().map(|n| n.registers).collect();
        let sending =
            choice != TICK && machine.nodes()[choice as usize].statement().unwrap().op == Op::Send;
        machine.choose(choice).unwrap();
        for (number, node) in machine.nodes().iter().enumerate() {
            let touched = number == choice as usize || sending;
            assert_eq!(node.registers != before[number], touched);
        }
    }
    let before: Vec<_> = machine.nodes().iter().map(|n| n.registers).collect();
    for choice in [2, 99, 254] {
        assert_eq!(machine.choose(choice), None);
    }
    let after: Vec<_> = machine.nodes().iter().map(|n| n.registers).collect();
    assert_eq!(before, after);
}

#[test]
fn programs_that_cannot_be_opened() {
    let table = probe_and_hub_table();
    let (passages, bytes) = (schedule(&table).unwrap(), program(&table));
    for length in 0..bytes.len() {
        assert!(Machine::new(&table, &passages, &bytes[..length]).is_none());
    }
    let mut fewer = bytes.clone();
    fewer[3] = 1;
    assert!(Machine::new(&table, &passages, &fewer).is_none());
}
