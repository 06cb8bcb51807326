//! Simulated runs: the vectors, runs written out by hand, and what holds of any run.

mod common;

use common::*;
use reference::calls;
use reference::checks::check_messages;
use reference::program::program;
use reference::run::{run, End, Event, Outcome, Run, TICK};
use reference::schedule::{schedule, Passage};
use reference::simulation::*;
use reference::table::*;

const fn work(lo: u32, hi: u32) -> WorkTimes {
    WorkTimes { lo, hi }
}

/// As the vectors write it.
fn told(answer: Result<Simulation, Refusal>) -> String {
    match answer {
        Ok(simulation) => simulation.to_string(),
        Err(refusal) => format!("refused {} {}", refusal.number, refusal.component),
    }
}

#[test]
fn all_vectors() {
    let mut counts = [0; 2];
    for vector in vectors_of_simulations() {
        assert_eq!(vector.request[0], "sim");
        let table = unhex(&vector.request[1]);
        let number = |word: &String| word.parse::<u32>().unwrap();
        let numbers: Vec<u32> = vector.request[2..].iter().map(number).collect();
        let (lo, hi, runs, seed) = match numbers[..] {
            [lo, hi, runs] => (lo, hi, runs, None),
            [lo, hi, runs, seed] => (lo, hi, runs, Some(seed)),
            _ => panic!("three or four numbers: {numbers:?}"),
        };
        let given = told(calls::simulate(&table, work(lo, hi), runs, seed));
        assert_eq!(given, vector.answer, "{}", vector.name);
        counts[usize::from(given.starts_with("refused"))] += 1;
    }
    assert_eq!(counts, [88, 16]);
}

/// The first numbers of Marsaglia's generator from its fixed seed, as published.
#[test]
fn the_first_draws() {
    let mut generator = Generator::new();
    assert_eq!(generator.state(), 2_463_534_242);
    let drawn = [(); 4].map(|()| generator.draw());
    assert_eq!(
        drawn,
        [723_471_715, 2_497_366_906, 2_064_144_800, 2_008_045_182]
    );
    assert_eq!(generator.state(), 2_008_045_182);
    assert_eq!(Generator::seeded(1).draw(), 270_369);
}

/// Choices from words: `0` a node, `t` a tick, `1x5` five times.
fn choices(text: &str) -> Vec<u8> {
    let mut all = Vec::new();
    for word in text.split(' ') {
        let (what, count) = word.split_once('x').unwrap_or((word, "1"));
        let choice = what.parse().unwrap_or(TICK);
        all.extend(std::iter::repeat_n(choice, count.parse().unwrap()));
    }
    all
}

/// The first run of a table with work of so many ticks.
fn first_run(table: &Table, ticks: u32) -> SimulatedRun {
    let passages = schedule(table).unwrap();
    Simulator::new(table, &passages, work(ticks, ticks), Generator::new()).run()
}

fn outcome(end: End, node: u8, tick: u32, choices: &[u8]) -> Outcome {
    let used = choices.len() as u64;
    Outcome {
        end,
        node,
        tick,
        used,
    }
}

/// Work without a tick: all is finished where it begins. The probe sleeps at 3, 8, 13
/// and 18, the hub at 2, 9, 12 and 19; nothing is done at tick 20.
#[test]
fn the_example_without_work() {
    let run = first_run(&probe_and_hub_table(), 0);
    let round = "tx2 1 t 0x10 1x8 tx5 0x10 t 1x11 t";
    let expected = choices(&format!("0x5 1x5 {round} {round}"));
    assert_eq!(run.choices, expected);
    assert_eq!(run.outcome, outcome(End::Horizon, 255, 20, &expected));
}

/// Work of one tick fits everywhere: a send waits with its send, internal work with
/// its done, behind the hub's addition. What is begun at 19 is not over.
#[test]
fn the_example_with_one_tick() {
    let run = first_run(&probe_and_hub_table(), 1);
    let round = "tx2 1 t 0 t 0x9 1x8 tx4 0 t 0x9 1x2 t";
    let expected = choices(&format!("0x5 1x5 {round} 1x9 {round}"));
    assert_eq!(run.choices, expected);
    assert_eq!(run.outcome, outcome(End::Horizon, 255, 20, &expected));
}

/// The hub's internal window has one tick, from 9 to 10.
#[test]
fn the_hub_is_late_with_two_ticks() {
    let run = first_run(&probe_and_hub_table(), 2);
    let expected = choices("0x5 1x5 tx2 1 t 0 tx2 0x9 1x8 tx3 0 t 1x2 t 0x9 t");
    assert_eq!(run.choices, expected);
    assert_eq!(run.outcome, outcome(End::Late, 1, 11, &expected));
}

/// The probe's send window has two ticks, from 3 to 5.
#[test]
fn the_probe_is_late_with_three_ticks() {
    let run = first_run(&probe_and_hub_table(), 3);
    let expected = choices("0x5 1x5 tx2 1 t 0 tx3");
    assert_eq!(run.choices, expected);
    assert_eq!(run.outcome, outcome(End::Late, 0, 6, &expected));
}

/// Two nodes that begin anew where their windows end: node 0, whose work goes on past
/// tick 2, does not sleep again there, and is late when tick 3 comes.
#[test]
fn the_lowest_late_node_and_the_last_draws() {
    let table = table(20, vec![steady(2), steady(3)]);
    let run = first_run(&table, 3);
    assert_eq!(run.outcome.end, End::Late);
    assert_eq!((run.outcome.node, run.outcome.tick), (0, 3));
    let simulation = calls::simulate(&write_table(&table), work(3, 3), 1, None).unwrap();
    assert_eq!(simulation.nodes, [1, 0]);
    assert_eq!(simulation.generator.state(), 2_497_366_906);
    let equal = calls::simulate(
        &write_table(&common::table(20, vec![steady(2), steady(2)])),
        work(3, 3),
        1,
        None,
    );
    assert_eq!(told(equal), "1 1 0|state 2497366906");
}

/// Both nodes sleep at tick 0; node 0, which has more edges to try before, draws first:
/// 3 ticks, then 2 for node 1.
#[test]
fn a_node_finishes_all_in_its_turn() {
    let once = |edges: usize| {
        let loops = vec![edge(0, 0, 1, 0, internal(&[])); edges];
        component(&[3], loops)
    };
    let table = table(4, vec![once(9), once(1)]);
    let passages = schedule(&table).unwrap();
    let mut simulator = Simulator::new(&table, &passages, work(0, 3), Generator::new());
    let run = simulator.run();
    let begins = choices("0x38 1x6 tx2 1");
    assert_eq!(run.choices[..begins.len()], begins);
}

/// The table's own refusal, then 22, then 23.
#[test]
fn the_order_of_the_refusals() {
    let table = probe_and_hub();
    let mut hub_low_3 = probe_and_hub_table();
    hub_low_3.components[1].edges[0] = edge(0, 2, 0, 3, receive(&[(0, 1)]));
    let hub_low_3 = write_table(&hub_low_3);
    let wrong = [
        (1, 0, 1),
        (0, 60_001, 1),
        (0, 1, 0),
        (0, 1, 10_001),
        (0, u32::MAX, 1),
        (u32::MAX, u32::MAX, 1),
        (0, 1, u32::MAX),
    ];
    for (lo, hi, runs) in wrong {
        for (seed, number) in [(Some(0), 22), (None, 23), (Some(1), 23)] {
            let asked = |table| calls::simulate(table, work(lo, hi), runs, seed);
            assert_eq!(asked(&table), Err(refused(number, 255)));
            assert_eq!(asked(&hub_low_3), Err(refused(16, 0)));
            assert_eq!(asked(&[]), Err(refused(1, 255)));
        }
    }
    let asked = |seed| calls::simulate(&table, work(0, 60_000), 1, seed);
    assert_eq!(asked(Some(0)), Err(refused(22, 255)));
    assert_eq!(asked(Some(Generator::SEED)), asked(None));
    assert!(asked(None).is_ok());
}

/// So many runs, and so many more from the generator that these left.
#[test]
fn runs_in_pieces() {
    let table = probe_and_hub();
    let asked = |runs, seed| calls::simulate(&table, work(0, 3), runs, seed).unwrap();
    for (first, second) in [(1, 1), (1, 99), (37, 63), (99, 1)] {
        let one = asked(first, None);
        let other = asked(second, Some(one.generator.state()));
        let both = asked(first + second, None);
        assert_eq!(both.late, one.late + other.late);
        let sums = one.nodes.iter().zip(&other.nodes).map(|(a, b)| a + b);
        assert_eq!(both.nodes, sums.collect::<Vec<u32>>());
        assert_eq!(both.generator, other.generator);
    }
}

#[test]
fn the_choices_of_a_run() {
    let table = probe_and_hub_table();
    let passages = schedule(&table).unwrap();
    let mut simulator = Simulator::new(&table, &passages, work(0, 3), Generator::seeded(7));
    for number in 0..20 {
        let expected = simulator.run();
        let given = choices_of_run(&table, &passages, work(0, 3), number, Some(7)).unwrap();
        assert_eq!(given, expected.choices);
        let mut bytes = [0; 8 * 36];
        let (outcome, _) = calls::run(&probe_and_hub(), &given, &mut bytes).unwrap();
        assert_eq!(outcome, expected.outcome);
    }
    let asked = |work, number, seed| choices_of_run(&table, &passages, work, number, seed);
    assert_eq!(asked(work(0, 3), 0, Some(0)), Err(refused(22, 255)));
    assert_eq!(asked(work(4, 3), 0, None), Err(refused(23, 255)));
    assert_eq!(asked(work(0, 3), 10_000, None), Err(refused(23, 255)));
    assert_eq!(asked(work(0, 3), u32::MAX, None), Err(refused(23, 255)));
}

/// The tick of an observation.
fn tick_of(observation: &[u8]) -> u32 {
    u32::from_be_bytes(observation[4..8].try_into().unwrap())
}

/// When each work was over by the draws: they are made again in the order of the
/// observations, one for each that is not of a receive edge. A pair of node and tick
/// for each, and the generator afterwards.
fn drawn_again(table: &Table, run: &Run, lo: u32, hi: u32, seed: u32) -> (Vec<(u8, u32)>, u32) {
    let mut state = seed;
    let mut over = Vec::new();
    for observation in &run.observations {
        let [node, edge] = [observation[0], observation[1]];
        let edge = &table.components[usize::from(node)].edges[usize::from(edge)];
        if matches!(edge.action, Action::Receive(_)) {
            continue;
        }
        state ^= state << 13;
        state ^= state >> 17;
        state ^= state << 5;
        over.push((node, tick_of(observation) + lo + state % (hi - lo + 1)));
    }
    (over, state)
}

/// The works that a run finished, timeouts left out.
fn finished(run: &Run) -> Vec<(u8, u32)> {
    let work = |event: &Event| match *event {
        Event::Done { node, tick } => Some((node, tick)),
        Event::Message { sender, tick, .. } => Some((sender, tick)),
        Event::Timeout { .. } => None,
    };
    run.log.iter().filter_map(work).collect()
}

/// Hands the choices of a run to the run: it has the same outcome, and each node's work
/// is finished at the tick drawn for it, all but what is over past the run's end.
fn is_a_run(
    table: &Table,
    passages: &[Passage],
    simulated: &SimulatedRun,
    work: WorkTimes,
    seed: u32,
) -> u32 {
    let run = run(table, passages, &program(table), &simulated.choices).unwrap();
    assert_eq!(run.outcome, simulated.outcome);
    assert_eq!(run.outcome.used as usize, simulated.choices.len());
    assert_eq!(run.outcome.end == End::Late, run.outcome.node != 255);
    let (over, state) = drawn_again(table, &run, work.lo, work.hi, seed);
    for node in 0..table.components.len() as u8 {
        let own = |all: &[(u8, u32)]| -> Vec<u32> {
            let own = all.iter().filter(|(number, _)| *number == node);
            own.map(|(_, tick)| *tick).collect()
        };
        let mut expected = own(&over);
        expected.retain(|tick| *tick < run.outcome.tick);
        assert_eq!(own(&finished(&run)), expected);
    }
    state
}

/// What a run comes to by the schedule alone: sleeps are finished in the order of the
/// readies, then of the nodes; work longer than its window makes its node late at the
/// tick past the window's end. The late node with that tick, and the generator.
fn by_the_schedule(
    table: &Table,
    passages: &[Passage],
    work: WorkTimes,
    seed: u32,
) -> (Option<(u32, u8)>, u32) {
    let horizon = u32::from(table.horizon);
    let mut sleeps: Vec<&Passage> = passages.iter().collect();
    sleeps.retain(|p| p.ready < horizon);
    sleeps.sort_by_key(|p| (p.ready, p.component));
    let mut generator = Generator::seeded(seed);
    let mut late: Option<(u32, u8)> = None;
    let mut at_work = [0; MAX_COMPONENTS];
    for passage in sleeps {
        let node = usize::from(passage.component);
        let past = late.is_some_and(|(tick, _)| passage.ready >= tick);
        if past || passage.ready < at_work[node] {
            continue;
        }
        if matches!(passage.edge_in(table).action, Action::Receive(_)) {
            continue;
        }
        let over = passage.ready + work.lo + generator.draw() % (work.hi - work.lo + 1);
        at_work[node] = over;
        if over > passage.end && passage.end < horizon {
            let this = (passage.end + 1, passage.component);
            late = Some(late.map_or(this, |first| first.min(this)));
        }
    }
    (late, generator.state())
}

/// Accepted tables with bytes changed at random, work next to the lengths of their
/// windows.
#[test]
fn each_run_is_a_run_of_its_choices() {
    let mut numbers = Numbers(2_463_534_242);
    let mut counts = [0; 2];
    for_each_schedule(20_000, |table, passages| {
        if check_messages(table, passages).is_err() || table.horizon > 2_000 {
            return;
        }
        let passage = &passages[numbers.below(passages.len())];
        let length = passage.end - passage.ready;
        let hi = (length + numbers.below(3) as u32)
            .saturating_sub(1)
            .min(MAX_WORK);
        let lo = numbers.below(hi as usize + 1) as u32;
        let mut seed =
            [1, u32::MAX, Generator::SEED, numbers.below(1 << 32) as u32][numbers.below(4)].max(1);
        let generator = Generator::seeded(seed);
        let mut simulator = Simulator::new(table, passages, work(lo, hi), generator);
        for _ in 0..3 {
            let simulated = simulator.run();
            let (late, after) = by_the_schedule(table, passages, work(lo, hi), seed);
            let horizon = (u32::from(table.horizon), 255);
            let outcome = simulated.outcome;
            assert_eq!((outcome.tick, outcome.node), late.unwrap_or(horizon));
            seed = is_a_run(table, passages, &simulated, work(lo, hi), seed);
            assert_eq!([seed, after], [simulator.generator().state(); 2]);
            counts[usize::from(outcome.end == End::Late)] += 1;
        }
    });
    println!("{counts:?}");
    assert!(counts.iter().all(|count| *count > 1_000), "{counts:?}");
}
