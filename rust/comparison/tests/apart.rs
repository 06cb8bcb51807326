//! Nodes that wake apart, document 02's wish 6: runs of the second implementation
//! with drawn tables and offsets hold to the demand; what is wrong in one point
//! does not.

mod apart_cases;

use apart_cases::*;
use comparison::random::Random;
use comparison::runs::offsets::permitted;
use demand::apart::{own_work, Work};
use demand::{HORIZON, LATE, NOT_ALLOWED};

/// How often each thing came.
#[derive(Debug, Default)]
struct Counts {
    runs: usize,
    with_offsets: usize,
    ends: [usize; 4],
    asleep: usize,
    sender_ahead: usize,
    sender_behind: usize,
    timeouts: usize,
    with_fills: usize,
    filled_messages: usize,
}

impl Counts {
    fn count(&mut self, case: &Case, found: &demand::apart::Apart) {
        self.runs += 1;
        self.with_offsets += usize::from(case.offsets.iter().any(|offset| *offset > 0));
        self.ends[usize::from(case.answer.end)] += 1;
        let asleep = found.facts.refusal == Some(demand::walk::Refusal::Asleep);
        self.asleep += usize::from(asleep);
        for (sender, receiver) in found.works.iter().filter_map(pair) {
            let [sender, receiver] = [sender, receiver].map(|node| case.offset(node));
            self.sender_ahead += usize::from(sender < receiver);
            self.sender_behind += usize::from(receiver < sender);
        }
        self.timeouts += found.facts.timeouts as usize;
        self.with_fills += usize::from(!found.filled.is_empty());
        self.filled_messages += found.filled.iter().filter_map(pair).count();
    }
}

/// Sender and receiver of a message.
fn pair(work: &Work) -> Option<(u8, u8)> {
    work.message.map(|(receiver, _)| (work.node, receiver))
}

#[test]
fn no_run_breaks_the_demand() {
    let mut counts = Counts::default();
    for_each_case(Random::SEED, 8_000, permitted, |case| {
        let found = case.hold();
        let found = found.unwrap_or_else(|problem| panic!("{problem}\n{}", case.told()));
        counts.count(case, &found);
    });
    println!("{counts:?}");
    assert!(
        counts.runs >= 8_000 && counts.with_offsets > 4_000,
        "{counts:?}"
    );
    assert!(counts.ends.iter().all(|count| *count > 200), "{counts:?}");
    assert!(counts.asleep > 100 && counts.timeouts > 400, "{counts:?}");
    assert!(
        counts.sender_ahead > 1000 && counts.sender_behind > 1000,
        "{counts:?}"
    );
    assert!(
        counts.with_fills > 100 && counts.filled_messages > 20,
        "{counts:?}"
    );
}

/// Without offsets it is the demand on nodes that wake together.
#[test]
fn together_both_say_the_same() {
    let together = |_: &mut Random, _: u32, _: usize| Vec::new();
    for_each_case(7, 1500, together, |case| {
        let found = case.hold().unwrap();
        let demand = case.subject.demand();
        let old = demand.hold(&case.choices, &case.answer.claim()).unwrap();
        assert_eq!(found.facts, old);
        assert_eq!(found.filled, []);
    });
}

/// How many of so many runs a wrong variant breaks.
fn broken(runs: usize, wrong: impl Fn(&Case) -> Result<(), String>) -> usize {
    let mut broken = 0;
    for_each_case(11, runs, permitted, |case| {
        broken += usize::from(wrong(case).is_err());
    });
    println!("{broken} of {runs}");
    broken
}

/// "a message at its sender's tick": at the receiver's there is no path.
#[test]
fn a_message_at_the_receivers_tick() {
    let at_receiver = |case: &Case| {
        let wrong = |work: &Work| match work.message {
            Some((receiver, _)) => Work {
                tick: case.own_clock(receiver, work.tick),
                ..*work
            },
            None => own_work(&case.offsets, work),
        };
        case.path_by(wrong)
    };
    assert!(broken(2000, at_receiver) > 300);
    let at_sender = |case: &Case| case.path_by(|work| own_work(&case.offsets, work));
    assert_eq!(broken(2000, at_sender), 0);
    let at_the_common_tick = |case: &Case| case.path_by(|work| *work);
    assert!(broken(2000, at_the_common_tick) > 300);
}

/// Without what is filled in, or in the run's order, there is no path either.
#[test]
fn nothing_filled_in_and_the_order_of_the_run() {
    let unfilled = |case: &Case| {
        let mut works = case.own_works();
        works.sort_by_key(|work| work.tick);
        case.follow(&works)
    };
    assert!(broken(8000, unfilled) > 50);
    let in_the_runs_order = |case: &Case| {
        let filled = case.hold().unwrap().filled;
        case.follow(&[case.own_works(), filled].concat())
    };
    assert!(broken(8000, in_the_runs_order) > 50);
}

/// The answers of a wrong machine hold to the demand exactly where they are
/// those of the right one, and many of 4,000 are not.
fn breaks_where_it_differs(machine: fn(&Case) -> Answer) {
    let mut different = 0;
    for_each_case(11, 4000, permitted, |case| {
        let answer = machine(case);
        different += usize::from(answer != case.answer);
        let found = case.hold_to(&answer);
        assert_eq!(answer == case.answer, found.is_ok(), "{found:?}");
    });
    println!("{different}");
    assert!(different > 1000);
}

#[test]
fn observations_with_the_common_tick() {
    breaks_where_it_differs(|case| case.with_common_ticks());
}

#[test]
fn late_by_the_common_tick() {
    breaks_where_it_differs(|case| case.late_by_the_common_tick());
}

/// An offset of one more than the spread: the margins are needed.
#[test]
fn an_offset_above_the_spread() {
    let mut ends = [0; 4];
    let mut broken = 0;
    for_each_case(13, 3000, above, |case| match case.hold() {
        Ok(_) => ends[usize::from(case.answer.end)] += 1,
        Err(_) => broken += 1,
    });
    println!("{broken} broken, others ended {ends:?}");
    assert!(broken > 300);
    assert!(ends[usize::from(HORIZON)] + ends[usize::from(LATE)] > 0);
    assert!(ends[usize::from(NOT_ALLOWED)] > 0);
}
