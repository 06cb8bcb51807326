//! Pairs of ticks and runs to a horizon: the vectors, and a run that goes round often.

mod common;

use common::*;
use yardstick::{End, Pair, Refusal, Yardstick, OBSERVATION};

/// As many bytes as any run to a table's own horizon takes.
const AMPLE: usize = 1024 * OBSERVATION;

fn long(yardstick: &mut Yardstick, lent: usize, words: &[&str]) -> Result<String, Refusal> {
    let mut bytes = vec![77; lent];
    let (table, choices) = (unhex(words[0]), unhex(words[1]));
    let run = yardstick.run_to(&table, &choices, words[2].parse().unwrap(), &mut bytes);
    run_told(run, &bytes)
}

#[test]
fn all_vectors() {
    let mut yardstick = Yardstick::new();
    let mut counts = [0; 2];
    for line in text("vectors/periods.tsv").lines() {
        let fields: Vec<&str> = line.split('\t').collect();
        let words: Vec<&str> = fields[1].split(' ').collect();
        counts[usize::from(words[0] != "period")] += 1;
        let given = match words[..] {
            ["period", table] => yardstick.period(&unhex(table)).map(|pair| match pair {
                Some(Pair { from, to }) => format!("{from} {to}"),
                None => "none".to_string(),
            }),
            ["long", ref words @ ..] => long(&mut yardstick, AMPLE, words),
            ["lent", lent, _, ref words @ ..] => long(&mut yardstick, lent.parse().unwrap(), words),
            _ => panic!("neither period nor long: {words:?}"),
        };
        assert_eq!(told(given), fields[2], "{}", fields[0]);
    }
    assert_eq!(counts, [64, 75]);
}

/// One component with a window of 4 ticks from its entry on, H = 8: a trial, two bounds,
/// keep and take, then sleep, done, zero, enter and choose, and four ticks.
const STEADY: &str = "01001d010000080016010001000100000400000001010000000000ffff";

#[test]
fn a_run_that_goes_round() {
    let mut choices = vec![0; 10];
    choices.extend([255; 4]);
    let choices = choices.repeat(90_000);
    let mut bytes = vec![77; 100_001 * OBSERVATION];
    let mut yardstick = Yardstick::new();
    let run = yardstick.run_to(&unhex(STEADY), &choices, 400_001, &mut bytes);
    let run = run.unwrap();
    assert_eq!(
        (run.end, run.tick, run.size),
        (End::UsedUp, 360_000, 90_000)
    );
    assert_eq!(run.used, choices.len() as u64);
    // The next run knows nothing of it.
    let short = yardstick.run(&unhex(STEADY), &choices[..42], &mut bytes);
    assert_eq!(short.unwrap().end, End::Horizon);
}
