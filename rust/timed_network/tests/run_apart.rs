//! The safe call `run_apart`: the vectors of nodes that wake apart and of finish ticks,
//! the runs of the others as those without a spread, refusals.

mod common;

use common::*;
use std::fs;
use std::path::Path;
use timed_network::*;

/// The bytes that the observations of every run fit in.
const AMPLE: usize = OBSERVATION * MAX_PASSAGES;

/// The lines of a file of vectors: name, words of the request, answer.
fn vectors(file: &str) -> Vec<[String; 3]> {
    let folder = Path::new(env!("CARGO_MANIFEST_DIR")).join("../../vectors");
    let text = fs::read_to_string(folder.join(file)).unwrap();
    let line = |line: &str| {
        let fields: Vec<String> = line.split('\t').map(str::to_string).collect();
        fields.try_into().unwrap()
    };
    text.lines().map(line).collect()
}

fn hex(bytes: &[u8]) -> String {
    bytes.iter().map(|byte| format!("{byte:02x}")).collect()
}

/// The answer of a run as the vectors write it.
fn told(run: Result<Run, Refused>, bytes: &[u8]) -> String {
    let run = match run {
        Ok(run) => run,
        Err(refused) => return Verdict::from(refused).to_string(),
    };
    let end = run.end.number();
    let first = format!("{end} {} {} {}", run.node, run.tick, run.used);
    let written = bytes.chunks(OBSERVATION).take(run.size).map(hex);
    let parts: Vec<String> = std::iter::once(first).chain(written).collect();
    parts.join("|")
}

/// The same as the vectors older than wish 9 have it: of each observation the first 32
/// bytes.
fn without_finishes(answer: String) -> String {
    let old = |part: &str| part[..part.len().min(2 * 32)].to_string();
    let parts: Vec<String> = answer.split('|').map(old).collect();
    parts.join("|")
}

/// Table, choices, spread and, unless they are missing, the offsets.
fn ran(words: &[&str], lent: usize) -> String {
    let number = |word: &str| word.parse().unwrap();
    let offsets = words.get(3).map(|word| word.split(',').map(number));
    let offsets: Vec<u32> = offsets.map_or(Vec::new(), Iterator::collect);
    let (table, choices) = (unhex(words[0]), unhex(words[1]));
    let mut bytes = vec![77; lent];
    let run = run_apart(&table, &choices, number(words[2]), &offsets, &mut bytes);
    let written = run.map_or(0, |run| run.size * OBSERVATION);
    assert!(bytes[written..].iter().all(|byte| *byte == 77));
    told(run, &bytes)
}

#[test]
fn all_vectors() {
    let (mut runs, mut checks) = (0, 0);
    for [name, request, answer] in vectors("apart.tsv") {
        let words: Vec<&str> = request.split(' ').collect();
        let given = match words[..] {
            ["check", table, spread] => {
                checks += 1;
                check_spread(&unhex(table), spread.parse().unwrap()).to_string()
            }
            ["run", ref words @ ..] => without_finishes(ran(words, AMPLE)),
            ["lent", lent, "run", ref words @ ..] => {
                without_finishes(ran(words, lent.parse().unwrap()))
            }
            _ => continue,
        };
        assert_eq!(given, answer, "{name}");
        runs += 1;
    }
    assert_eq!((runs, checks), (148, 77));
}

/// Those that say no spread are asked of `run` too.
#[test]
fn the_vectors_of_finish_ticks() {
    let (mut count, mut together) = (0, 0);
    for [name, request, answer] in vectors("finishes.tsv") {
        let words: Vec<&str> = request.split(' ').collect();
        let (lent, words) = match words[..] {
            ["run", ref words @ ..] => (AMPLE, words),
            ["lent", lent, "run", ref words @ ..] => (lent.parse().unwrap(), words),
            _ => panic!("no such request: {request}"),
        };
        if let [table, choices] = words {
            let mut bytes = vec![77; lent];
            let found = run(&unhex(table), &unhex(choices), &mut bytes);
            assert_eq!(told(found, &bytes), answer, "{name}");
            assert_eq!(ran(&[table, choices, "0"], lent), answer, "{name}");
            together += 1;
        } else {
            assert_eq!(ran(words, lent), answer, "{name}");
        }
        count += 1;
    }
    assert_eq!((count, together), (84, 31));
}

/// An observation of a stored run: node, tick and finish tick, `-` for none.
fn shown(observation: Observation) -> String {
    let finish = observation.previous_finish.map(|tick| tick.to_string());
    let finish = finish.unwrap_or("-".to_string());
    format!("|{} {} {finish}", observation.component, observation.tick)
}

/// The runs that stand beside tables of the corpus.
#[test]
fn the_runs_of_the_corpus() {
    let mut count = 0;
    for name in [
        "accepted_finish_in_window",
        "accepted_finish_of_message",
        "accepted_timeout",
        "probe_and_hub",
    ] {
        let table = file(&format!("corpus/{name}.bin"));
        for line in text(&format!("corpus/{name}.runs")).lines() {
            let words: Vec<&str> = line.splitn(4, ' ').collect();
            let numbers = words[1].split(',').filter(|word| *word != "-");
            let offsets: Vec<u32> = numbers.map(|word| word.parse().unwrap()).collect();
            let (spread, choices) = (words[0].parse().unwrap(), unhex(words[2]));
            let mut bytes = vec![77; AMPLE];
            let run = run_apart(&table, &choices, spread, &offsets, &mut bytes).unwrap();
            let end = run.end.number();
            let first = format!("{end} {} {} {}", run.node, run.tick, run.used);
            let shown: String = run.observations(&bytes).map(shown).collect();
            assert_eq!(first + &shown, words[3], "{name}");
            count += 1;
        }
    }
    assert_eq!(count, 13);
}

/// "G = 0 is the old check", and without offsets the old run.
#[test]
fn without_a_spread_and_offsets_it_is_the_run() {
    let mut count = 0;
    for file in ["named.tsv", "random.tsv", "bands.tsv", "hearings.tsv"] {
        for [name, request, answer] in vectors(file) {
            let words: Vec<&str> = request.split(' ').collect();
            if let ["run", table, choices] = words[..] {
                let given = ran(&[table, choices, "0"], AMPLE);
                let zeros = "0,0,0,0,0,0,0,0";
                assert_eq!(ran(&[table, choices, "0", zeros], AMPLE), given, "{name}");
                assert_eq!(without_finishes(given), answer, "{name}");
                count += 1;
            }
        }
    }
    assert!(count > 200, "{count}");
}

/// A hub and one probe: eight passages, accepted at spreads up to 2.
fn planned() -> Vec<u8> {
    let slots = Slots {
        probes: 1,
        slot: 2,
        guard: 3,
        period: 20,
    };
    let mut table = vec![0; MAX_PLAN];
    let size = plan(slots, &mut table).size;
    table.truncate(size);
    table
}

#[test]
fn refusals_write_nothing_and_have_an_order() {
    let table = planned();
    let needed = OBSERVATION * passages(&table).unwrap().len();
    let many = vec![TICK; MAX_CHOICES + 1];
    let all = [
        (&table[..], &many[..0], 2, &[3][..], needed, (20, 255)),
        (&table, &many[1..], 2, &[2, 3], needed, (20, 255)),
        (&table, &many[1..], 0, &[1], needed, (20, 255)),
        (&table, &many[1..], 2, &[2, u32::MAX], needed, (20, 255)),
        (&table, &many, 2, &[3], needed, (14, 255)),
        (&table, &many, 2, &[3], needed - 1, (13, 255)),
        (&table, &many, 3, &[4], needed - 1, (16, 0)),
        (&table, &many, 1001, &[], 0, (19, 255)),
        (&[], &many, 1001, &[], 0, (1, 255)),
    ];
    for (table, choices, spread, offsets, length, (number, component)) in all {
        let mut bytes = vec![77; length];
        let found = run_apart(table, choices, spread, offsets, &mut bytes);
        assert_eq!(found, Err(refusal(number, component)));
        let numbers = run_apart_numbers(table, choices, spread, offsets, &mut bytes);
        assert_eq!((numbers.number, numbers.component), (number, component));
        assert_eq!((numbers.end, numbers.node), (0, 255));
        assert_eq!((numbers.tick, numbers.used, numbers.size), (0, 0, 0));
        assert_eq!(bytes, vec![77; length]);
    }
}

/// The hub's first sleep ends at 0 by its own clock, so it is late one tick after
/// it wakes.
#[test]
fn before_it_wakes_a_node_may_not_be_chosen() {
    let table = planned();
    let mut bytes = [77; AMPLE];
    let mut run = |choices: &[u8], offsets: &[u32]| {
        let run = run_apart(&table, choices, 2, offsets, &mut bytes).unwrap();
        (run.end, run.tick, run.used)
    };
    assert_eq!(run(&[0], &[2, 1]), (End::NotAllowed, 0, 0));
    assert_eq!(run(&[TICK, 0], &[2, 1]), (End::NotAllowed, 1, 1));
    assert_eq!(run(&[TICK, TICK, 0], &[2, 1]), (End::Late, 2, 2));
    assert_eq!(run(&[TICK, TICK, 0], &[2, 2]), (End::UsedUp, 2, 3));
    assert_eq!(run(&[TICK, 1], &[2, 1]), (End::UsedUp, 1, 2));
    // Fewer offsets than nodes, and more.
    assert_eq!(run(&[1], &[2]), (End::UsedUp, 0, 1));
    assert_eq!(run(&[1], &[2, 0, 3]), (End::UsedUp, 0, 1));
    assert_eq!(run(&[0], &[0, 1]), (End::UsedUp, 0, 1));
}

#[test]
fn no_offsets_from_anywhere() {
    let table = planned();
    let none: Vec<u32> = Vec::new();
    let some = [2, 2];
    for empty in [&[][..], &none, &some[2..]] {
        let mut bytes = [77; AMPLE];
        let run = run_apart(&table, &[0, 1], 2, empty, &mut bytes).unwrap();
        assert_eq!((run.end, run.used, run.size), (End::UsedUp, 2, 0));
    }
}
