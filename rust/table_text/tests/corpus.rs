//! The stored tables belong together, and their answers hold.

mod common;

use common::corpus_folder;
use reference::calls;
use reference::checks::verdict;
use reference::reasons::{reasons, Reasons};
use reference::run::{Outcome, FINISH_TICK, NO_WORK, OBSERVATION};
use reference::schedule::print;
use reference::table::read_table;
use std::fs;
use table_text::corpus::{
    names_with_pairs, names_with_periods, names_with_runs, names_with_spreads, read_answers,
    read_chart, read_pairs, read_period, read_questions, read_runs, read_schedule, read_spreads,
    verify, Answer, StoredPairs, StoredRun,
};

fn stored() -> Vec<(String, Answer, Vec<u8>)> {
    let folder = corpus_folder();
    let answers = read_answers(&folder).unwrap();
    let with_bytes = answers.into_iter().map(|(name, answer)| {
        let bytes = fs::read(folder.join(format!("{name}.bin"))).unwrap();
        (name, answer, bytes)
    });
    with_bytes.collect()
}

#[test]
fn sources_bytes_and_answers_belong_together() {
    assert_eq!(verify(&corpus_folder()), Ok(stored().len()));
}

#[test]
fn each_source_says_what_it_shows_and_tries_and_its_answer() {
    for (name, answer, _) in stored() {
        let text = fs::read_to_string(corpus_folder().join(format!("{name}.txt"))).unwrap();
        let has = |start: &str| text.lines().any(|line| line.starts_with(start));
        assert!(has("# Shows: "), "{name}");
        assert!(has("# Tries: \""), "{name}");
        assert!(has(&format!("# Answer: {answer}. ")), "{name}");
    }
}

/// The refusals of checks 1 to 12; 15 to 17 stand in the place of 11.
const NUMBERS: [u8; 15] = [1, 2, 3, 4, 5, 6, 7, 8, 9, 10, 11, 12, 15, 16, 17];

#[test]
fn answers_are_those_of_checks_1_to_12() {
    for (name, answer, _) in stored() {
        if let Answer::Refused { number, component } = answer {
            assert!(NUMBERS.contains(&number), "{name}");
            assert_eq!(component == 255, number <= 3, "{name}");
        }
    }
    for wanted in NUMBERS {
        let tried =
            |answer: &Answer| matches!(answer, Answer::Refused { number, .. } if *number == wanted);
        assert!(
            stored().iter().any(|(_, answer, _)| tried(answer)),
            "{wanted}"
        );
    }
}

#[test]
fn names_begin_with_the_number_that_refuses() {
    for (name, answer, _) in stored() {
        if let Some((number, _)) = name.strip_prefix("check").and_then(|n| n.split_once('_')) {
            let said = answer.to_string();
            assert!(said.starts_with(&format!("refused {number} ")), "{name}");
        }
        if !name.starts_with("spread_") {
            let accepted = name.starts_with("accepted_") || name == "probe_and_hub";
            assert_eq!(answer == Answer::Accepted, accepted, "{name}");
        }
    }
}

/// The answer of one of the reference's calls.
fn answer_of<T>(result: Result<T, reference::table::Refusal>) -> Answer {
    match result {
        Ok(_) => Answer::Accepted,
        Err(refusal) => Answer::Refused {
            number: refusal.number,
            component: refusal.component,
        },
    }
}

#[test]
fn the_reference_reader_gives_the_answers_up_to_6() {
    for (name, answer, bytes) in stored() {
        let expected = match answer {
            Answer::Refused { number, .. } if number > 6 => Answer::Accepted,
            answer => answer,
        };
        assert_eq!(answer_of(read_table(&bytes)), expected, "{name}");
    }
}

#[test]
fn the_reference_checks_1_to_12_give_the_same_answers() {
    for (name, answer, bytes) in stored() {
        assert_eq!(answer_of(calls::check(&bytes)), answer, "{name}");
    }
}

#[test]
fn the_reference_prints_the_same_schedules() {
    let folder = corpus_folder();
    for (name, answer, bytes) in stored() {
        if answer == Answer::Accepted {
            let text = fs::read_to_string(folder.join(format!("{name}.schedule"))).unwrap();
            let (_, passages) = verdict(&bytes).unwrap();
            assert_eq!(text, print(&passages), "{name}");
            let read = read_schedule(&folder, &name).unwrap();
            assert_eq!(read.len(), passages.len(), "{name}");
        }
    }
}

#[test]
fn verdicts_at_spreads_are_those_of_document_02() {
    let folder = corpus_folder();
    let names = names_with_spreads(&folder).unwrap();
    let mut numbers = std::collections::BTreeSet::new();
    for name in &names {
        assert!(name.starts_with("spread_"), "{name}");
        let bytes = fs::read(folder.join(format!("{name}.bin"))).unwrap();
        for (spread, answer) in read_spreads(&folder, name).unwrap() {
            let given = answer_of(calls::check_spread(&bytes, spread));
            assert_eq!(given, answer, "{name} at {spread}");
            if let Answer::Refused { number, .. } = answer {
                numbers.insert(number);
            }
        }
    }
    assert_eq!(names.len(), 7);
    assert!(numbers.into_iter().eq([10, 11, 15, 16, 17, 19]));
}

/// As the vectors write it.
fn told(reasons: Reasons) -> String {
    let edges = reasons.edges.iter();
    let edges = edges.map(|(edge, reason)| format!("|{edge} {reason}"));
    format!("{}{}", reasons.passage, edges.collect::<String>())
}

#[test]
fn reasons_are_those_of_document_02() {
    let mut kinds = [0; 6];
    for (name, answer, bytes) in stored() {
        if answer != Answer::Accepted {
            continue;
        }
        let (table, passages) = verdict(&bytes).unwrap();
        for question in read_questions(&corpus_folder(), &name).unwrap() {
            let given = match reasons(&table, &passages, question.component, question.tick) {
                Ok(reasons) => told(reasons),
                Err(refusal) => format!("refused {} {}", refusal.number, refusal.component),
            };
            assert_eq!(given, question.answer, "{name}");
            for (kind, word) in [
                "taken",
                "data",
                "window",
                "later",
                "higher",
                "refused 21 255",
            ]
            .iter()
            .enumerate()
            {
                kinds[kind] += usize::from(given.contains(word));
            }
        }
    }
    println!("{kinds:?}");
    assert!(kinds.iter().all(|count| *count > 5), "{kinds:?}");
}

/// All five reasons at tick 0, and 31 edges that are numbered higher.
#[test]
fn the_tables_of_the_reasons() {
    let first = |name: &str| read_questions(&corpus_folder(), name).unwrap().remove(0);
    let five = first("accepted_five_reasons");
    assert_eq!((five.component, five.tick), (0, 0));
    let words = "0|0 data 1|1 window|2 taken|3 later|4 higher";
    assert_eq!(five.answer, words);
    let higher = first("accepted_higher_number_32_edges");
    assert_eq!(higher.answer.matches("higher").count(), 31);
    assert!(higher.answer.starts_with("0|0 taken|1 higher|"));
}

/// The second implementation's answer to a stored run.
fn ran(table: &[u8], run: &StoredRun) -> String {
    let mut bytes = vec![0; 1024 * OBSERVATION];
    let answer = calls::run_apart(table, &run.choices, run.spread, &run.offsets, &mut bytes);
    shown(answer.unwrap(), &bytes)
}

/// How a run ended, and node, tick and finish tick of each observation.
fn shown((outcome, count): (Outcome, usize), bytes: &[u8]) -> String {
    let (end, node) = (outcome.end as u8, outcome.node);
    let mut told = format!("{end} {node} {} {}", outcome.tick, outcome.used);
    for observation in bytes.chunks(OBSERVATION).take(count) {
        let four = |at: usize| u32::from_be_bytes(*observation[at..].first_chunk().unwrap());
        told += &format!("|{} {} ", observation[0], four(4));
        told += &match four(FINISH_TICK) {
            NO_WORK => "-".to_string(),
            tick => tick.to_string(),
        };
    }
    told
}

#[test]
fn runs_show_the_finish_ticks_of_document_02() {
    let folder = corpus_folder();
    let names = names_with_runs(&folder).unwrap();
    assert_eq!(names.len(), 4);
    let (mut runs, mut apart) = (0, 0);
    for name in names {
        let table = fs::read(folder.join(format!("{name}.bin"))).unwrap();
        for run in read_runs(&folder, &name).unwrap() {
            assert_eq!(ran(&table, &run), run.answer, "{name}");
            runs += 1;
            apart += usize::from(!run.offsets.is_empty());
        }
    }
    assert_eq!((runs, apart), (13, 6));
}

#[test]
fn what_comes_again_is_that_of_document_02() {
    let folder = corpus_folder();
    let names = names_with_periods(&folder).unwrap();
    assert_eq!(names.len(), 7);
    let (mut runs, mut beyond, mut late) = (0, 0, 0);
    for name in names {
        let table = fs::read(folder.join(format!("{name}.bin"))).unwrap();
        let stored = read_period(&folder, &name).unwrap();
        let pair = calls::period(&table).unwrap();
        let told = pair.map_or("none".to_string(), |pair| {
            format!("{} {}", pair.from, pair.to)
        });
        assert_eq!(told, stored.pair, "{name}");
        for run in stored.runs {
            let mut bytes = vec![0; 1024 * OBSERVATION];
            let answer = calls::run_to(&table, &run.choices, run.horizon, &mut bytes);
            assert_eq!(shown(answer.unwrap(), &bytes), run.answer, "{name}");
            runs += 1;
            beyond += usize::from(run.horizon > u32::from(table[6]));
            late += usize::from(run.answer.starts_with('2'));
        }
    }
    assert_eq!((runs, beyond, late), (18, 14, 2));
}

/// Of one message the probe notes 10, and the hub what its own clock shows.
#[test]
fn the_finish_ticks_of_one_message() {
    let runs = read_runs(&corpus_folder(), "accepted_finish_of_message").unwrap();
    for (offsets, ticks) in [
        (vec![], [10, 10]),
        (vec![3, 0], [10, 13]),
        (vec![0, 3], [10, 7]),
    ] {
        let run = runs.iter().find(|run| run.offsets == offsets).unwrap();
        for (node, tick) in ticks.iter().enumerate() {
            let second = format!("|{node} 28 {tick}");
            assert!(run.answer.contains(&second), "{offsets:?} {second}");
        }
    }
}

/// The second implementation's answer to stored pairs.
fn located(table: &[u8], list: &StoredPairs) -> String {
    let mut bytes = vec![0; 3 * list.pairs.len()];
    match calls::positions(table, list.pairs.as_flattened(), &mut bytes) {
        Ok(read) if bytes.is_empty() => format!("{read}|-"),
        Ok(read) => {
            let hex: String = bytes.iter().map(|byte| format!("{byte:02x}")).collect();
            format!("{read}|{hex}")
        }
        Err(refusal) => format!("refused {} {}", refusal.number, refusal.component),
    }
}

#[test]
fn pairs_are_answered_as_in_document_02() {
    let folder = corpus_folder();
    let names = names_with_pairs(&folder).unwrap();
    assert_eq!(names.len(), 3);
    let mut kinds = [0; 3];
    for name in names {
        let table = fs::read(folder.join(format!("{name}.bin"))).unwrap();
        for list in read_pairs(&folder, &name).unwrap() {
            let given = located(&table, &list);
            assert_eq!(given, list.answer, "{name}");
            kinds[match &given[..] {
                "refused 21 255" => 1,
                "refused 24 255" => 2,
                _ => 0,
            }] += 1;
        }
    }
    assert_eq!(kinds, [19, 7, 4]);
}

#[test]
fn charts_are_those_of_document_02() {
    let mut count = 0;
    for (name, _, bytes) in stored() {
        if corpus_folder().join(format!("{name}.chart")).exists() {
            let chart = read_chart(&corpus_folder(), &name).unwrap();
            let mut given = [0; 552];
            let size = calls::timing_chart(&bytes, &mut given).unwrap();
            assert_eq!(given[..size], *chart.as_bytes(), "{name}");
            count += 1;
        }
    }
    assert_eq!(count, 5);
}
