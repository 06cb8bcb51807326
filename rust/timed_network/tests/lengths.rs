//! Slices of no length, of exactly the needed length and of one less, for
//! every call; the needed lengths are those of `corpus/` and `vectors/`.

mod common;

use common::*;
use std::fs;
use std::path::{Path, PathBuf};
use timed_network::*;

fn root() -> PathBuf {
    Path::new(env!("CARGO_MANIFEST_DIR")).join("../..")
}

/// The accepted tables of the corpus with the number of their passages, which
/// is the number of lines of the printed schedule without its head.
fn accepted() -> Vec<(Vec<u8>, usize)> {
    let corpus = root().join("corpus");
    let answers = fs::read_to_string(corpus.join("answers.tsv")).unwrap();
    let names = answers
        .lines()
        .filter_map(|line| line.strip_suffix("\taccepted"));
    let case = |name: &str| {
        let table = fs::read(corpus.join(name).with_extension("bin")).unwrap();
        let printed = fs::read_to_string(corpus.join(name).with_extension("schedule")).unwrap();
        (table, printed.lines().count() - 1)
    };
    let cases: Vec<_> = names.map(case).collect();
    assert!(cases.len() > 20);
    cases
}

fn hex(text: &str) -> Vec<u8> {
    let byte = |at: usize| u8::from_str_radix(&text[at..at + 2], 16).unwrap();
    (0..text.len()).step_by(2).map(byte).collect()
}

/// The accepted tables of the vectors with their programs.
fn programs() -> Vec<(Vec<u8>, Vec<u8>)> {
    let mut cases = Vec::new();
    for file in [
        "vectors/named.tsv",
        "vectors/random.tsv",
        "vectors/bands.tsv",
        "vectors/hearings.tsv",
        "vectors/budgets.tsv",
    ] {
        let text = fs::read_to_string(root().join(file)).unwrap();
        for line in text.lines() {
            let fields: Vec<&str> = line.split('\t').collect();
            let table = fields[1].strip_prefix("program ");
            if let (Some(table), false) = (table, fields[2].starts_with("refused")) {
                cases.push((hex(table), hex(fields[2])));
            }
        }
    }
    assert!(cases.len() > 40);
    cases
}

fn call(verdict: Verdict, size: usize) -> Call {
    Call { verdict, size }
}

#[test]
fn no_bytes_and_no_room() {
    let none: Vec<u8> = Vec::new();
    let end = &PROBE_AND_HUB[PROBE_AND_HUB.len()..];
    for empty in [&[][..], &none, end] {
        assert_eq!(check(empty), refused(1, 255));
        assert_eq!(schedule(empty, &mut []), call(refused(1, 255), 0));
        assert_eq!(translate(empty, &mut []), call(refused(1, 255), 0));
        assert_eq!(run(empty, empty, &mut []), Err(refusal(1, 255)));
        assert_eq!(passages(empty), Err(refusal(1, 255)));
        assert_eq!(program(empty), Err(refusal(1, 255)));
        for node in 0..=255 {
            assert!(part(empty, node).is_empty());
        }
        // An accepted table with nothing lent, and with no choices.
        let full = &PROBE_AND_HUB;
        assert_eq!(run(full, empty, &mut []), Err(refusal(13, 255)));
        let ran = run(full, empty, &mut [9; 8 * OBSERVATION]).unwrap();
        assert_eq!((ran.end, ran.used, ran.size), (End::UsedUp, 0, 0));
    }
    // The refusal of the table comes before that of the lent length.
    assert_eq!(schedule(&with(70, 3), &mut []), call(refused(16, 0), 0));
    assert_eq!(schedule(&PROBE_AND_HUB, &mut []), call(refused(13, 255), 0));
    assert_eq!(
        translate(&PROBE_AND_HUB, &mut []),
        call(refused(13, 255), 0)
    );
}

#[test]
fn a_list_of_the_needed_length_and_of_one_less() {
    for (table, rows) in accepted() {
        let mut list = vec![7; FIELDS * rows];
        assert_eq!(schedule(&table, &mut list), call(Verdict::Accepted, rows));
        assert_eq!(passages(&table).unwrap().concat(), list);
        let mut list = vec![7; FIELDS * rows - 1];
        assert_eq!(schedule(&table, &mut list), call(refused(13, 255), 0));
        assert!(list.iter().all(|&number| number == 7));
    }
}

#[test]
fn a_program_of_the_needed_length_and_of_one_less() {
    for (table, expected) in programs() {
        let mut bytes = vec![7; expected.len()];
        let answer = translate(&table, &mut bytes);
        assert_eq!(answer, call(Verdict::Accepted, expected.len()));
        assert_eq!(bytes, expected);
        let mut bytes = vec![7; expected.len() - 1];
        assert_eq!(translate(&table, &mut bytes), call(refused(13, 255), 0));
        assert!(bytes.iter().all(|&byte| byte == 7));
    }
}

#[test]
fn observations_of_the_needed_length_and_of_one_less() {
    for (table, rows) in accepted() {
        let mut bytes = vec![7; OBSERVATION * rows];
        let ran = run(&table, &[TICK; 4], &mut bytes).unwrap();
        assert!(ran.used <= 4 && ran.size == 0);
        let mut bytes = vec![7; OBSERVATION * rows - 1];
        assert_eq!(run(&table, &[TICK; 4], &mut bytes), Err(refusal(13, 255)));
        assert!(bytes.iter().all(|&byte| byte == 7));
    }
}

/// Bytes may start anywhere: a table, choices and a program at each place of
/// a word.
#[test]
fn bytes_need_no_alignment() {
    let expected = program(&PROBE_AND_HUB).unwrap();
    for shift in 0..8 {
        let mut table = vec![9; shift];
        table.extend(PROBE_AND_HUB);
        let table = &table[shift..];
        assert_eq!(check(table), Verdict::Accepted);
        let mut bytes = vec![9; shift + expected.len()];
        let answer = translate(table, &mut bytes[shift..]);
        assert_eq!(answer, call(Verdict::Accepted, expected.len()));
        assert_eq!(bytes[shift..], expected);
        assert_eq!(bytes[..shift], vec![9; shift]);
        assert_eq!(part(&bytes[shift..], 1), part(&expected, 1));
        let mut seen = vec![9; shift + 8 * OBSERVATION];
        let ran = run(table, &bytes[..shift], &mut seen[shift..]);
        assert!(ran.is_ok());
    }
}
