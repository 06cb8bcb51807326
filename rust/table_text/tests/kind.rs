//! Each kind of file is known, and no table is taken for something else.

mod common;

use common::corpus_folder;
use reference::table::read_table;
use std::fs;
use std::path::PathBuf;
use table_text::{kind, Kind};

/// The files of the corpus with this ending, and their bytes.
fn stored(ending: &str) -> Vec<(PathBuf, Vec<u8>)> {
    let entries = fs::read_dir(corpus_folder()).unwrap();
    let files = entries.map(|entry| entry.unwrap().path());
    let wanted = files.filter(|file| file.extension().is_some_and(|found| found == ending));
    wanted
        .map(|file| (file.clone(), fs::read(file).unwrap()))
        .collect()
}

/// Request and answer of each case of the vectors.
fn vectors() -> Vec<(String, String)> {
    let folder = corpus_folder().join("../vectors");
    let mut cases = Vec::new();
    for name in ["named.tsv", "random.tsv", "bands.tsv", "budgets.tsv"] {
        let text = fs::read_to_string(folder.join(name)).unwrap();
        let case = |line: &str| {
            let mut words = line.split('\t').skip(1);
            Some((words.next()?.to_string(), words.next()?.to_string()))
        };
        cases.extend(text.lines().filter_map(case));
    }
    cases
}

/// The bytes of hexadecimal digits, `-` for none.
fn bytes(digits: &str) -> Vec<u8> {
    let byte = |place| u8::from_str_radix(&digits[place..place + 2], 16).unwrap();
    let count = if digits == "-" { 0 } else { digits.len() };
    (0..count).step_by(2).map(byte).collect()
}

/// The parts of a program's nodes, by their lengths.
fn parts(program: &[u8]) -> Vec<&[u8]> {
    let (mut rest, mut found) = (&program[6..], Vec::new());
    while !rest.is_empty() {
        let length = usize::from(rest[0]) * 256 + usize::from(rest[1]);
        found.push(&rest[..length]);
        rest = &rest[length..];
    }
    found
}

/// Whether the kind of bytes fits checks 1 to 6: what passes them is a table,
/// and what does not is at least nothing else that is known.
fn fits(bytes: &[u8]) -> bool {
    match kind(bytes) {
        Kind::Table => true,
        Kind::Other => read_table(bytes).is_err(),
        _ => false,
    }
}

#[test]
fn tables_and_texts_of_the_corpus() {
    let tables = stored("bin");
    assert!(tables.len() > 200);
    for (file, bytes) in tables {
        assert!(fits(&bytes), "{}", file.display());
    }
    for (file, bytes) in stored("txt") {
        assert_eq!(kind(&bytes), Kind::Text, "{}", file.display());
    }
}

#[test]
fn tables_of_the_vectors() {
    let mut tried = 0;
    for (request, _) in vectors() {
        let (call, rest) = request.split_once(' ').unwrap();
        if call != "part" {
            let table = bytes(rest.split(' ').next().unwrap());
            assert!(fits(&table), "{request}");
            tried += 1;
        }
    }
    assert!(tried > 500, "{tried}");
}

#[test]
fn programs_and_parts_of_the_vectors() {
    let (mut programs, mut longest) = (0, 0);
    for (request, answer) in vectors() {
        if request.starts_with("program ") && !answer.starts_with("refused") {
            let program = bytes(&answer);
            assert_eq!(kind(&program), Kind::Program, "{request}");
            for part in parts(&program) {
                assert_eq!(kind(part), Kind::Part, "{request}");
                longest = longest.max(part.len());
            }
            programs += 1;
        }
    }
    assert!(programs > 70, "{programs}");
    // So the first byte of a part was a version, too.
    assert!(longest >= 256, "{longest}");
}

#[test]
fn what_is_damaged_is_no_program_any_more() {
    let cases = vectors();
    let programs = cases
        .iter()
        .filter(|(request, _)| request.starts_with("program "));
    let (_, answer) = programs
        .clone()
        .find(|(_, answer)| !answer.starts_with("refused"))
        .unwrap();
    let program = bytes(answer);
    let longer = [&program[..], &[0]].concat();
    assert_eq!(kind(&longer), Kind::Other);
    assert_eq!(kind(&program[..program.len() - 1]), Kind::Other);
    // A start, an op, the zero byte, the count of edges.
    for (place, byte) in [(13, 1), (program.len() - 4, 19), (11, 1), (9, 0)] {
        let mut damaged = program.clone();
        damaged[place] = byte;
        assert_eq!(kind(&damaged), Kind::Other, "{place}");
    }
}

#[test]
fn first_bytes() {
    for text in [
        "horizon 20\n",
        "x",
        "\n\n",
        "# é\n",
        "\u{feff}horizon",
        "  a",
        "\r\n",
    ] {
        assert_eq!(kind(text.as_bytes()), Kind::Text, "{text:?}");
    }
    // A byte that is not UTF-8 and a control byte far behind: the converter names their line.
    assert_eq!(kind(b"# caf\xe9\n"), Kind::Text);
    assert_eq!(kind(b"horizon 20 channels 2\x00"), Kind::Text);
    for other in [
        &b""[..],
        b"\x7fELF\x02",
        b"\x00",
        b"\x03\x00\x07",
        b"horizon\x00",
        b"\xff\x00\x07",
        b"\x89PNG\r\n\x1a",
    ] {
        assert_eq!(kind(other), Kind::Other, "{other:?}");
    }
    for damaged in [
        &b"\x01"[..],
        b"\x02",
        b"\x03",
        b"\x01horizon",
        b"\x02\x00\x07\x01\x00\x00\x01",
        b"\xff\xff\xff",
    ] {
        assert_eq!(kind(damaged), Kind::Other, "{damaged:?}");
    }
}
