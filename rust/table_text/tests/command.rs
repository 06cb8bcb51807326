//! The program: standard input and output, exit status, build and verify.

use std::env;
use std::fs;
use std::io::Write;
use std::path::{Path, PathBuf};
use std::process::{Command, Output, Stdio};

const SOURCE: &str = "horizon 5\nchannels 0\n";
const TABLE: [u8; 7] = [1, 0, 7, 0, 0, 0, 5];

fn run(words: &[&str], input: &[u8]) -> Output {
    let mut program = Command::new(env!("CARGO_BIN_EXE_table_text"))
        .args(words)
        .stdin(Stdio::piped())
        .stdout(Stdio::piped())
        .stderr(Stdio::piped())
        .spawn()
        .unwrap();
    program.stdin.take().unwrap().write_all(input).unwrap();
    program.wait_with_output().unwrap()
}

fn status(output: &Output) -> Option<i32> {
    output.status.code()
}

fn messages(output: &Output) -> String {
    String::from_utf8(output.stderr.clone()).unwrap()
}

#[test]
fn encode_and_decode() {
    let encoded = run(&["encode"], SOURCE.as_bytes());
    assert_eq!(
        (status(&encoded), encoded.stdout.as_slice()),
        (Some(0), &TABLE[..])
    );
    let decoded = run(&["decode"], &TABLE);
    assert_eq!(
        (status(&decoded), decoded.stdout.as_slice()),
        (Some(0), SOURCE.as_bytes())
    );
}

#[test]
fn faults_are_told_and_nothing_is_written() {
    let encoded = run(&["encode"], b"horizon 5\nchannel 0\n");
    assert_eq!((status(&encoded), encoded.stdout.len()), (Some(1), 0));
    assert_eq!(
        messages(&encoded),
        "line 2: 'channel' begins no line of this text form\n"
    );
    let decoded = run(&["decode"], &TABLE[..6]);
    assert_eq!((status(&decoded), decoded.stdout.len()), (Some(1), 0));
    let not_text = run(&["encode"], b"horizon 5\n# \xff\n");
    assert_eq!(status(&not_text), Some(1));
    assert_eq!(
        messages(&not_text),
        "line 2: a byte that is not UTF-8 text\n"
    );
}

#[test]
fn kinds() {
    for (input, word) in [(SOURCE.as_bytes(), "text"), (&TABLE, "other")] {
        let output = run(&["kind"], input);
        let said = String::from_utf8(output.stdout.clone()).unwrap();
        assert_eq!((status(&output), said), (Some(0), format!("{word}\n")));
    }
}

#[test]
fn wrong_use() {
    for words in [&[][..], &["encode", "file"], &["build"], &["something"]] {
        let output = run(words, b"");
        assert_eq!(status(&output), Some(2));
        assert!(messages(&output).starts_with("usage:"));
    }
}

/// A folder of its own for each test, with one source in it.
fn folder_with_one(test: &str) -> PathBuf {
    let name = format!("table_text-{test}-{}", std::process::id());
    let folder = env::temp_dir().join(name);
    fs::create_dir_all(&folder).unwrap();
    fs::write(folder.join("one.txt"), SOURCE).unwrap();
    fs::write(folder.join("answers.tsv"), "one\trefused 3 255\n").unwrap();
    folder
}

/// The same with an accepted table beside it, its schedule and its questions; built.
fn folder_with_two(test: &str) -> PathBuf {
    let folder = folder_with_one(test);
    for (name, text) in [
        ("two.txt", GOOD),
        ("two.schedule", SCHEDULE),
        ("two.why", QUESTIONS),
        ("answers.tsv", "one\trefused 3 255\ntwo\taccepted\n"),
    ] {
        fs::write(folder.join(name), text).unwrap();
    }
    assert_eq!(call("build", &folder).0, Some(0));
    folder
}

/// Each of these, as the first line of a file, is refused with how it is written.
fn refuses_lines(folder: &Path, name: &str, form: &str, lines: &[&str]) {
    for line in lines {
        fs::write(folder.join(name), line).unwrap();
        let told = format!("{name}: line 1: {form}\n");
        assert_eq!(call("verify", folder), (Some(1), told), "{line}");
    }
}

/// An empty file is refused, and one beside a table that is not accepted.
fn refuses_elsewhere(folder: &Path, kind: &str, what: &str, good: &str) {
    let (two, one) = (format!("two.{kind}"), format!("one.{kind}"));
    fs::write(folder.join(&two), "").unwrap();
    let none = format!("{two}: is empty\n");
    assert_eq!(call("verify", folder), (Some(1), none));
    fs::write(folder.join(&two), good).unwrap();
    fs::write(folder.join(&one), good).unwrap();
    let other = format!("one: has {what} and is not accepted\n");
    assert_eq!(call("verify", folder), (Some(1), other));
}

fn call(word: &str, folder: &Path) -> (Option<i32>, String) {
    let output = run(&[word, folder.to_str().unwrap()], b"");
    let said = String::from_utf8(output.stdout.clone()).unwrap() + &messages(&output);
    (status(&output), said)
}

#[test]
fn build_then_verify() {
    let folder = folder_with_one("build");
    assert_eq!(call("build", &folder), (Some(0), "1 tables built\n".into()));
    assert_eq!(fs::read(folder.join("one.bin")).unwrap(), TABLE);
    assert_eq!(
        call("verify", &folder),
        (Some(0), "1 tables verified\n".into())
    );
    fs::remove_dir_all(folder).unwrap();
}

#[test]
fn build_names_file_and_line() {
    let folder = folder_with_one("fault");
    fs::write(folder.join("two.txt"), "horizon\n").unwrap();
    let told = "two.txt: line 1: write: horizon N\n".to_string();
    assert_eq!(call("build", &folder), (Some(1), told));
    fs::remove_dir_all(folder).unwrap();
}

#[test]
fn verify_finds_what_does_not_belong() {
    let folder = folder_with_one("verify");
    let (code, said) = call("verify", &folder);
    assert_eq!(code, Some(1));
    assert!(said.starts_with("one.bin: "), "{said}");

    fs::write(folder.join("one.bin"), [1, 0, 7]).unwrap();
    let differs = "one.bin: differs from what one.txt gives\n".to_string();
    assert_eq!(call("verify", &folder), (Some(1), differs));

    fs::write(folder.join("one.bin"), TABLE).unwrap();
    fs::write(folder.join("two.bin"), TABLE).unwrap();
    fs::write(folder.join("answers.tsv"), "three\taccepted\n").unwrap();
    let lines = [
        "two: has no source (.txt)\n",
        "three: has an answer and no source (.txt)\n",
        "one: has no answer\n",
        "three: is accepted and has no schedule\n",
        "three: is accepted and has no questions\n",
    ];
    assert_eq!(call("verify", &folder), (Some(1), lines.concat()));
    fs::remove_dir_all(folder).unwrap();
}

#[test]
fn verify_reads_the_answers_strictly() {
    let folder = folder_with_one("answers");
    fs::write(folder.join("one.bin"), TABLE).unwrap();
    let form = "write: NAME, a tab, then: accepted, or: refused N C";
    for bad in [
        "one accepted",
        "one\trefused 3",
        "one\tgood",
        "one\tmaybe accepted",
    ] {
        fs::write(folder.join("answers.tsv"), bad).unwrap();
        let told = format!("answers.tsv: line 1: {form}\n");
        assert_eq!(call("verify", &folder), (Some(1), told), "{bad}");
    }
    fs::write(folder.join("answers.tsv"), "one\taccepted\none\taccepted\n").unwrap();
    let sorted = "answers.tsv: line 2: names must be sorted, each once\n".to_string();
    assert_eq!(call("verify", &folder), (Some(1), sorted));
    fs::remove_dir_all(folder).unwrap();
}

/// The smallest good table, with its schedule.
const GOOD: &str = "horizon 1
channels 0
component
  clocks 1
  variables 0
  initial 0
  location x0 <= 1
  internal 0 -> 0
";
const SCHEDULE: &str = "c e l entry ready end msg\n0 0 0 0 0 1 -\n";
const QUESTIONS: &str = "0 0 0|0 taken\n0 1 refused 21 255\n";

#[test]
fn verify_reads_the_schedules() {
    let folder = folder_with_one("schedules");
    let file = |name: &str, text: &str| fs::write(folder.join(name), text).unwrap();
    file("two.txt", GOOD);
    file("two.why", QUESTIONS);
    file("answers.tsv", "one\trefused 3 255\ntwo\taccepted\n");
    assert_eq!(call("build", &folder).0, Some(0));
    let none = "two: is accepted and has no schedule\n".to_string();
    assert_eq!(call("verify", &folder), (Some(1), none));

    file("two.schedule", SCHEDULE);
    let verified = "2 tables verified\n".to_string();
    assert_eq!(call("verify", &folder), (Some(0), verified));

    file("one.schedule", SCHEDULE);
    let other = "one: has a schedule and is not accepted\n".to_string();
    assert_eq!(call("verify", &folder), (Some(1), other));
    fs::remove_file(folder.join("one.schedule")).unwrap();

    file("two.schedule", "c e l entry ready end msg\n0 0 0 0 0 1\n");
    let form = "two.schedule: line 2: write seven numbers, - for no message\n".to_string();
    assert_eq!(call("verify", &folder), (Some(1), form));
    file("two.schedule", SCHEDULE.trim_end());
    let end = "two.schedule: the last line does not end\n".to_string();
    assert_eq!(call("verify", &folder), (Some(1), end));
    fs::remove_dir_all(folder).unwrap();
}

#[test]
fn verify_reads_the_questions() {
    let folder = folder_with_one("questions");
    let file = |name: &str, text: &str| fs::write(folder.join(name), text).unwrap();
    file("two.txt", GOOD);
    file("two.schedule", SCHEDULE);
    file("answers.tsv", "one\trefused 3 255\ntwo\taccepted\n");
    assert_eq!(call("build", &folder).0, Some(0));
    let none = "two: is accepted and has no questions\n".to_string();
    assert_eq!(call("verify", &folder), (Some(1), none));
    file("two.why", QUESTIONS);
    let verified = "2 tables verified\n".to_string();
    assert_eq!(call("verify", &folder), (Some(0), verified));

    let form = "write: COMPONENT TICK, then: P|EDGE REASON.., or: refused N C";
    let lines = [
        "0 0",
        "0 0 0",
        "0 0 0|0 window",
        "0 0 0|0 taken|1 taken",
        "0 0 0|0 data|1 taken",
        "0 0 0|0 soon|1 taken",
        "0 0 |0 taken",
        "x 0 0|0 taken",
        "0 -1 0|0 taken",
        "0 0 x|0 taken",
        "0 0 0|x taken",
    ];
    refuses_lines(&folder, "two.why", form, &lines);
    file("two.why", "0 1 0|0 taken\n0 0 0|0 taken\n");
    let rising = "two.why: line 2: components and their ticks must rise, each once\n";
    assert_eq!(call("verify", &folder), (Some(1), rising.to_string()));
    refuses_elsewhere(&folder, "why", "questions", QUESTIONS);
    fs::remove_dir_all(folder).unwrap();
}

#[test]
fn verify_reads_the_charts() {
    let folder = folder_with_two("charts");
    let file = |name: &str, text: &str| fs::write(folder.join(name), text).unwrap();
    let chart = format!("C0: {:>64}\n", "W");
    file("two.chart", &chart);
    let verified = "2 tables verified\n".to_string();
    assert_eq!(call("verify", &folder), (Some(0), verified));

    for bad in [
        chart.replace('0', "1"),
        chart.replace('W', "X"),
        chart.replace(": ", ":"),
        chart.trim_end().to_string(),
    ] {
        file("two.chart", &bad);
        let form = "two.chart: line 1: not a row of a chart\n".to_string();
        assert_eq!(call("verify", &folder), (Some(1), form), "{bad}");
    }
    file("two.chart", "");
    let none = "two.chart: not one to eight rows\n".to_string();
    assert_eq!(call("verify", &folder), (Some(1), none));
    file("two.chart", &chart);
    file("one.chart", &chart);
    let other = "one: has a chart and no schedule\n".to_string();
    assert_eq!(call("verify", &folder), (Some(1), other));
    fs::remove_dir_all(folder).unwrap();
}

#[test]
fn verify_reads_the_verdicts_at_spreads() {
    let folder = folder_with_two("spreads");
    let file = |name: &str, text: &str| fs::write(folder.join(name), text).unwrap();
    file(
        "two.spread",
        "0 accepted\n3 refused 16 0\n1001 refused 19 255\n",
    );
    file("one.spread", "0 refused 3 255\n");
    let verified = "2 tables verified\n".to_string();
    assert_eq!(call("verify", &folder), (Some(0), verified));

    let form = "write: G, then: accepted, or: refused N C";
    let lines = [
        "0",
        "0  accepted",
        "x accepted",
        "0 refused 3",
        "-1 accepted",
    ];
    refuses_lines(&folder, "two.spread", form, &lines);
    file("two.spread", "0 accepted\n1 accepted\n1 accepted\n");
    let rising = "two.spread: line 3: spreads must rise, each once\n".to_string();
    assert_eq!(call("verify", &folder), (Some(1), rising));
    for bad in ["", "1 accepted\n", "0 refused 16 0\n"] {
        file("two.spread", bad);
        let first = "two.spread: line 1: write: 0 accepted\n".to_string();
        assert_eq!(call("verify", &folder), (Some(1), first), "{bad}");
    }
    fs::remove_file(folder.join("two.spread")).unwrap();
    file("three.spread", "0 accepted\n");
    let other = "three: has verdicts at spreads and no answer\n".to_string();
    assert_eq!(call("verify", &folder), (Some(1), other));
    fs::remove_dir_all(folder).unwrap();
}

#[test]
fn verify_reads_the_runs() {
    let folder = folder_with_two("runs");
    let file = |name: &str, text: &str| fs::write(folder.join(name), text).unwrap();
    let runs = "0 - - 1 255 0 0\n3 1,0 00ff 1 255 1 2|0 4 -|1 9 5\n";
    file("two.runs", runs);
    let verified = "2 tables verified\n".to_string();
    assert_eq!(call("verify", &folder), (Some(0), verified));

    let form = "write: G OFFSETS CHOICES END NODE TICK USED|NODE TICK FINISH..";
    let lines = [
        "0 - 00",
        "x - 00 1 255 0 0",
        "0 1, 00 1 255 0 0",
        "0 - 0 1 255 0 0",
        "0 - 0g 1 255 0 0",
        "0 - 00 1 255 0",
        "0 - 00 1 255 0 0|0 4",
        "0 - 00 1 255 0 0|0 4 x",
        "0 - 00 1 255 0 0|",
    ];
    refuses_lines(&folder, "two.runs", form, &lines);
    refuses_elsewhere(&folder, "runs", "runs", runs);
    fs::remove_dir_all(folder).unwrap();
}

#[test]
fn verify_reads_the_pairs() {
    let folder = folder_with_two("pairs");
    let file = |name: &str, text: &str| fs::write(folder.join(name), text).unwrap();
    let pairs = "- 0|-\n0:0,1:3 2|000000000101\n0:3,0:2 refused 24 255\n9:0 refused 21 255\n";
    file("two.where", pairs);
    let verified = "2 tables verified\n".to_string();
    assert_eq!(call("verify", &folder), (Some(0), verified));

    let form = "write: COMPONENT:TICK,.., then: READ|BYTES, or: refused N 255";
    let lines = [
        "0:0",
        "0 1|000000",
        "0:x 1|000000",
        "0:0, 1|000000",
        "0:0 1|0000",
        "0:0 1|00000g",
        "0:0 1|-",
        "0:0 x|000000",
        "- 0|",
        "- 0",
        "0:0 refused 13 255",
        "0:0 accepted",
    ];
    refuses_lines(&folder, "two.where", form, &lines);
    refuses_elsewhere(&folder, "where", "pairs", pairs);
    fs::remove_dir_all(folder).unwrap();
}
