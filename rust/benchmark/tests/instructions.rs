//! `tools/instructions --compare` on counts written by hand: which rows are told, and
//! the status. Nothing is counted here.

use std::fs;
use std::path::{Path, PathBuf};
use std::process::{Command, Output};

/// Two files of counts in a folder of the test's own.
struct Counts {
    folder: PathBuf,
}

impl Counts {
    fn new(test: &str, old: &str, new: &str) -> Counts {
        let folder = Path::new(env!("CARGO_TARGET_TMPDIR")).join(test);
        fs::create_dir_all(&folder).expect("the folder can be made");
        for (name, text) in [("old", old), ("new", new)] {
            fs::write(folder.join(name), text).expect("the file can be written");
        }
        Counts { folder }
    }

    /// What is said of them, and whether no row grew too much.
    fn compare(&self, words: &[&str]) -> (String, Option<i32>) {
        let tool = Path::new(env!("CARGO_MANIFEST_DIR")).join("../../tools/instructions");
        let mut command = Command::new("bash");
        command
            .arg(tool)
            .args(words)
            .args(["--compare", "old", "new"]);
        let answer = command.current_dir(&self.folder).output();
        let Output { stdout, status, .. } = answer.expect("bash is there");
        let said = String::from_utf8(stdout).expect("the words are text");
        (said, status.code())
    }
}

const OLD: &str = "a hub\tcheck\t1000\na hub\trun\t2000\na plan\tplan\t50\n";

#[test]
fn six_percent_more_is_told_and_four_is_not() {
    let new = "a hub\tcheck\t1060\na hub\trun\t2080\na plan\tplan\t50\n";
    let (said, status) = Counts::new("six", OLD, new).compare(&[]);
    assert_eq!(status, Some(1), "{said}");
    let grew: Vec<&str> = said
        .lines()
        .filter(|line| line.starts_with("grew"))
        .collect();
    let expected = "grew by more than 5 percent: check, a hub: 1000 to 1060 (+6.0 %)";
    assert_eq!(grew, [expected], "{said}");
    assert!(said.contains("+4.00 %  run, a hub"), "{said}");
    assert!(said.contains("1 rows the same, 0 new, 0 gone"), "{said}");
}

#[test]
fn exactly_five_percent_is_not_told() {
    let new = OLD.replace("1000", "1050").replace("2000", "1000");
    let counts = Counts::new("five", OLD, &new);
    let (said, status) = counts.compare(&[]);
    assert_eq!(status, Some(0), "{said}");
    assert!(said.ends_with("no row grew by more than 5 percent\n"));
    assert!(said.contains("-50.00 %  run, a hub"), "{said}");
}

#[test]
fn another_growth_can_be_asked_for() {
    let new = OLD.replace("1000", "1040");
    let counts = Counts::new("most", OLD, &new);
    assert_eq!(counts.compare(&["--most", "3"]).1, Some(1));
    assert_eq!(counts.compare(&["--most", "4"]).1, Some(0));
    assert_eq!(counts.compare(&["--most", "3.9"]).1, Some(1));
    assert_eq!(counts.compare(&["--most", "much"]).1, Some(2));
}

#[test]
fn rows_that_are_new_or_gone_are_told() {
    let new = OLD.replace("a plan\tplan", "a plan\tplan of one");
    let (said, status) = Counts::new("rows", OLD, &new).compare(&[]);
    assert_eq!(status, Some(0), "{said}");
    assert!(said.contains("new  plan of one, a plan"), "{said}");
    assert!(said.contains("gone  plan, a plan"), "{said}");
    assert!(said.contains("2 rows the same, 1 new, 1 gone"), "{said}");
}

#[test]
fn a_count_that_is_no_number_is_an_error() {
    for new in ["a hub\tcheck\t\n", "a hub\tcheck\n", "a hub\tcheck\t0\n"] {
        let (said, status) = Counts::new("broken", OLD, new).compare(&[]);
        assert_eq!(status, Some(2), "{new}: {said}");
    }
}

/// The rows that are kept are those of the calls that `benchmark --once` makes, each
/// once.
#[test]
fn the_rows_kept_are_those_that_are_counted() {
    let made = Command::new(env!("CARGO_BIN_EXE_benchmark"))
        .arg("--once")
        .output();
    let made = String::from_utf8(made.expect("the benchmark is built").stdout);
    let made = made.expect("the rows are text");
    let mut made: Vec<&str> = made.lines().collect();
    made.sort_unstable();
    let kept = Path::new(env!("CARGO_MANIFEST_DIR")).join("instructions.tsv");
    let kept = fs::read_to_string(kept).expect("the counts are kept");
    let row = |line| str::rsplit_once(line, '\t').map_or(line, |(row, _)| row);
    let kept: Vec<&str> = kept.lines().map(row).collect();
    assert!(made.len() > 200 && made.windows(2).all(|two| two[0] < two[1]));
    assert_eq!(made, kept);
}
