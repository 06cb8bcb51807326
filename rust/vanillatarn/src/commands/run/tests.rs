//! Runs of a component that works from 2 to 6 and from 8 to 10 in each round, its works
//! finished at 5, 10 and 12.

use super::*;

fn table() -> Vec<u8> {
    let root = concat!(env!("CARGO_MANIFEST_DIR"), "/../../corpus/");
    std::fs::read(format!("{root}accepted_finish_in_window.bin")).unwrap()
}

/// The set at 2, the add at 3, done at 5; then done at 10; then all at 12.
fn choices() -> Vec<u8> {
    let mut choices = Vec::new();
    for (choice, count) in [
        (0, 5),
        (255, 2),
        (0, 2),
        (255, 1),
        (0, 1),
        (255, 2),
        (0, 9),
        (255, 3),
        (0, 1),
        (255, 2),
        (0, 9),
        (255, 2),
        (0, 4),
        (0, 8),
        (255, 6),
        (0, 1),
    ] {
        choices.extend(vec![choice; count]);
    }
    choices
}

const HEAD: &str = "choices used up
tick 18, choices used 58, observations 4
node edge location  tick    x0    x1    x2    x3     v0     v1     v2     v3 finished
";
const LINES: [&str; 4] = [
    "   0    0        0     2     2     0     0     0      0      0      0      0        -\n",
    "   0    1        1     8     8     0     0     0      6      0      0      0        5\n",
    "   0    0        0    12     2     0     0     0      6      0      0      0       10\n",
    "   0    1        1    18     8     0     0     0      6      0      0      0       12\n",
];

fn report(form: Form, close: Option<u32>, spread: u32, offsets: &[u32]) -> Report<'_> {
    Report {
        form,
        close,
        spread,
        offsets,
    }
}

fn told(form: Form, close: Option<u32>) -> String {
    let words = format!("{HEAD}{}", LINES.concat());
    let told = report(form, close, 0, &[]).told(&table(), &choices(), &words);
    String::from_utf8(told.unwrap()).unwrap()
}

#[test]
fn all_observations_are_the_programs_lines() {
    assert_eq!(told(Form::Words, None), format!("{HEAD}{}", LINES.concat()));
}

/// 5 is a tick before the end of 2 to 6, 10 is the end of 8 to 10, 12 the ready of 12 to
/// 16.
#[test]
fn close_ones_are_those_that_finished_near_the_end() {
    let of = |lines: &[usize]| -> String { lines.iter().map(|line| LINES[*line]).collect() };
    for (close, lines, when) in [
        (
            0,
            &[2][..],
            "1 of 3 works finished at the end of their windows",
        ),
        (
            1,
            &[1, 2],
            "2 of 3 works finished 1 tick or less before the end of their windows",
        ),
        (
            3,
            &[1, 2],
            "2 of 3 works finished 3 ticks or less before the end of their windows",
        ),
        (
            4,
            &[1, 2, 3],
            "3 of 3 works finished 4 ticks or less before the end of their windows",
        ),
    ] {
        assert_eq!(
            told(Form::Words, Some(close)),
            format!("{HEAD}{}{when}\n", of(lines))
        );
    }
}

#[test]
fn an_object() {
    let start = r#"{"spread":0,"offsets":[],"#;
    let run = r#""refused":null,"end":"choices used up","node":null,"tick":18,"used":58,"size":4,"#;
    let first = r#"{"node":0,"edge":0,"location":0,"tick":2,"clocks":[2,0,0,0],"values":[0,0,0,0],"finished":null,"window":null}"#;
    let second = r#"{"node":0,"edge":1,"location":1,"tick":8,"clocks":[8,0,0,0],"values":[6,0,0,0],"finished":5,"window":{"ready":2,"end":6}}"#;
    let third = r#"{"node":0,"edge":0,"location":0,"tick":12,"clocks":[2,0,0,0],"values":[6,0,0,0],"finished":10,"window":{"ready":8,"end":10}}"#;
    let fourth = r#"{"node":0,"edge":1,"location":1,"tick":18,"clocks":[8,0,0,0],"values":[6,0,0,0],"finished":12,"window":{"ready":12,"end":16}}"#;
    let all = [first, second, third, fourth].join(",");
    let whole = format!("{start}{run}\"observations\":[{all}]}}\n");
    assert_eq!(told(Form::Json, None), whole);
    let close = format!("{start}\"close\":0,{run}\"observations\":[{third}]}}\n");
    assert_eq!(told(Form::Json, Some(0)), close);
}

#[test]
fn a_refusal() {
    let report = report(Form::Json, None, 3, &[4, 0]);
    let told = report.told(&[], &[], "refused 1 255\nThe answer is no: ..\n");
    let told = String::from_utf8(told.unwrap()).unwrap();
    let refused = r#""refused":{"number":1,"component":null},"end":null,"node":null,"tick":null,"used":null,"size":0,"#;
    let start = r#"{"spread":3,"offsets":[4,0],"#;
    assert_eq!(told, format!("{start}{refused}\"observations\":[]}}\n"));
}

#[test]
fn another_text_than_the_programs_is_seen() {
    let report = report(Form::Words, None, 0, &[]);
    let right = format!("{HEAD}{}", LINES.concat());
    for wrong in [
        right.replace("used up", "lost"),
        right.replace("tick 18", "tick 17"),
        right.replace("       10\n", "       11\n"),
        right.replace("        -\n", "        0\n"),
        right.replace("   0    1        1     8", "   1    1        1     8"),
        HEAD.to_string(),
        String::new(),
    ] {
        assert!(
            report.told(&table(), &choices(), &wrong).is_err(),
            "{wrong}"
        );
    }
    assert!(report.told(&table(), &choices(), &right).is_ok());
}
