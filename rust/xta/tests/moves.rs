//! The moves of networks: delays, transitions alone and of two, ranges.

use xta::network::{moves, start, Move, OutOfRange};
use xta::{explore, read, Explored};

fn explored(text: &str, ticks: u32) -> Result<Explored, OutOfRange> {
    explore(&read(text.as_bytes()).unwrap(), ticks)
}

fn counts(states: usize, delays: usize, alone: usize, joint: usize) -> Explored {
    Explored {
        states,
        delays,
        alone,
        joint,
    }
}

/// Delays stop at an invariant; a state with no move is the last.
#[test]
fn delays() {
    let text = "process P() { clock x; state L { x <= 3 }; init L; } system P;";
    assert_eq!(explored(text, 10), Ok(counts(4, 3, 0, 0)));
    assert_eq!(explored(text, 2), Ok(counts(3, 2, 0, 0)));
    let broken = text.replace("<= 3", "<= -1");
    assert_eq!(explored(&broken, 2), Ok(counts(0, 0, 0, 0)));
    let strict = text.replace("<=", "<");
    assert_eq!(explored(&strict, 10), Ok(counts(3, 2, 0, 0)));
}

/// No location is entered with its invariant broken.
#[test]
fn entries() {
    let text = "process P() { clock x; state L { x <= 3 }, M { x <= 1 }; init L;
                trans L -> M { guard x >= 1; }; } system P;";
    assert_eq!(explored(text, 10), Ok(counts(5, 3, 1, 0)));
    let system = read(text.as_bytes()).unwrap();
    let first = start(&system).unwrap().unwrap();
    assert_eq!(moves(&system, &first).unwrap().len(), 1);
}

/// One that sends and one that receives, of different processes; a third does not move.
#[test]
fn two_processes_on_a_channel() {
    let one = |name: &str, mark: &str| {
        format!(
            "process {name}() {{ clock x; int n; state A, B; init A; \
             trans A -> B {{ sync c{mark}; assign n := 1; }}; }} "
        )
    };
    let sends = one("S", "!") + &one("R", "?") + &one("Q", "?");
    let text = |system: &str| format!("chan c; {sends} system {system};");
    assert_eq!(explored(&text("S"), 0), Ok(counts(1, 0, 0, 0)));
    assert_eq!(explored(&text("R, Q"), 0), Ok(counts(1, 0, 0, 0)));
    assert_eq!(explored(&text("S, R"), 0), Ok(counts(2, 0, 0, 1)));
    assert_eq!(explored(&text("S, R, Q"), 0), Ok(counts(3, 0, 0, 2)));
    let system = read(text("R, S").as_bytes()).unwrap();
    let state = start(&system).unwrap().unwrap();
    let (sender, receiver) = ((1, 0), (0, 0));
    let joint = moves(&system, &state).unwrap();
    assert_eq!(joint[1].0, Move::Joint { sender, receiver });
    let reached: Vec<_> = joint[1]
        .1
        .iter()
        .map(|own| (own.location, own.variables[0]))
        .collect();
    assert_eq!(reached, [(1, 1), (1, 1)]);
}

/// Changes act in order, and a number that leaves its range is told.
#[test]
fn ranges() {
    let text = |assign: &str| {
        format!(
            "process P() {{ clock x; int[-2,3] n; int m; state A, B; init A; \
             trans A -> B {{ assign {assign}; }}; }} system P;"
        )
    };
    for fits in [
        "n := 3",
        "n := -2",
        "n := 2, n := n + 1",
        "m := 32767, n := m - 32766",
        "x := 7",
    ] {
        assert_eq!(explored(&text(fits), 0), Ok(counts(2, 0, 1, 0)), "{fits}");
    }
    for leaves in [
        "n := 4",
        "n := -3",
        "n := 3, n := n + 1, n := n - 1",
        "m := 32768",
        "m := 1 / n",
        "m := 2147483647 + 1 - 2147483647",
        "x := -1",
    ] {
        assert_eq!(explored(&text(leaves), 0), Err(OutOfRange), "{leaves}");
    }
}
