//! The safe call `timing_chart`: the worked example, the vectors, lent bytes of
//! several lengths, refusals.

mod common;

use common::*;
use std::fs;
use std::path::Path;
use timed_network::{timing_chart, Call, Verdict, CHART_ROW};

/// Two rows.
const LENGTH: usize = 2 * CHART_ROW;

/// The answer as the vectors write it: the rows without their line feeds, `|`
/// between them.
fn answer(table: &[u8], lent: usize) -> String {
    let mut chart = vec![77; lent];
    let call = timing_chart(table, &mut chart);
    assert!(chart[call.size..].iter().all(|&byte| byte == 77));
    match call.verdict {
        Verdict::Accepted => {
            let rows = chart[..call.size].chunks(CHART_ROW);
            let cut = |row: &[u8]| String::from_utf8(row[..CHART_ROW - 1].to_vec()).unwrap();
            assert!(rows.clone().all(|row| row.last() == Some(&b'\n')));
            rows.map(cut).collect::<Vec<_>>().join("|")
        }
        refused => refused.to_string(),
    }
}

#[test]
fn all_vectors() {
    let file = Path::new(env!("CARGO_MANIFEST_DIR")).join("../../vectors/chart.tsv");
    let mut count = 0;
    for line in fs::read_to_string(file).unwrap().lines() {
        let fields: Vec<&str> = line.split('\t').collect();
        let words: Vec<&str> = fields[1].split(' ').collect();
        let given = match words[..] {
            ["chart", table] => answer(&unhex(table), 8 * CHART_ROW),
            ["chart", table, lent] => answer(&unhex(table), lent.parse().unwrap()),
            _ => panic!("no such request: {line}"),
        };
        assert_eq!(given, fields[2], "{}: {}", fields[0], fields[1]);
        count += 1;
    }
    assert_eq!(count, 127);
}

/// Each cell of the worked example by its tick: 20 ticks in 64 cells.
#[test]
fn the_worked_example_shows_each_tick_once() {
    let mut chart = [0; LENGTH];
    timing_chart(&PROBE_AND_HUB, &mut chart);
    for (row, letters) in chart
        .chunks(CHART_ROW)
        .zip(["...SSS..WWW..SSS..WW", "..RRRRR..WW.RRRRR..W"])
    {
        let cells = &row[4..CHART_ROW - 1];
        let shown: Vec<u8> = cells.iter().copied().filter(|&cell| cell != b' ').collect();
        assert_eq!(String::from_utf8(shown).unwrap(), letters);
    }
}

#[test]
fn bytes_past_the_rows_stay_and_short_ones_are_refused() {
    for more in [0, 1, 500] {
        let mut chart = vec![77; LENGTH + more];
        let (verdict, size) = (Verdict::Accepted, LENGTH);
        let call = timing_chart(&PROBE_AND_HUB, &mut chart);
        assert_eq!(call, Call { verdict, size });
        assert_eq!(chart[LENGTH..], vec![77; more]);
    }
    for short in [0, 1, CHART_ROW, LENGTH - 1] {
        let mut chart = vec![77; short];
        let (verdict, size) = (refused(13, 255), 0);
        let call = timing_chart(&PROBE_AND_HUB, &mut chart);
        assert_eq!(call, Call { verdict, size });
        assert_eq!(chart, vec![77; short]);
    }
}

#[test]
fn a_refused_table_has_no_chart() {
    let table = with(6, 0);
    for lent in [0, LENGTH] {
        let mut chart = vec![77; lent];
        let (verdict, size) = (refused(3, 255), 0);
        assert_eq!(timing_chart(&table, &mut chart), Call { verdict, size });
        assert_eq!(chart, vec![77; lent]);
    }
}
