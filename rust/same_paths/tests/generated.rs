//! Generated tables and those of the corpus: the text of each is read back, and its
//! network has the paths of the table's.

mod common;

use common::*;
use reference::table::{read_table, write_table, Table};
use reference::uppaal::text;
use same_paths::{same_paths, Compared, Reach};
use std::path::PathBuf;

const REACH: Reach = Reach {
    ticks: 14,
    states: 1500,
};

fn compared(table: &Table, reach: Reach) -> Compared {
    let text = text(table);
    let system = xta::read(text.as_bytes()).unwrap_or_else(|fault| panic!("{fault}: {text}"));
    same_paths(table, &system, reach).unwrap_or_else(|other| panic!("{other}: {text}"))
}

/// Whatever checks 7 to 12 would say: the network is that of any table that is read.
#[test]
fn thousands_of_small_tables() {
    let mut numbers = Numbers(88_172_645_463_325_252);
    let mut sum = Compared::default();
    let mut cut = 0;
    for _ in 0..6000 {
        let table = small_table(&mut numbers);
        assert_eq!(read_table(&write_table(&table)).as_ref(), Ok(&table));
        let found = compared(&table, REACH);
        sum.states += found.states;
        sum.delays += found.delays;
        sum.alone += found.alone;
        sum.joint += found.joint;
        sum.broken += found.broken;
        cut += usize::from(found.cut);
    }
    assert!(sum.states > 150_000 && sum.delays > 50_000 && sum.alone > 150_000);
    assert!(sum.joint > 5_000 && sum.broken > 1_000 && cut < 100);
}

/// Each table of the corpus that is read, also those that a later check refuses.
#[test]
fn tables_of_the_corpus() {
    let folder = PathBuf::from(env!("CARGO_MANIFEST_DIR")).join("../../corpus");
    let mut tables = 0;
    for entry in std::fs::read_dir(folder).unwrap() {
        let path = entry.unwrap().path();
        if path.extension().is_none_or(|kind| kind != "bin") {
            continue;
        }
        if let Ok(table) = read_table(&std::fs::read(&path).unwrap()) {
            let (ticks, states) = (30, 400);
            compared(&table, Reach { ticks, states });
            tables += 1;
        }
    }
    assert!(tables > 80, "{tables} tables were read");
}
