//! The tables made at random, and where their parts stand.

use comparison::bytes::{get, hex, left_out, repeated, two, unhex, Lengths};
use comparison::layout::{Layout, Part};
use comparison::random::Random;
use comparison::tables::*;
use reference::table::*;

const ALL_VALUES: [Values; 3] = [Values::Small, Values::Any, Values::Ends];

/// Many tables of all shapes.
fn many(seed: u64) -> Vec<Table> {
    let mut random = Random::new(seed);
    let mut tables = Vec::new();
    for _ in 0..100 {
        for values in ALL_VALUES {
            for shape in [Shape::small(), Shape::any(), Shape::greatest()] {
                tables.push(table(&mut random, &shape.with_values(values)));
            }
        }
    }
    tables
}

#[test]
fn tables_are_read_as_they_were_written() {
    for table in many(1) {
        assert_eq!(read_table(&write_table(&table)), Ok(table));
    }
}

#[test]
fn tables_of_a_length_have_it_and_are_read_as_they_were_written() {
    let mut random = Random::new(2);
    let lengths = (SHORTEST_EXACT..=8192).step_by(97);
    for length in lengths.chain([8191, 8192]) {
        for values in ALL_VALUES {
            let table = of_length(&mut random, length, values);
            let bytes = write_table(&table);
            assert_eq!(bytes.len(), length);
            assert_eq!(read_table(&bytes), Ok(table));
        }
    }
    let long = write_table(&of_length(&mut random, 8193, Values::Any));
    assert_eq!(long.len(), 8193);
    assert_eq!(read_table(&long), Err(Refusal::whole(2)));
}

/// The most that any edge of these tables has.
fn most(tables: &[Table], count: impl Fn(&Edge) -> usize) -> usize {
    let components = tables.iter().flat_map(|table| &table.components);
    let edges = components.flat_map(|component| &component.edges);
    edges.map(count).max().unwrap()
}

#[test]
fn all_counts_reach_their_limits() {
    let tables = many(3);
    let greatest = table(&mut Random::new(3), &Shape::greatest());
    assert_eq!((greatest.components.len(), greatest.channels), (8, 16));
    for component in &greatest.components {
        let parts = (component.locations.len(), component.edges.len());
        assert_eq!(parts, (16, 32));
        assert_eq!((component.clocks, component.variables), (4, 4));
    }
    assert_eq!(most(&tables, |edge| edge.clock_bounds.len()), 4);
    assert_eq!(most(&tables, |edge| edge.data_bounds.len()), 4);
    let updates = |edge: &Edge| match &edge.action {
        Action::Internal(updates) => updates.len(),
        _ => 0,
    };
    assert_eq!(most(&tables, updates), 4);
    let pairs = |edge: &Edge| match &edge.action {
        Action::Receive(pairs) => pairs.len(),
        _ => 0,
    };
    assert_eq!(most(&tables, pairs), 8);
    let sends = |edge: &Edge| usize::from(matches!(edge.action, Action::Send(_)));
    assert_eq!(most(&tables, sends), 1);
}

#[test]
fn the_worked_example_is_well_formed() {
    let table = read_table(&WORKED_EXAMPLE).unwrap();
    assert_eq!(write_table(&table), WORKED_EXAMPLE);
    assert_eq!((table.components.len(), table.horizon), (2, 20));
}

#[test]
fn numbers_follow_each_other_without_gaps_and_are_in_range() {
    for table in many(4) {
        let bytes = write_table(&table);
        let layout = Layout::of(&table);
        let mut at = 0;
        for field in &layout.fields {
            assert_eq!(field.at, at);
            at += field.width;
            let value = get(&bytes, field);
            assert!(value <= field.greatest || value == NO_HIGH, "{field:?}");
        }
        assert_eq!(at, bytes.len());
    }
}

#[test]
fn components_stand_where_their_lengths_say() {
    for table in many(5) {
        let bytes = write_table(&table);
        let mut at = 7 + table.bands.len();
        for range in Layout::of(&table).components {
            assert_eq!((range.start, range.len()), (at, two(&bytes, at).into()));
            at = range.end;
        }
        assert_eq!(at, bytes.len());
    }
}

/// How many parts are counted at a byte.
fn counted(layout: &Layout, count_at: usize) -> usize {
    let same = |part: &&Part| part.count_at == count_at;
    layout.parts.iter().filter(same).count()
}

#[test]
fn parts_are_as_many_as_are_counted() {
    for table in many(6).iter().step_by(10) {
        let bytes = write_table(table);
        let layout = Layout::of(table);
        for part in layout.parts.iter().step_by(7) {
            let count = counted(&layout, part.count_at);
            assert_eq!(count, bytes[part.count_at].into());
        }
    }
}

/// The refusal after a change with all lengths put right. A part left out may
/// be missed, a part repeated may be one too many, but all parts fit.
fn refusal(bytes: &[u8]) -> Option<u8> {
    read_table(bytes).err().map(|refusal| refusal.number)
}

#[test]
fn parts_repeated_or_left_out_still_fit() {
    for table in many(7).iter().step_by(10) {
        let bytes = write_table(table);
        for part in Layout::of(table).parts.iter().step_by(5) {
            let more = repeated(&bytes, part, Lengths::ALL[0]);
            assert_ne!(refusal(&more), Some(4), "{part:?}");
            let less = left_out(&bytes, part, Lengths::ALL[0]);
            assert_ne!(refusal(&less), Some(4), "{part:?}");
        }
    }
}

#[test]
fn hexadecimal_goes_both_ways() {
    assert_eq!(hex(&[]), "-");
    assert_eq!(hex(&[1, 0xab]), "01ab");
    for bytes in [vec![], vec![0], vec![1, 2, 255]] {
        assert_eq!(unhex(&hex(&bytes)), Some(bytes));
    }
    assert_eq!(unhex("012"), None);
    assert_eq!(unhex("0g"), None);
}
