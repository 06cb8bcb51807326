//! Edge choices that are wrong in one point are found out.

use comparison::classes::{Class, Extent, CLASSES};
use comparison::compare_class;
use comparison::difference::Stop;
use comparison::random::Random;
use comparison::readers::{refused, second_edge_choice, Chooses, Reader, Readers};
use reference::table::{read_table, write_table, Table};
use timed_network::{EdgeChoice, Entry, Verdict};

/// An answer.
type Chosen = Result<EdgeChoice, Verdict>;

/// The second implementation's answer with another count.
fn counted(table: &[u8], entry: &Entry, count: fn(&Table, &Entry, &EdgeChoice) -> u32) -> Chosen {
    let choice = second_edge_choice(table, entry)?;
    let read = read_table(table).expect("the table was read");
    let looked = count(&read, entry, &choice);
    Ok(EdgeChoice { looked, ..choice })
}

/// The answer of a search over the first edges that stops where it is told to.
fn stopping(table: &[u8], entry: &Entry, stops: fn(&EdgeChoice) -> bool) -> Chosen {
    let whole = second_edge_choice(table, entry)?;
    let read = read_table(table).expect("the table was read");
    let Some(component) = read.components.get(usize::from(entry.component)) else {
        return Ok(whole);
    };
    for count in 1..=component.edges.len() {
        let mut first = read.clone();
        first.components[usize::from(entry.component)]
            .edges
            .truncate(count);
        let choice = second_edge_choice(&write_table(&first), entry)?;
        if stops(&choice) {
            return Ok(EdgeChoice {
                looked: count as u32,
                ..choice
            });
        }
    }
    Ok(whole)
}

fn one_too_few(table: &[u8], entry: &Entry) -> Chosen {
    counted(table, entry, |_, _, choice| choice.looked.saturating_sub(1))
}

/// One more than the edge taken, whether it is ready at once or not.
fn up_to_the_edge_taken(table: &[u8], entry: &Entry) -> Chosen {
    counted(table, entry, |_, _, choice| {
        choice
            .taken
            .map_or(choice.looked, |taken| u32::from(taken.edge) + 1)
    })
}

fn always_all(table: &[u8], entry: &Entry) -> Chosen {
    counted(table, entry, |table, entry, _| {
        let component = table.components.get(usize::from(entry.component));
        component.map_or(0, |component| component.edges.len() as u32)
    })
}

fn none_where_none_is_at_once(table: &[u8], entry: &Entry) -> Chosen {
    counted(table, entry, |_, _, choice| match choice.taken {
        Some(taken) if taken.ready == 0 => choice.looked,
        _ => 0,
    })
}

/// Counts the edges that leave the location alone.
fn only_those_from_there(table: &[u8], entry: &Entry) -> Chosen {
    counted(table, entry, |table, entry, choice| {
        let component = table.components.get(usize::from(entry.component));
        let edges = component.map_or(&[][..], |component| &component.edges[..]);
        let looked = edges.iter().take(choice.looked as usize);
        looked.filter(|edge| edge.source == entry.location).count() as u32
    })
}

fn stops_at_any_candidate(table: &[u8], entry: &Entry) -> Chosen {
    stopping(table, entry, |choice| choice.taken.is_some())
}

fn stops_a_tick_late(table: &[u8], entry: &Entry) -> Chosen {
    stopping(table, entry, |choice| {
        choice.taken.is_some_and(|taken| taken.ready <= 1)
    })
}

fn component_0_for_all(table: &[u8], entry: &Entry) -> Chosen {
    let component = 0;
    second_edge_choice(
        table,
        &Entry {
            component,
            ..*entry
        },
    )
}

fn the_next_location(table: &[u8], entry: &Entry) -> Chosen {
    let location = entry.location.wrapping_add(1);
    second_edge_choice(table, &Entry { location, ..*entry })
}

fn clocks_forgotten(table: &[u8], entry: &Entry) -> Chosen {
    let clocks = [0; 4];
    second_edge_choice(table, &Entry { clocks, ..*entry })
}

fn variables_forgotten(table: &[u8], entry: &Entry) -> Chosen {
    let values = [0; 4];
    second_edge_choice(table, &Entry { values, ..*entry })
}

/// Says 8 where there is no candidate.
fn eight(table: &[u8], entry: &Entry) -> Chosen {
    let choice = second_edge_choice(table, entry)?;
    match choice.taken {
        Some(_) => Ok(choice),
        None => Err(refused(8, entry.component)),
    }
}

/// The end for the tick behind it.
fn end_too_far(table: &[u8], entry: &Entry) -> Chosen {
    let mut choice = second_edge_choice(table, entry)?;
    if let Some(taken) = &mut choice.taken {
        taken.end += 1;
    }
    Ok(choice)
}

const EXTENT: Extent = Extent {
    rounds: 5,
    step: 41,
};

/// Whether a class finds a difference.
fn finds(name: &str, edge_choice: Chooses) -> bool {
    let class: &Class = CLASSES.iter().find(|class| class.name == name).unwrap();
    let second = Reader::second();
    let library = Reader {
        edge_choice,
        ..second
    };
    let readers = Readers { library, second };
    let tried = compare_class(&readers, class, &mut Random::new(9), &EXTENT);
    matches!(tried, Err(Stop::Differs(_)))
}

#[test]
fn each_fault_is_found() {
    let faults: [(&str, Chooses); 13] = [
        ("one_too_few", one_too_few),
        ("up_to_the_edge_taken", up_to_the_edge_taken),
        ("always_all", always_all),
        ("none_where_none_is_at_once", none_where_none_is_at_once),
        ("only_those_from_there", only_those_from_there),
        ("stops_at_any_candidate", stops_at_any_candidate),
        ("stops_a_tick_late", stops_a_tick_late),
        ("component_0_for_all", component_0_for_all),
        ("the_next_location", the_next_location),
        ("clocks_forgotten", clocks_forgotten),
        ("variables_forgotten", variables_forgotten),
        ("eight", eight),
        ("end_too_far", end_too_far),
    ];
    for (name, fault) in faults {
        assert!(finds("many edges, some ready at once", fault), "{name}");
    }
    assert!(!finds("many edges, some ready at once", second_edge_choice));
}

/// The stored numbers find each fault of the count.
#[test]
fn the_vectors_find_each_wrong_count() {
    let stored = "programs, parts and runs of the vectors";
    for fault in [
        one_too_few,
        up_to_the_edge_taken,
        always_all,
        none_where_none_is_at_once,
        only_those_from_there,
        stops_at_any_candidate,
        stops_a_tick_late,
    ] {
        assert!(finds(stored, fault));
    }
}
