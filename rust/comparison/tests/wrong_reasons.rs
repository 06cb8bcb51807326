//! Reasons that are wrong in one point are found out.

mod finding;
mod retelling;

use comparison::readers::{refused, second_reasons, Reader, Reasons};
use comparison::reasons::AMPLE;
use finding::finder;
use reference::checks::verdict;
use reference::edge_choice::Entry;
use reference::schedule::Passage;
use reference::table::Table;
use retelling::{retold, ToldEdge};
use timed_network::{Told, Verdict, REASON};

/// A class of tables with many edges from few locations.
fn many_edges(class: &str) -> bool {
    class == "many edges, some ready at once"
}

/// The class of stored requests.
fn stored(class: &str) -> bool {
    class == "programs, parts and runs of the vectors"
}

/// Whether a class finds reasons that are wrong.
fn finds(classes: fn(&str) -> bool, reasons: Reasons) -> bool {
    let second = Reader::second();
    let library = Reader { reasons, ..second };
    finder(classes, library, second).is_some()
}

fn window_before_data(table: &[u8], component: u32, tick: u32, told: &mut [u8]) -> Told {
    retold((table, component, tick), told, |edge| {
        let none = edge.window().is_none_or(|(ready, end)| ready >= end);
        (none && !edge.taken()).then_some([2, 255])
    })
}

fn windows_of_one_tick(table: &[u8], component: u32, tick: u32, told: &mut [u8]) -> Told {
    retold((table, component, tick), told, |edge| {
        let (ready, end) = edge.window()?;
        let only = ready == end && edge.failing().is_none();
        let reason = if ready > edge.passage.ready { 3 } else { 4 };
        only.then_some([reason, 255])
    })
}

fn later_and_higher_exchanged(table: &[u8], component: u32, tick: u32, told: &mut [u8]) -> Told {
    exchanged(table, (component, tick), told, [3, 4])
}

fn exchanged(
    table: &[u8],
    (component, tick): (u32, u32),
    told: &mut [u8],
    [one, other]: [u8; 2],
) -> Told {
    let answer = second_reasons(table, component, tick, told);
    for edge in told.chunks_exact_mut(REASON).take(answer.size) {
        edge[1] = match edge[1] {
            reason if reason == one => other,
            reason if reason == other => one,
            reason => reason,
        };
    }
    answer
}

/// All edges that are ready with the one taken are taken.
fn taken_by_ready(table: &[u8], component: u32, tick: u32, told: &mut [u8]) -> Told {
    retold((table, component, tick), told, |edge| {
        let (ready, end) = edge.window()?;
        let together = ready == edge.passage.ready && ready < end && edge.failing().is_none();
        together.then_some([0, 255])
    })
}

fn later_by_end(table: &[u8], component: u32, tick: u32, told: &mut [u8]) -> Told {
    retold((table, component, tick), told, |edge| {
        let (ready, end) = edge.window()?;
        let candidate = ready < end && edge.failing().is_none() && !edge.taken();
        let reason = if end > edge.passage.end { 3 } else { 4 };
        candidate.then_some([reason, 255])
    })
}

fn last_bound_that_fails(table: &[u8], component: u32, tick: u32, told: &mut [u8]) -> Told {
    retold((table, component, tick), told, |edge| {
        edge.failing().filter(|_| !edge.taken())?;
        let values = &edge.passage.variables;
        let fails = |at: &usize| {
            let bound = &edge.edge.data_bounds[*at];
            !bound.holds(values[usize::from(bound.variable)])
        };
        let last = (0..edge.edge.data_bounds.len()).rev().find(fails)?;
        Some([1, last as u8])
    })
}

fn no_bound_told(table: &[u8], component: u32, tick: u32, told: &mut [u8]) -> Told {
    retold((table, component, tick), told, |edge| {
        edge.failing().map(|_| [1, 255])
    })
}

/// Values and clocks of the start for those of the entry.
fn values_of_the_start(table: &[u8], component: u32, tick: u32, told: &mut [u8]) -> Told {
    retold((table, component, tick), told, |edge| {
        let zero = Passage {
            clocks: [0; 4],
            variables: [0; 4],
            ..*edge.passage
        };
        let edge = ToldEdge {
            passage: &zero,
            ..*edge
        };
        match (edge.taken(), edge.failing(), edge.window()) {
            (true, _, _) => None,
            (_, Some(bound), _) => Some([1, bound as u8]),
            (_, _, Some((ready, end))) if ready < end => {
                Some([if ready > zero.ready { 3 } else { 4 }, 255])
            }
            _ => Some([2, 255]),
        }
    })
}

/// The passage that ends at the tick for the one entered there.
fn before_its_end_counts(table: &[u8], component: u32, tick: u32, told: &mut [u8]) -> Told {
    let ended = |passages: &[Passage]| {
        let ends = |p: &Passage| u32::from(p.component) == component && p.end == tick;
        passages.iter().any(ends)
    };
    match verdict(table) {
        Ok((read, passages)) if tick < u32::from(read.horizon) && ended(&passages) => {
            second_reasons(table, component, tick - 1, told)
        }
        _ => second_reasons(table, component, tick, told),
    }
}

/// The number among the component's own passages.
fn own_number(table: &[u8], component: u32, tick: u32, told: &mut [u8]) -> Told {
    let answer = second_reasons(table, component, tick, told);
    let Ok((_, passages)) = verdict(table) else {
        return answer;
    };
    let before = passages.iter().take(answer.passage as usize);
    let own = before.filter(|p| u32::from(p.component) == component);
    Told {
        passage: own.count() as u32,
        ..answer
    }
}

/// Edges of all locations.
fn all_edges(table: &[u8], component: u32, tick: u32, told: &mut [u8]) -> Told {
    let answer = second_reasons(table, component, tick, told);
    let Ok((read, _)) = verdict(table) else {
        return answer;
    };
    let all = |table: &Table| table.components[component as usize].edges.len();
    match answer.verdict {
        Verdict::Accepted if told.len() >= REASON * all(&read) => Told {
            size: all(&read),
            ..answer
        },
        _ => answer,
    }
}

fn tick_h(table: &[u8], component: u32, tick: u32, told: &mut [u8]) -> Told {
    let answer = second_reasons(table, component, tick, told);
    match (answer.verdict, verdict(table)) {
        (Verdict::Refused { number: 21, .. }, Ok((read, _))) if tick == read.horizon.into() => {
            second_reasons(table, component, tick - 1, told)
        }
        _ => answer,
    }
}

fn component_of_8_bits(table: &[u8], component: u32, tick: u32, told: &mut [u8]) -> Told {
    second_reasons(table, component & 255, tick, told)
}

fn tick_of_16_bits(table: &[u8], component: u32, tick: u32, told: &mut [u8]) -> Told {
    second_reasons(table, component, tick & 65_535, told)
}

fn thirteen_first(table: &[u8], component: u32, tick: u32, told: &mut [u8]) -> Told {
    let answer = second_reasons(table, component, tick, told);
    match answer.verdict {
        Verdict::Refused { number: 21, .. } if told.len() < REASON => Told {
            verdict: refused(13, 255),
            ..answer
        },
        _ => answer,
    }
}

fn names_the_component(table: &[u8], component: u32, tick: u32, told: &mut [u8]) -> Told {
    let answer = second_reasons(table, component, tick, told);
    match answer.verdict {
        Verdict::Refused { number: 21, .. } => Told {
            verdict: refused(21, component as u8),
            ..answer
        },
        _ => answer,
    }
}

fn question_before_the_table(table: &[u8], component: u32, tick: u32, told: &mut [u8]) -> Told {
    let answer = second_reasons(table, component, tick, told);
    match answer.verdict {
        Verdict::Refused { number, .. } if number != 13 && component >= 8 => Told {
            verdict: refused(21, 255),
            ..answer
        },
        _ => answer,
    }
}

/// Writes as much as there is room for.
fn writes_what_fits(table: &[u8], component: u32, tick: u32, told: &mut [u8]) -> Told {
    let mut ample = [0; AMPLE];
    let full = second_reasons(table, component, tick, &mut ample);
    let answer = second_reasons(table, component, tick, told);
    if full.verdict == Verdict::Accepted {
        let room = told.len().min(REASON * full.size);
        told[..room].copy_from_slice(&ample[..room]);
    }
    answer
}

fn wants_one_more(table: &[u8], component: u32, tick: u32, told: &mut [u8]) -> Told {
    match told.split_last_mut() {
        Some((_, told)) => second_reasons(table, component, tick, told),
        None => second_reasons(table, component, tick, told),
    }
}

const FAULTS: [(&str, Reasons); 19] = [
    ("window_before_data", window_before_data),
    ("windows_of_one_tick", windows_of_one_tick),
    ("later_and_higher_exchanged", later_and_higher_exchanged),
    ("taken_by_ready", taken_by_ready),
    ("later_by_end", later_by_end),
    ("last_bound_that_fails", last_bound_that_fails),
    ("no_bound_told", no_bound_told),
    ("values_of_the_start", values_of_the_start),
    ("before_its_end_counts", before_its_end_counts),
    ("own_number", own_number),
    ("all_edges", all_edges),
    ("tick_h", tick_h),
    ("component_of_8_bits", component_of_8_bits),
    ("tick_of_16_bits", tick_of_16_bits),
    ("thirteen_first", thirteen_first),
    ("names_the_component", names_the_component),
    ("question_before_the_table", question_before_the_table),
    ("writes_what_fits", writes_what_fits),
    ("wants_one_more", wants_one_more),
];

/// One data bound an edge at most, and tables of one component or of several.
#[test]
fn each_fault_is_found_by_questions_drawn() {
    for (name, fault) in FAULTS {
        let only_stored = ["last_bound_that_fails", "tick_of_16_bits"];
        if !only_stored.contains(&name) {
            assert!(finds(many_edges, fault), "{name}");
        }
    }
    assert!(!finds(many_edges, second_reasons));
}

#[test]
fn each_fault_is_found_by_the_vectors() {
    for (name, fault) in FAULTS {
        assert!(finds(stored, fault), "{name}");
    }
    assert!(!finds(stored, second_reasons));
}

/// The entry of a passage is what the edge choice is asked about: the same edge.
#[test]
fn the_edge_taken_is_that_of_the_edge_choice() {
    let table = comparison::tables::WORKED_EXAMPLE;
    let (read, passages) = verdict(&table).unwrap();
    for passage in &passages {
        let entry = Entry {
            location: passage.location,
            clocks: passage.clocks,
            variables: passage.variables,
        };
        let choice = reference::edge_choice::edge_choice(&read, passage.component, &entry);
        let mut told = [0; AMPLE];
        second_reasons(&table, passage.component.into(), passage.entry, &mut told);
        assert_eq!(
            (usize::from(told[0]), told[1]),
            (choice.taken.unwrap().0, 0)
        );
    }
}
