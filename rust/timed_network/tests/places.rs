//! Where checks 4 to 6 and 7 to 9 stop: the stored cases, and that number and
//! component are those of the check.

mod common;

use common::{file, text, unhex, with, PROBE_AND_HUB};
use timed_network::{
    check, edge_choice, refusal_place, refused_opening, Entry, Part, UnknownNumber, Verdict,
    NO_COMPONENT,
};

/// A number, `-` for none.
fn some(number: Option<u8>) -> String {
    number.map_or("-".to_owned(), |number| number.to_string())
}

/// Words with something between them.
fn joined(words: &[impl ToString], between: &str) -> String {
    let words: Vec<String> = words.iter().map(ToString::to_string).collect();
    words.join(between)
}

/// A place as the vectors write it.
fn place_words(table: &[u8]) -> String {
    let Some(place) = refusal_place(table) else {
        return "none".to_owned();
    };
    let first = [place.number, place.component, place.part.number()];
    let [start, offset, width] = [place.start, place.offset, place.width];
    let numbers = [start, offset, width, place.value, place.least, place.limit];
    let words = [
        joined(&first, " "),
        some(place.edge),
        some(place.index),
        joined(&numbers, " "),
        u8::from(place.unbounded).to_string(),
    ];
    words.join(" ")
}

/// A refused opening as the vectors write it.
fn opening_words(table: &[u8]) -> String {
    let Some(opening) = refused_opening(table) else {
        return "none".to_owned();
    };
    let Entry {
        component,
        location,
        clocks,
        values,
    } = opening.entry;
    let (edge, update) = opening.overflow.unzip();
    let words = [
        joined(&[opening.number, component], " "),
        joined(&[opening.passage, opening.tick], " "),
        location.to_string(),
        joined(&clocks, ","),
        joined(&values, ","),
        joined(&[opening.leaving, opening.blocked, opening.windowless], " "),
        some(edge),
        some(update),
    ];
    words.join(" ")
}

#[test]
fn places_and_openings_of_the_vectors() {
    let mut counts = [0, 0];
    for line in text("vectors/places.tsv").lines() {
        let fields: Vec<&str> = line.split('\t').collect();
        let (request, table) = fields[1].split_once(' ').unwrap();
        let table = unhex(table);
        let (kind, words) = match request {
            "place" => (0, place_words(&table)),
            _ => (1, opening_words(&table)),
        };
        assert_eq!(words, fields[2], "{}", fields[0]);
        counts[kind] += 1;
    }
    assert!(counts[0] >= 60 && counts[1] >= 30, "{counts:?}");
}

#[test]
fn places_and_openings_of_the_corpus() {
    let mut parts = Vec::new();
    for line in text("corpus/places.tsv").lines() {
        let (name, answer) = line.split_once('\t').unwrap();
        let table = file(&format!("corpus/{name}.bin"));
        let told = [place_words(&table), opening_words(&table)];
        if answer.starts_with(['4', '5', '6']) {
            assert_eq!(told, [answer, "none"], "{name}");
            parts.extend(refusal_place(&table).map(|place| place.part));
        } else {
            assert_eq!(told, ["none", answer], "{name}");
        }
    }
    assert!(parts.len() > 100 && Part::ALL.iter().all(|part| parts.contains(part)));
}

/// Each byte of the worked example changed in several ways.
#[test]
fn what_is_told_is_about_the_refusal_of_the_check() {
    let mut told = [0, 0];
    for at in 0..PROBE_AND_HUB.len() {
        for byte in [0, 1, 2, 3, 17, 60, 255] {
            let table = with(at, byte);
            let place = refusal_place(&table).map(|place| (place.number, place.component));
            let opening = refused_opening(&table);
            let opening = opening.map(|opening| (opening.number, opening.entry.component));
            let verdict = match check(&table) {
                Verdict::Accepted => (0, NO_COMPONENT),
                Verdict::Refused { number, component } => (number, component),
            };
            assert_eq!(
                place,
                Some(verdict).filter(|(number, _)| (4..=6).contains(number))
            );
            assert_eq!(
                opening,
                Some(verdict).filter(|(number, _)| (7..=9).contains(number))
            );
            told[0] += usize::from(place.is_some());
            told[1] += usize::from(opening.is_some());
        }
    }
    assert!(told[0] > 200 && told[1] > 10, "{told:?}");
}

/// At the entry of an opening that 8 refuses no edge is taken, at one that 9
/// refuses the edge of the update.
#[test]
fn the_entry_is_one_for_the_edge_choice() {
    let mut numbers = Vec::new();
    for line in text("corpus/places.tsv").lines() {
        let (name, _) = line.split_once('\t').unwrap();
        let table = file(&format!("corpus/{name}.bin"));
        let Some(opening) = refused_opening(&table) else {
            continue;
        };
        let taken = edge_choice(&table, &opening.entry).unwrap().taken;
        let taken = taken.map(|taken| taken.edge);
        if opening.number != 7 {
            assert_eq!(taken, opening.overflow.map(|(edge, _)| edge), "{name}");
        }
        numbers.push(opening.number);
    }
    assert!([7, 8, 9].iter().all(|number| numbers.contains(number)));
}

#[test]
fn nothing_is_told_of_no_bytes() {
    assert_eq!(refusal_place(&[]), None);
    assert_eq!(refusal_place(&PROBE_AND_HUB[..0]), None);
    assert_eq!(refusal_place(&PROBE_AND_HUB), None);
    assert_eq!(refused_opening(&[]), None);
    assert_eq!(refused_opening(&PROBE_AND_HUB[..0]), None);
    assert_eq!(refused_opening(&PROBE_AND_HUB), None);
}

#[test]
fn parts_have_numbers() {
    for number in 0..=u8::MAX {
        let part = Part::try_from(number);
        match number {
            1..=12 => assert_eq!(part.map(Part::number), Ok(number)),
            _ => assert_eq!(part, Err(UnknownNumber(number))),
        }
    }
    assert_eq!(Part::ComponentHead.to_string(), "component's first 7 bytes");
}
