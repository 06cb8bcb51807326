//! The answers that the repository keeps: those of the vectors and of the
//! corpus. One yardstick answers them all, so that nothing that a call leaves
//! in its buffers may change a later answer.

mod common;

use common::*;
use yardstick::{part, plan, Refusal, Yardstick, NONE, NO_WORK, OBSERVATION, REASON};

/// As many bytes as any run takes.
const AMPLE: usize = 1024 * OBSERVATION;

fn program(yardstick: &mut Yardstick, table: &[u8]) -> Result<String, Refusal> {
    let mut program = vec![0; 65_535];
    let length = yardstick.translate(table, &mut program)?;
    Ok(hex(&program[..length]))
}

/// The rows without their line feeds, `|` between them.
fn chart(yardstick: &mut Yardstick, table: &[u8], lent: usize) -> Result<String, Refusal> {
    let mut chart = vec![0; lent];
    let size = yardstick.timing_chart(table, &mut chart)?;
    assert!(chart[size..].iter().all(|&byte| byte == 0));
    let text = String::from_utf8(chart[..size].to_vec()).unwrap();
    Ok(text.lines().collect::<Vec<_>>().join("|"))
}

/// The table of a plan, from its four numbers and how many bytes are lent.
fn planned(numbers: &[&str], lent: usize) -> Result<String, Refusal> {
    let number = |place: usize| numbers[place].parse().unwrap();
    let mut table = vec![0; lent];
    let size = plan([0, 1, 2, 3].map(number), &mut table)?;
    assert!(table[size..].iter().all(|&byte| byte == 0));
    Ok(hex(&table[..size]))
}

fn answer(yardstick: &mut Yardstick, request: &[&str]) -> String {
    match request {
        ["plan", numbers @ .., lent] if numbers.len() == 4 => {
            return told(planned(numbers, lent.parse().unwrap()))
        }
        ["plan", numbers @ ..] => return told(planned(numbers, 414)),
        _ => {}
    }
    let bytes = unhex(request[1]);
    match (request[0], &request[2..]) {
        ("check", []) => check(yardstick, &bytes),
        ("schedule", []) => told(schedule(yardstick, &bytes).map(|lines| lines.join("|"))),
        ("program", []) => told(program(yardstick, &bytes)),
        ("part", [node]) => hex(&bytes[part(&bytes, node.parse().unwrap())]),
        ("run", [_]) => told(old_run(yardstick, AMPLE, &request[1..])),
        ("why", &[component, tick]) => told(why(yardstick, 96, &bytes, [component, tick])),
        ("chart", []) => told(chart(yardstick, &bytes, 552)),
        ("chart", [lent]) => told(chart(yardstick, &bytes, lent.parse().unwrap())),
        _ => panic!("no such request: {request:?}"),
    }
}

#[test]
fn all_vectors() {
    let mut yardstick = Yardstick::new();
    let mut counts = std::collections::BTreeMap::new();
    for file in [
        "vectors/named.tsv",
        "vectors/random.tsv",
        "vectors/chart.tsv",
        "vectors/bands.tsv",
        "vectors/hearings.tsv",
        "vectors/plan.tsv",
        "vectors/budgets.tsv",
    ] {
        for line in text(file).lines() {
            let fields: Vec<&str> = line.split('\t').collect();
            let request: Vec<&str> = fields[1].split(' ').collect();
            // How many edges are looked at is told by none of its calls.
            if request[0] == "looked" {
                continue;
            }
            let given = answer(&mut yardstick, &request);
            assert_eq!(given, fields[2], "{}: {}", fields[0], fields[1]);
            *counts.entry(request[0].to_string()).or_insert(0) += 1;
        }
    }
    assert_eq!(counts.len(), 8, "{counts:?}");
}

/// A number, `-` for the one that stands for none.
fn or_none(number: u8) -> String {
    match number {
        NONE => "-".to_string(),
        number => number.to_string(),
    }
}

/// Where checks 4 to 6 stop.
fn place(yardstick: &mut Yardstick, table: &[u8]) -> String {
    let Some(place) = yardstick.refusal_place(table) else {
        return "none".to_string();
    };
    let (edge, index) = (or_none(place.edge), or_none(place.index));
    let numbers = [place.start, place.offset, place.width, place.value];
    let numbers: Vec<String> = numbers.iter().map(u32::to_string).collect();
    let (component, part, unbounded) = (place.component, place.part, u8::from(place.unbounded));
    let first = format!("{} {component} {part} {edge} {index}", place.number);
    let range = format!("{} {} {unbounded}", place.least, place.limit);
    format!("{first} {} {range}", numbers.join(" "))
}

/// Where checks 7 to 9 stop.
fn opening(yardstick: &mut Yardstick, table: &[u8]) -> String {
    let Some(opening) = yardstick.refused_opening(table) else {
        return "none".to_string();
    };
    let [a, b, c, d] = opening.clocks;
    let [e, f, g, h] = opening.variables;
    let (component, location) = (opening.component, opening.location);
    let (passage, tick) = (opening.passage, opening.tick);
    let (edge, update) = (or_none(opening.edge), or_none(opening.update));
    let edges = [opening.leaving, opening.blocked, opening.windowless];
    let [leaving, blocked, windowless] = edges;
    let entry = format!("{location} {a},{b},{c},{d} {e},{f},{g},{h}");
    let first = format!("{} {component} {passage} {tick}", opening.number);
    format!("{first} {entry} {leaving} {blocked} {windowless} {edge} {update}")
}

#[test]
fn the_vectors_and_the_corpus_of_places() {
    let mut yardstick = Yardstick::new();
    let mut counts = [0; 3];
    for line in text("vectors/places.tsv").lines() {
        let fields: Vec<&str> = line.split('\t').collect();
        let (request, table) = fields[1].split_once(' ').unwrap();
        let (at, given) = match request {
            "place" => (0, place(&mut yardstick, &unhex(table))),
            _ => (1, opening(&mut yardstick, &unhex(table))),
        };
        assert_eq!(given, fields[2], "{}", fields[0]);
        counts[at] += 1;
    }
    for line in text("corpus/places.tsv").lines() {
        let (name, answer) = line.split_once('\t').unwrap();
        let table = bytes(&format!("corpus/{name}.bin"));
        let given = [
            place(&mut yardstick, &table),
            opening(&mut yardstick, &table),
        ];
        assert!(given.contains(&answer.to_string()), "{name}: {given:?}");
        counts[2] += 1;
    }
    assert_eq!(counts, [83, 42, 152]);
}

#[test]
fn the_vectors_of_nodes_that_wake_apart() {
    let mut yardstick = Yardstick::new();
    let mut count = 0;
    for line in text("vectors/apart.tsv").lines() {
        let fields: Vec<&str> = line.split('\t').collect();
        let request: Vec<&str> = fields[1].split(' ').collect();
        let given = match request[..] {
            ["check", table, spread] => {
                let answer = yardstick.check_spread(&unhex(table), spread.parse().unwrap());
                told(answer.map(|()| "accepted".to_string()))
            }
            ["lent", lent, "run", ref words @ ..] => {
                told(old_run(&mut yardstick, lent.parse().unwrap(), words))
            }
            ["run", ref words @ ..] => told(old_run(&mut yardstick, AMPLE, words)),
            _ => answer(&mut yardstick, &request),
        };
        assert_eq!(given, fields[2], "{}: {}", fields[0], fields[1]);
        count += 1;
    }
    assert_eq!(count, 150);
}

#[test]
fn the_vectors_of_finish_ticks() {
    let mut yardstick = Yardstick::new();
    let mut count = 0;
    for line in text("vectors/finishes.tsv").lines() {
        let fields: Vec<&str> = line.split('\t').collect();
        let request: Vec<&str> = fields[1].split(' ').collect();
        let given = match request[..] {
            ["lent", lent, "run", ref words @ ..] => {
                told(run(&mut yardstick, lent.parse().unwrap(), words))
            }
            ["run", ref words @ ..] => told(run(&mut yardstick, AMPLE, words)),
            _ => panic!("no such request: {request:?}"),
        };
        assert_eq!(given, fields[2], "{}: {}", fields[0], fields[1]);
        count += 1;
    }
    assert_eq!(count, 84);
}

/// The words of the reasons, by their numbers.
const REASONS: [&str; 5] = ["taken", "data", "window", "later", "higher"];

/// The bytes lent, the table, and the component with the tick.
fn why(
    yardstick: &mut Yardstick,
    lent: usize,
    table: &[u8],
    question: [&str; 2],
) -> Result<String, Refusal> {
    let [component, tick] = question.map(|word| word.parse().unwrap());
    let mut bytes = vec![77; lent];
    let told = yardstick.reasons(table, component, tick, &mut bytes);
    let written = told.map_or(0, |told| told.size * REASON);
    assert!(bytes[written..].iter().all(|byte| *byte == 77));
    let edge = |bytes: &[u8]| {
        let (number, word) = (bytes[0], REASONS[usize::from(bytes[1])]);
        assert_eq!(word == "data", bytes[2] != NONE);
        match word {
            "data" => format!("|{number} data {}", bytes[2]),
            _ => format!("|{number} {word}"),
        }
    };
    let edges = bytes[..written].chunks(REASON).map(edge);
    Ok(format!("{}{}", told?.passage, edges.collect::<String>()))
}

#[test]
fn the_vectors_of_reasons() {
    let mut yardstick = Yardstick::new();
    let mut count = 0;
    for line in text("vectors/reasons.tsv").lines() {
        let fields: Vec<&str> = line.split('\t').collect();
        let request: Vec<&str> = fields[1].split(' ').collect();
        let given = match request[..] {
            ["lent", lent, "why", table, a, b] => told(why(
                &mut yardstick,
                lent.parse().unwrap(),
                &unhex(table),
                [a, b],
            )),
            ["why", table, a, b] => told(why(&mut yardstick, 96, &unhex(table), [a, b])),
            _ => panic!("no such request: {request:?}"),
        };
        assert_eq!(given, fields[2], "{}: {}", fields[0], fields[1]);
        count += 1;
    }
    assert_eq!(count, 157);
}

#[test]
fn whole_corpus() {
    let mut yardstick = Yardstick::new();
    let mut accepted = 0;
    for line in text("corpus/answers.tsv").lines() {
        let (name, expected) = line.split_once('\t').unwrap();
        let table = bytes(&format!("corpus/{name}.bin"));
        assert_eq!(check(&mut yardstick, &table), expected, "{name}");
        if expected == "accepted" {
            let lines = text(&format!("corpus/{name}.schedule"));
            let given = schedule(&mut yardstick, &table).unwrap();
            assert_eq!(given, lines.lines().collect::<Vec<_>>(), "{name}");
            for line in text(&format!("corpus/{name}.why")).lines() {
                let words: Vec<&str> = line.splitn(3, ' ').collect();
                let given = told(why(&mut yardstick, 96, &table, [words[0], words[1]]));
                assert_eq!(given, words[2], "{name}: {line}");
            }
            accepted += 1;
        }
    }
    assert!(accepted > 10, "{accepted} accepted");
}

/// An observation of a stored run: node, tick and finish tick, `-` for none.
fn shown(observation: &[u8]) -> String {
    let four = |at: usize| u32::from_be_bytes(*observation[at..].first_chunk().unwrap());
    let finish = match four(OBSERVATION - 4) {
        NO_WORK => "-".to_string(),
        tick => tick.to_string(),
    };
    format!("|{} {} {finish}", observation[0], four(4))
}

#[test]
fn the_runs_of_the_corpus() {
    let mut yardstick = Yardstick::new();
    let mut count = 0;
    for name in [
        "accepted_finish_in_window",
        "accepted_finish_of_message",
        "accepted_timeout",
        "probe_and_hub",
    ] {
        let table = hex(&bytes(&format!("corpus/{name}.bin")));
        for line in text(&format!("corpus/{name}.runs")).lines() {
            let words: Vec<&str> = line.splitn(4, ' ').collect();
            let mut asked = vec![table.as_str(), words[2], words[0]];
            asked.extend(Some(words[1]).filter(|offsets| *offsets != "-"));
            let answer = run(&mut yardstick, AMPLE, &asked).unwrap();
            let (numbers, observations) = answer.split_once('|').unwrap();
            let shown: String = observations.split('|').map(|o| shown(&unhex(o))).collect();
            assert_eq!(format!("{numbers}{shown}"), words[3], "{name}");
            count += 1;
        }
    }
    assert_eq!(count, 13);
}

#[test]
fn the_charts_of_the_corpus() {
    let mut yardstick = Yardstick::new();
    for name in ["priority", "one_tick_cells", "empty_cells"] {
        let table = bytes(&format!("corpus/accepted_chart_{name}.bin"));
        let stored = text(&format!("corpus/accepted_chart_{name}.chart"));
        let given = chart(&mut yardstick, &table, 552).unwrap();
        assert_eq!(given.replace('|', "\n") + "\n", stored, "{name}");
    }
}
