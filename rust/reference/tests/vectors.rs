//! All vectors: each request is answered through the exported calls and the
//! answer compared with that of the file.

mod common;

use common::*;
use reference::calls;
use reference::checks::verdict;
use reference::edge_choice::Entry;
use reference::plan::Slots;
use reference::reasons::reasons;
use reference::schedule;
use reference::table::Refusal;

fn answer(request: &[String]) -> Result<String, Refusal> {
    if request[0] == "plan" {
        return plan_answer(&request[1..]);
    }
    let bytes = unhex(&request[1]);
    match (request[0].as_str(), &request[2..]) {
        ("check", []) => calls::check(&bytes).map(|()| "accepted".to_string()),
        ("schedule", []) => schedule_answer(&bytes),
        ("program", []) => program_answer(&bytes),
        ("part", [node]) => Ok(hex(calls::part(&bytes, node.parse().unwrap()))),
        ("run", [choices]) => run_answer(&[&request[1], choices], AMPLE).map(without_finishes),
        ("looked", []) => looked_answer(&bytes),
        ("why", [component, tick]) => {
            why_answer(&bytes, component.parse().unwrap(), tick.parse().unwrap())
        }
        ("place", []) => Ok(or_none(calls::refusal_place(&bytes))),
        ("opening", []) => Ok(or_none(calls::refused_opening(&bytes))),
        ("chart", []) => chart_answer(&bytes, 552),
        ("chart", [lent]) => chart_answer(&bytes, lent.parse().unwrap()),
        _ => panic!("no such request: {request:?}"),
    }
}

/// What is told, `none` for nothing.
fn or_none(told: Option<impl std::fmt::Display>) -> String {
    told.map_or("none".to_string(), |told| told.to_string())
}

/// The list of the call must agree with the printed one.
fn schedule_answer(bytes: &[u8]) -> Result<String, Refusal> {
    let (_, passages) = verdict(bytes)?;
    let mut list = vec![0; 7 * 1024];
    assert_eq!(calls::schedule(bytes, &mut list), Ok(passages.len()));
    for (fields, passage) in list.chunks(7).zip(&passages) {
        assert_eq!(fields, passage.fields(calls::NO_MESSAGE));
    }
    let text = schedule::print(&passages);
    Ok(text.lines().collect::<Vec<_>>().join("|"))
}

fn program_answer(bytes: &[u8]) -> Result<String, Refusal> {
    let mut program = vec![0; 65_536];
    let length = calls::translate(bytes, &mut program)?;
    Ok(hex(&program[..length]))
}

/// How many edges are looked at for each passage; the edge has to be its own.
fn looked_answer(bytes: &[u8]) -> Result<String, Refusal> {
    let (_, passages) = verdict(bytes)?;
    let mut numbers = Vec::new();
    for passage in &passages {
        let entry = Entry {
            location: passage.location,
            clocks: passage.clocks,
            variables: passage.variables,
        };
        let choice = calls::edge_choice(bytes, passage.component, &entry)?;
        let (edge, window) = choice.taken.unwrap();
        let found = (
            edge,
            passage.entry + window.ready,
            passage.entry + window.end,
        );
        let expected = (passage.edge.into(), passage.ready, passage.end);
        assert_eq!(found, expected);
        numbers.push(choice.looked.to_string());
    }
    Ok(numbers.join(" "))
}

/// The passage, then each edge with its reason; what is written into lent bytes must
/// agree.
fn why_answer(bytes: &[u8], component: u32, tick: u32) -> Result<String, Refusal> {
    let (table, passages) = verdict(bytes)?;
    let reasons = reasons(&table, &passages, component, tick)?;
    let mut lent = [0; 96];
    let told = calls::reasons(bytes, component, tick, &mut lent)?;
    assert_eq!(
        (told.passage, told.size),
        (reasons.passage, reasons.edges.len())
    );
    let mut words = reasons.passage.to_string();
    for (written, (edge, reason)) in lent.chunks(calls::REASON).zip(&reasons.edges) {
        assert_eq!(
            (written[0], [written[1], written[2]]),
            (*edge, reason.bytes())
        );
        words += &format!("|{edge} {reason}");
    }
    Ok(words)
}

/// The rows without their line feeds, `|` between them.
fn chart_answer(bytes: &[u8], lent: usize) -> Result<String, Refusal> {
    let mut chart = vec![0; lent];
    let size = calls::timing_chart(bytes, &mut chart)?;
    assert!(chart[size..].iter().all(|&byte| byte == 0));
    let text = String::from_utf8(chart[..size].to_vec()).unwrap();
    Ok(text.lines().collect::<Vec<_>>().join("|"))
}

/// The four numbers of a plan, then how many bytes are lent, as many as any
/// plan takes where nothing is said.
fn plan_answer(words: &[String]) -> Result<String, Refusal> {
    let number = |place: usize| words[place].parse().unwrap();
    let [probes, slot, guard, period] = [0, 1, 2, 3].map(number);
    let slots = Slots {
        probes,
        slot,
        guard,
        period,
    };
    let lent = words.get(4).map_or(414, |word| word.parse().unwrap());
    let mut table = vec![0; lent];
    let size = calls::plan(&slots, &mut table)?;
    assert!(table[size..].iter().all(|&byte| byte == 0));
    Ok(hex(&table[..size]))
}

#[test]
fn all_vectors() {
    let mut counts = std::collections::BTreeMap::new();
    let mut wrong = Vec::new();
    for vector in vectors().into_iter().chain(vectors_of_places()) {
        let given = told(answer(&vector.request));
        if given != vector.answer {
            wrong.push(format!(
                "{}: {}\n  expected {}\n  given    {given}",
                vector.name,
                vector.request.join(" "),
                vector.answer
            ));
        }
        *counts.entry(vector.request[0].clone()).or_insert(0) += 1;
    }
    println!("{counts:?}");
    assert!(wrong.is_empty(), "{}", wrong.join("\n"));
    assert!(counts.len() == 11);
}
