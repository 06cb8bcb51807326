//! The words of refusals and ends, held to the definitions of the proved texts,
//! and their names, held to those of the header.

mod common;

use common::{refused, text};
use std::error::Error;
use timed_network::{check, End, Part, Reason, Refusal, UnknownNumber, Verdict, NO_COMPONENT};

/// The strings of a text that stand between quotes.
fn quoted(text: &str) -> Vec<String> {
    text.split('"')
        .skip(1)
        .step_by(2)
        .map(str::to_owned)
        .collect()
}

/// What stands in a text from one piece to the next one.
fn between<'a>(text: &'a str, from: &str, to: &str) -> &'a str {
    let (_, behind) = text.split_once(from).unwrap();
    behind.split_once(to).unwrap().0
}

#[test]
fn questions_are_those_of_the_definition() {
    let definition = text("crates/refusal_text/specs/RefusalText.antt");
    let listed = between(&definition, "\nquestions =\n", "\n\n");
    assert!(listed.trim_start().starts_with("no_question"));
    let questions = quoted(listed);
    let told: Vec<String> = Refusal::ALL
        .iter()
        .map(|refusal| format!("{refusal}\\n"))
        .collect();
    assert_eq!(told, questions);
}

/// Of a definition what stands before its colon.
#[test]
fn ends_are_those_of_the_definition() {
    let definition = text("crates/run_text/specs/RunText.antt");
    let mut words = quoted(between(&definition, "\nend_text Horizon", "\n\n"));
    words.push(
        quoted(between(
            &definition,
            "\nnot_allowed choices used =\n",
            "\n\n",
        ))[0]
            .clone(),
    );
    let words: Vec<&str> = words
        .iter()
        .map(|word| word.split(':').next().unwrap())
        .collect();
    let told: Vec<String> = End::ALL.iter().map(End::to_string).collect();
    assert_eq!(told, words);
}

/// `ChannelTwice` as the header writes it: `CHANNEL_TWICE`.
fn capitals(name: &str) -> String {
    let mut word = String::new();
    for letter in name.chars() {
        if letter.is_uppercase() && !word.is_empty() {
            word.push('_');
        }
        word.push(letter.to_ascii_uppercase());
    }
    word
}

/// The enumerators of the header with a prefix: names and numbers.
fn enumerators(prefix: &str) -> Vec<String> {
    let header = text("include/timed_network.h");
    let lines = header
        .lines()
        .filter_map(|line| line.trim().strip_prefix(prefix));
    lines
        .map(|line| line.split(',').next().unwrap_or(line))
        .map(|line| line.split("/*").next().unwrap_or(line).trim().to_owned())
        .collect()
}

#[test]
fn names_and_numbers_are_those_of_the_header() {
    let named = |refusal: &Refusal| {
        format!(
            "{} = {}",
            capitals(&format!("{refusal:?}")),
            refusal.number()
        )
    };
    let refusals: Vec<String> = Refusal::ALL.iter().map(named).collect();
    assert_eq!(refusals, enumerators("TIMED_NETWORK_REFUSED_"));
    let named = |end: &End| format!("{} = {}", capitals(&format!("{end:?}")), end.number());
    let ends: Vec<String> = End::ALL.iter().map(named).collect();
    assert_eq!(ends, enumerators("TIMED_NETWORK_END_"));
    let named = |part: &Part| format!("{} = {}", capitals(&format!("{part:?}")), part.number());
    let parts: Vec<String> = Part::ALL.iter().map(named).collect();
    assert_eq!(parts, enumerators("TIMED_NETWORK_PART_"));
}

/// The reasons of the header, one behind the other, by their names and numbers.
#[test]
fn reasons_are_those_of_the_header() {
    let header = text("include/timed_network.h");
    let listed = between(&header, "enum timed_network_reason {\n", "\n};");
    let reasons = [
        ("Taken", Reason::Taken),
        ("DataBound", Reason::DataBound(3)),
        ("NoWindow", Reason::NoWindow),
        ("ReadyLater", Reason::ReadyLater),
        ("HigherNumber", Reason::HigherNumber),
    ];
    let named = reasons.map(|(name, reason)| {
        format!("    TIMED_NETWORK_{} = {}", capitals(name), reason.number())
    });
    assert_eq!(named.join(",\n"), listed);
}

#[test]
fn every_other_number_is_unknown() {
    for number in 0..=u8::MAX {
        let refusal = Refusal::try_from(number);
        match number {
            1..=29 => assert_eq!(refusal.map(Refusal::number), Ok(number)),
            _ => assert_eq!(refusal, Err(UnknownNumber(number))),
        }
        let end = End::try_from(number);
        match number {
            0..=3 => assert_eq!(end.map(End::number), Ok(number)),
            _ => assert_eq!(end, Err(UnknownNumber(number))),
        }
    }
    assert_eq!(UnknownNumber(30).to_string(), "nothing has the number 30");
}

#[test]
fn a_verdict_is_a_result_and_back() {
    assert_eq!(Verdict::Accepted.into_result(), Ok(()));
    assert_eq!(Verdict::Accepted.refusal(), None);
    for number in 1..=29 {
        for component in [0, 7, NO_COMPONENT] {
            let verdict = refused(number, component);
            let error = verdict.into_result().unwrap_err();
            assert_eq!(verdict.refusal(), Some(error.refusal));
            assert_eq!(error.refusal.number(), number);
            assert_eq!(error.component.is_none(), component == NO_COMPONENT);
            assert_eq!(Verdict::from(error), verdict);
        }
    }
    assert_eq!(refused(30, 0).refusal(), None);
}

/// With `?`, as a caller has it.
#[test]
fn a_refusal_is_an_error() {
    fn asked(table: &[u8]) -> Result<(), Box<dyn Error>> {
        check(table).into_result()?;
        Ok(())
    }
    let words = asked(&common::with(70, 3)).unwrap_err().to_string();
    assert!(
        words.starts_with("refused 16 0: the answer is no: Does the one"),
        "{words}"
    );
    assert!(asked(&common::PROBE_AND_HUB).is_ok());
}
