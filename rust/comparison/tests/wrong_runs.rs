//! Programs, parts and runs that are wrong in one point are found out; runs
//! that are wrong on both sides too, since each is held to demand 3.

use comparison::classes::{Extent, CLASSES};
use comparison::compare_class;
use comparison::difference::{Difference, Stop};
use comparison::random::Random;
use comparison::readers::{second_run, second_translate, Part, Reader, Readers, Run};
use reference::calls::MAX_CHOICES;
use timed_network::{Call, RunNumbers, Verdict, OBSERVATION};

const EXTENT: Extent = Extent {
    rounds: 10,
    step: 7,
};

/// The first difference in the classes of programs and runs, those with stored
/// answers left aside.
fn difference(readers: &Readers) -> Option<Difference> {
    let first = CLASSES
        .iter()
        .position(|c| c.name.starts_with("parts of"))?;
    CLASSES[first..].iter().find_map(|class| {
        let mut random = Random::new(Random::SEED);
        match compare_class(readers, class, &mut random, &EXTENT) {
            Err(Stop::Differs(difference)) => Some(*difference),
            _ => None,
        }
    })
}

fn found_out(library: Reader) -> bool {
    let second = Reader::second();
    difference(&Readers { library, second }).is_some()
}

/// Translates with one byte, or one answer, wrong.
fn with_program(translate: fn(&[u8], &mut [u8]) -> Call) -> Reader {
    Reader {
        translate,
        ..Reader::second()
    }
}

fn with_run(run: Run) -> Reader {
    Reader {
        run,
        ..Reader::second()
    }
}

/// The class of planned tables finds what is wrong with a translator.
fn translator_found_out(library: Reader) -> bool {
    let second = Reader::second();
    let readers = Readers { library, second };
    let class = CLASSES.iter().find(|class| class.name == "planned tables");
    let mut random = Random::new(Random::SEED);
    let outcome = compare_class(&readers, class.unwrap(), &mut random, &EXTENT);
    matches!(outcome, Err(Stop::Differs(_)))
}

fn last_byte_left_out(table: &[u8], bytes: &mut [u8]) -> Call {
    let call = second_translate(table, bytes);
    if call.size > 0 {
        bytes[call.size - 4] = 0;
    }
    call
}

fn wants_one_byte_more(table: &[u8], bytes: &mut [u8]) -> Call {
    match bytes.split_last_mut() {
        Some((_, bytes)) => second_translate(table, bytes),
        None => second_translate(table, bytes),
    }
}

fn writes_before_it_refuses(table: &[u8], bytes: &mut [u8]) -> Call {
    let call = second_translate(table, bytes);
    if call.verdict != Verdict::Accepted && bytes.len() > 6 {
        bytes[0] = 0;
    }
    call
}

#[test]
fn wrong_programs_are_found_out() {
    assert!(!translator_found_out(Reader::second()));
    assert!(translator_found_out(with_program(last_byte_left_out)));
    assert!(translator_found_out(with_program(wants_one_byte_more)));
    assert!(translator_found_out(with_program(writes_before_it_refuses)));
}

/// The part of the node before.
fn part_before(program: &[u8], node: u8) -> &[u8] {
    (Reader::second().part)(program, node.saturating_sub(1))
}

/// A part that is cut where the bytes end.
fn part_cut(program: &[u8], node: u8) -> &[u8] {
    let part = (Reader::second().part)(program, node);
    match (part, node) {
        ([], 0) if program.len() > 7 && program[3] > 0 => &program[6..],
        _ => part,
    }
}

/// A part for numbers that have no node.
fn part_of_any(program: &[u8], node: u8) -> &[u8] {
    let last = program.get(3).map_or(0, |count| count.saturating_sub(1));
    (Reader::second().part)(program, node.min(last))
}

#[test]
fn wrong_parts_are_found_out() {
    let parts: [Part; 3] = [part_before, part_cut, part_of_any];
    for part in parts {
        let second = Reader::second();
        assert!(found_out(Reader { part, ..second }));
    }
}

/// A run whose answer is changed if it has this end.
fn changed<const END: u8>(
    [table, choices]: [&[u8]; 2],
    bytes: &mut [u8],
    change: fn(&mut RunNumbers),
) -> RunNumbers {
    let mut answer = second_run(table, choices, bytes);
    if answer.number == 0 && answer.end == END {
        change(&mut answer);
    }
    answer
}

/// Runs that say something else, each about one end.
const SAYS_OTHERWISE: [Run; 7] = [
    |t, c, b| changed::<0>([t, c], b, |answer| answer.end = 1),
    |t, c, b| changed::<0>([t, c], b, |answer| answer.used += 1),
    |t, c, b| changed::<1>([t, c], b, |answer| answer.tick += 1),
    |t, c, b| changed::<2>([t, c], b, |answer| answer.tick -= 1),
    |t, c, b| changed::<2>([t, c], b, |answer| answer.node += 1),
    |t, c, b| changed::<3>([t, c], b, |answer| answer.used += 1),
    |t, c, b| changed::<3>([t, c], b, |answer| answer.node = 0),
];

/// Writes no observation and says so.
fn writes_nothing(table: &[u8], choices: &[u8], bytes: &mut [u8]) -> RunNumbers {
    let answer = second_run(table, choices, &mut bytes.to_vec());
    RunNumbers { size: 0, ..answer }
}

/// Copies the first observation over all others.
fn copies_the_first(table: &[u8], choices: &[u8], bytes: &mut [u8]) -> RunNumbers {
    let answer = second_run(table, choices, bytes);
    for number in 1..answer.size as usize {
        bytes.copy_within(..OBSERVATION, number * OBSERVATION);
    }
    answer
}

/// Forgets the last observation.
fn forgets_the_last(table: &[u8], choices: &[u8], bytes: &mut [u8]) -> RunNumbers {
    let mut answer = second_run(table, choices, &mut bytes.to_vec());
    let kept = answer.size.saturating_sub(1);
    let mut own = bytes.to_vec();
    second_run(table, choices, &mut own);
    let written = kept as usize * OBSERVATION;
    bytes[..written].copy_from_slice(&own[..written]);
    answer.size = kept;
    answer
}

/// Writes the observations of each node together.
fn sorts(table: &[u8], choices: &[u8], bytes: &mut [u8]) -> RunNumbers {
    let answer = second_run(table, choices, bytes);
    let written = answer.size as usize * OBSERVATION;
    let own = bytes[..written].chunks(OBSERVATION);
    let mut all: Vec<Vec<u8>> = own.map(<[u8]>::to_vec).collect();
    all.sort_by_key(|observation| observation[0]);
    bytes[..written].copy_from_slice(&all.concat());
    answer
}

const WRITES_OTHERWISE: [Run; 4] = [writes_nothing, copies_the_first, forgets_the_last, sorts];

#[test]
fn wrong_runs_are_found_out() {
    assert!(!found_out(Reader::second()));
    let all = SAYS_OTHERWISE.into_iter().chain(WRITES_OTHERWISE);
    for (place, run) in all.enumerate() {
        assert!(found_out(with_run(run)), "{place}");
    }
}

#[test]
fn runs_that_are_wrong_on_both_sides_are_found_out() {
    let all = SAYS_OTHERWISE.into_iter().chain(WRITES_OTHERWISE);
    for (place, run) in all.enumerate() {
        let [library, second] = [with_run(run); 2];
        let difference = difference(&Readers { library, second });
        let difference = difference.unwrap_or_else(|| panic!("{place}"));
        assert_eq!(difference.library, difference.second);
        assert!(difference.expected.is_some(), "{place}");
    }
}

/// Asks for as many bytes as it writes.
fn wants_what_it_writes(table: &[u8], choices: &[u8], bytes: &mut [u8]) -> RunNumbers {
    let mut ample = vec![0; OBSERVATION * 1024];
    let answer = second_run(table, choices, &mut ample);
    let written = answer.size as usize * OBSERVATION;
    if answer.number == 0 && written <= bytes.len() {
        bytes[..written].copy_from_slice(&ample[..written]);
        return answer;
    }
    second_run(table, choices, bytes)
}

/// Counts the choices before it looks at the bytes.
fn fourteen_before_thirteen(table: &[u8], choices: &[u8], bytes: &mut [u8]) -> RunNumbers {
    let answer = second_run(table, choices, bytes);
    let number = match answer.number {
        13 if choices.len() > MAX_CHOICES => 14,
        number => number,
    };
    RunNumbers { number, ..answer }
}

/// Takes one choice fewer.
fn fourteen_too_early(table: &[u8], choices: &[u8], bytes: &mut [u8]) -> RunNumbers {
    let long = vec![0; MAX_CHOICES + 1];
    let choices = if choices.len() == MAX_CHOICES {
        &long
    } else {
        choices
    };
    second_run(table, choices, bytes)
}

/// Clears what it does not write.
fn clears(table: &[u8], choices: &[u8], bytes: &mut [u8]) -> RunNumbers {
    let answer = second_run(table, choices, bytes);
    bytes[answer.size as usize * OBSERVATION..].fill(0);
    answer
}

/// Says after a refusal at which tick it was.
fn numbers_after_a_refusal(table: &[u8], choices: &[u8], bytes: &mut [u8]) -> RunNumbers {
    let mut answer = second_run(table, choices, bytes);
    if answer.number != 0 {
        answer.node = 0;
    }
    answer
}

#[test]
fn wrong_refusals_are_found_out() {
    let all = [
        wants_what_it_writes,
        fourteen_before_thirteen,
        fourteen_too_early,
        clears,
        numbers_after_a_refusal,
    ];
    for (place, run) in all.into_iter().enumerate() {
        assert!(found_out(with_run(run)), "{place}");
    }
}
