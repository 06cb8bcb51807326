//! The library's lists of passages against the second implementation: all
//! vectors, the corpus, and a few cases of each other class.

use comparison::classes::Extent;
use comparison::compare;
use comparison::random::Random;
use comparison::readers::{second_schedule, Readers};
use comparison::stored::{corpus, vectors};
use timed_network::{schedule_into, Call, Passage, Verdict, FIELDS};

/// What a list of passages holds before a call.
const BEFORE: Passage = Passage {
    component: 250,
    edge: 251,
    location: 252,
    message: 253,
    entry: 4_000_000_000,
    ready: 4_000_000_001,
    end: 4_000_000_002,
};

/// A passage's seven numbers.
fn fields(passage: &Passage) -> [u32; FIELDS] {
    [
        passage.component.into(),
        passage.edge.into(),
        passage.location.into(),
        passage.entry,
        passage.ready,
        passage.end,
        passage.message.into(),
    ]
}

/// The call for passages in the place of that for numbers: a list of as many
/// passages as the numbers hold is lent, and what stands past the result has to
/// stay.
fn through_passages(table: &[u8], list: &mut [u32]) -> Call {
    let mut passages = vec![BEFORE; list.len() / FIELDS];
    let call = schedule_into(table, &mut passages);
    let (written, rest) = passages.split_at(call.size);
    assert!(rest.iter().all(|passage| *passage == BEFORE));
    for (numbers, passage) in list.chunks_exact_mut(FIELDS).zip(written) {
        numbers.copy_from_slice(&fields(passage));
    }
    call
}

fn readers() -> Readers {
    let mut readers = Readers::real();
    readers.library.schedule = through_passages;
    readers
}

#[test]
fn passages_and_second_implementation_agree() {
    for seed in [Random::SEED, 1] {
        compare(&readers(), seed, &Extent::SHORT, |_| {}).unwrap();
    }
}

#[test]
fn vectors_and_corpus_have_their_passages() {
    let tables = [vectors().unwrap(), corpus().unwrap()].concat();
    let mut accepted = 0;
    for table in &tables {
        let mut expected = vec![7; FIELDS * 1024];
        let mut written = expected.clone();
        let answer = second_schedule(&table.bytes, &mut expected);
        assert_eq!(through_passages(&table.bytes, &mut written), answer);
        assert_eq!(written, expected);
        accepted += usize::from(answer.verdict == Verdict::Accepted);
    }
    assert!(accepted > 10, "{accepted} of {} accepted", tables.len());
}
