//! Each text is held to what its verified program prints: to the stored output of each program,
//! which `rt ci` holds the program to, and to the answers, schedules and charts of the corpus,
//! which `command/test_printers.sh` holds the programs to. And each is tried with bytes lent of
//! every length around its own.

use std::fs;
use std::path::PathBuf;
use timed_network_words::*;

/// The bytes of a file of the repository.
fn bytes(name: &str) -> Vec<u8> {
    let path = PathBuf::from(env!("CARGO_MANIFEST_DIR"))
        .join("../..")
        .join(name);
    fs::read(path).unwrap_or_else(|error| panic!("{name}: {error}"))
}

fn text(name: &str) -> String {
    String::from_utf8(bytes(name)).expect("a text")
}

/// The stored input of a program, and its stored output.
fn stored(program: &str) -> (Vec<u8>, String) {
    let output = text(&format!("crates/{program}/stdout"));
    (bytes(&format!("crates/{program}/stdin")), output)
}

/// The stored words of a program, as numbers.
fn numbers(program: &str) -> Vec<u32> {
    let words = text(&format!("crates/{program}/args"));
    words.lines().map(|word| word.parse().unwrap()).collect()
}

#[test]
fn the_stored_output_of_each_program() {
    let (table, output) = stored("verdict_printer");
    assert_eq!(verdict(&table, 0), output);
    let (table, output) = stored("schedule_printer");
    assert_eq!(schedule(&table), output);
    let (table, output) = stored("chart_printer");
    assert_eq!(chart(&table), output);
    let (table, output) = stored("spread_printer");
    assert_eq!(spread(&table), output);
    let (table, output) = stored("reason_printer");
    let [component, tick] = numbers("reason_printer")[..] else {
        panic!("two numbers")
    };
    assert_eq!(reasons(&table, component, tick), output);
    let (table, output) = stored("simulate_runs");
    let [lo, hi, runs, seed] = numbers("simulate_runs")[..] else {
        panic!("four numbers")
    };
    let experiment = Experiment { lo, hi, runs, seed };
    assert_eq!(simulation(&table, experiment), output);
    let data = "crates/trial_run/data";
    let table = bytes(&format!("{data}/probe_and_hub.bin"));
    let choices = bytes(&format!("{data}/choices.bin"));
    assert_eq!(
        run(&table, &choices, 0, &[]),
        text("crates/trial_run/stdout")
    );
    let (program, output) = stored("program_listing");
    assert_eq!(listing(&program), output);
}

#[test]
fn the_corpus() {
    let (mut accepted, mut refused) = (0, 0);
    for line in text("corpus/answers.tsv").lines() {
        let (name, answer) = line.split_once('\t').expect("a name and an answer");
        let table = bytes(&format!("corpus/{name}.bin"));
        assert_eq!(verdict(&table, 0).lines().next(), Some(answer), "{name}");
        if answer == "accepted" {
            assert_eq!(schedule(&table), text(&format!("corpus/{name}.schedule")));
            accepted += 1;
            continue;
        }
        assert_eq!(schedule(&table), format!("{answer}\n"), "{name}");
        assert_eq!(chart(&table), format!("{answer}\n"), "{name}");
        let [_, number, component] = answer.split(' ').collect::<Vec<_>>()[..] else {
            panic!("{name}: {answer}")
        };
        let words = refusal(number.parse().unwrap(), component.parse().unwrap());
        assert_eq!(spread(&table), words, "{name}");
        assert_eq!(reasons(&table, 0, 0), words, "{name}");
        assert_eq!(run(&table, &[], 0, &[]), words, "{name}");
        refused += 1;
    }
    assert!(accepted >= 70 && refused >= 100, "{accepted} {refused}");
}

/// A text with every number of bytes lent from some below its own to some above it.
fn lengths(name: &str, expected: &str, call: impl Fn(&mut [u8]) -> Result<usize, TooFew>) {
    let size = expected.len();
    assert_eq!(call(&mut []), Err(TooFew { size }), "{name}");
    for lent in size.saturating_sub(3)..size + 4 {
        let mut bytes = vec![7; lent];
        match call(&mut bytes) {
            Err(few) => {
                assert!(lent < size && few == TooFew { size }, "{name}");
                assert!(bytes.iter().all(|byte| *byte == 7), "{name}");
            }
            Ok(written) => {
                assert!(size <= lent && written == size, "{name}");
                assert_eq!(&bytes[..size], expected.as_bytes(), "{name}");
                assert!(bytes[size..].iter().all(|byte| *byte == 7), "{name}");
            }
        }
    }
}

#[test]
fn every_length_around_the_own() {
    let table = bytes("corpus/probe_and_hub.bin");
    let choices = bytes("crates/trial_run/data/choices.bin");
    let program = bytes("crates/program_listing/stdin");
    let [lo, hi, runs, seed] = [2, 9, 50, 7];
    let drawn = Experiment { lo, hi, runs, seed };
    lengths("verdict", &verdict(&table, 1), |text| {
        verdict_into(&table, 1, text)
    });
    lengths("schedule", &schedule(&table), |text| {
        schedule_into(&table, text)
    });
    lengths("chart", &chart(&table), |text| chart_into(&table, text));
    lengths("spread", &spread(&table), |text| spread_into(&table, text));
    let expected = reasons(&table, 1, 7);
    lengths("reasons", &expected, |text| {
        reasons_into(&table, 1, 7, text)
    });
    let expected = run(&table, &choices, 3, &[0, 2]);
    lengths("run", &expected, |text| {
        run_into(&table, &choices, 3, &[0, 2], text)
    });
    let expected = simulation(&table, drawn);
    lengths("simulation", &expected, |text| {
        simulation_into(&table, drawn, text)
    });
    lengths("refusal", &refusal(16, 3), |text| refusal_into(16, 3, text));
    lengths("listing", &listing(&program), |text| {
        listing_into(&program, text)
    });
}

#[test]
fn too_few_bytes_are_an_error_in_words() {
    let error = schedule_into(&[], &mut []).unwrap_err();
    assert_eq!(error.to_string(), "the text has 14 bytes");
}
