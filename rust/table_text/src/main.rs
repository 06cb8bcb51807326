//! Converts between the text form of a table and its bytes.
//!
//! Exit status: 0 done, 1 a fault in what was read, 2 wrong use or an output
//! that cannot be written.

#![forbid(unsafe_code)]

use std::env;
use std::io::{self, Read, Write};
use std::path::Path;
use std::process::ExitCode;
use table_text::corpus;

const USAGE: &str = "usage:
  table_text encode < source.txt > table.bin
  table_text decode < table.bin > source.txt
  table_text kind < FILE  says what FILE is: table, text, program, part or other
  table_text build DIR    writes DIR/NAME.bin for each DIR/NAME.txt
  table_text verify DIR   tries DIR's sources, bytes, schedules and answers.tsv against each other";

fn main() -> ExitCode {
    let words: Vec<String> = env::args().skip(1).collect();
    let words: Vec<&str> = words.iter().map(String::as_str).collect();
    let outcome = match words.as_slice() {
        ["encode"] => encode_input(),
        ["decode"] => decode_input(),
        ["kind"] => kind_of_input(),
        ["build", folder] => corpus::build(Path::new(folder)).map(|count| counted(count, "built")),
        ["verify", folder] => {
            corpus::verify(Path::new(folder)).map(|count| counted(count, "verified"))
        }
        _ => {
            eprintln!("{USAGE}");
            return ExitCode::from(2);
        }
    };
    finish(outcome)
}

/// Writes the result to standard output, or each problem to standard error.
fn finish(outcome: Result<Vec<u8>, Vec<String>>) -> ExitCode {
    match outcome.map(|bytes| write_output(&bytes)) {
        Ok(Ok(())) => ExitCode::SUCCESS,
        Ok(Err(problem)) => {
            eprintln!("standard output: {problem}");
            ExitCode::from(2)
        }
        Err(problems) => {
            for problem in problems {
                eprintln!("{problem}");
            }
            ExitCode::FAILURE
        }
    }
}

fn encode_input() -> Result<Vec<u8>, Vec<String>> {
    table_text::encode_file(&read_input()?).map_err(one)
}

fn decode_input() -> Result<Vec<u8>, Vec<String>> {
    let text = table_text::decode(&read_input()?).map_err(one)?;
    Ok(text.into_bytes())
}

fn kind_of_input() -> Result<Vec<u8>, Vec<String>> {
    let kind = table_text::kind(&read_input()?);
    Ok(format!("{}\n", kind.name()).into_bytes())
}

fn counted(count: usize, done: &str) -> Vec<u8> {
    format!("{count} tables {done}\n").into_bytes()
}

fn read_input() -> Result<Vec<u8>, Vec<String>> {
    let mut bytes = Vec::new();
    io::stdin().read_to_end(&mut bytes).map_err(one)?;
    Ok(bytes)
}

fn write_output(bytes: &[u8]) -> io::Result<()> {
    let mut output = io::stdout().lock();
    output.write_all(bytes)?;
    output.flush()
}

fn one(problem: impl ToString) -> Vec<String> {
    vec![problem.to_string()]
}
