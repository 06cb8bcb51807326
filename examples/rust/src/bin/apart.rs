//! A table whose nodes wake apart: its verdict at a spread, its largest spread,
//! and one run with an offset for each node.
//!
//!     apart TABLE CHOICES SPREAD [OFFSETS]
//!
//! TABLE is a file with the bytes of a table, CHOICES one with a byte for each
//! choice of the run; SPREAD is a number of ticks, OFFSETS the ticks at which
//! nodes 0 upward wake, with commas between them. The output is that of the
//! example in C.
#![forbid(unsafe_code)]

use std::env;
use std::error::Error;
use std::fs;
use std::io::{self, BufWriter, Write};

use timed_network::{check_spread, largest_spread, run_apart, Run, Verdict};
use timed_network::{MAX_PASSAGES, OBSERVATION};

fn main() -> Result<(), Box<dyn Error>> {
    let words: Vec<String> = env::args().skip(1).collect();
    let (files, spread, offsets) = match &words[..] {
        [table, choices, spread] => ([table, choices], spread, Vec::new()),
        [table, choices, spread, offsets] => ([table, choices], spread, numbers(offsets)?),
        _ => return Err("usage: apart TABLE CHOICES SPREAD [OFFSETS]".into()),
    };
    let (table, choices) = (fs::read(files[0])?, fs::read(files[1])?);
    let spread = number(spread)?;
    let mut out = BufWriter::new(io::stdout().lock());
    let verdict = check_spread(&table, spread);
    writeln!(out, "{verdict}")?;
    if verdict == Verdict::Accepted {
        match largest_spread(&table) {
            Ok(largest) => writeln!(out, "largest spread {largest}")?,
            Err(refused) => writeln!(out, "{}", Verdict::from(refused))?,
        }
        let mut bytes = vec![0; OBSERVATION * MAX_PASSAGES];
        match run_apart(&table, &choices, spread, &offsets, &mut bytes) {
            Ok(run) => print_run(&mut out, &run, &bytes)?,
            Err(refused) => writeln!(out, "{}", Verdict::from(refused))?,
        }
    }
    Ok(out.flush()?)
}

/// A whole number; one that does not fit 32 bits is the greatest that does.
fn number(word: &str) -> Result<u32, String> {
    if word.is_empty() || !word.bytes().all(|byte| byte.is_ascii_digit()) {
        return Err(format!("{word}: not a number"));
    }
    Ok(word.parse().unwrap_or(u32::MAX))
}

/// Numbers with commas between them.
fn numbers(words: &str) -> Result<Vec<u32>, String> {
    words.split(',').map(number).collect()
}

fn print_run(out: &mut impl Write, run: &Run, bytes: &[u8]) -> io::Result<()> {
    let end = run.end.number();
    writeln!(out, "run {end} {} {} {}", run.node, run.tick, run.used)?;
    for observation in bytes.chunks_exact(OBSERVATION).take(run.size) {
        for byte in observation {
            write!(out, "{byte:02x}")?;
        }
        writeln!(out)?;
    }
    Ok(())
}
