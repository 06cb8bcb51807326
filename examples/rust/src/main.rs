//! A table's verdict, schedule, chart and program, and one run of it.
//!
//!     network TABLE CHOICES
//!
//! TABLE is a file with the bytes of a table, CHOICES one with a byte for each
//! choice of the run. The output is that of the example in C.
#![forbid(unsafe_code)]

use std::env;
use std::error::Error;
use std::fs;
use std::io::{self, BufWriter, Write};

use timed_network::{check, part, passages, program, run, timing_chart, Verdict};
use timed_network::{CHART_ROW, FIELDS, MAX_PASSAGES, NO_MESSAGE, OBSERVATION};

fn main() -> Result<(), Box<dyn Error>> {
    let words: Vec<String> = env::args().collect();
    let [_, table, choices] = &words[..] else {
        return Err("usage: network TABLE CHOICES".into());
    };
    let (table, choices) = (fs::read(table)?, fs::read(choices)?);
    let mut out = BufWriter::new(io::stdout().lock());
    let verdict = check(&table);
    writeln!(out, "{verdict}")?;
    if verdict == Verdict::Accepted {
        print_schedule(&mut out, &table)?;
        print_chart(&mut out, &table)?;
        print_program(&mut out, &table)?;
        print_run(&mut out, &table, &choices)?;
    }
    Ok(out.flush()?)
}

fn print_schedule(out: &mut impl Write, table: &[u8]) -> io::Result<()> {
    let rows = match passages(table) {
        Ok(rows) => rows,
        Err(refused) => return writeln!(out, "{}", Verdict::from(refused)),
    };
    writeln!(out, "c e l entry ready end msg")?;
    for row in rows {
        for field in &row[..FIELDS - 1] {
            write!(out, "{field} ")?;
        }
        match row[FIELDS - 1] {
            NO_MESSAGE => writeln!(out, "-")?,
            channel => writeln!(out, "{channel}")?,
        }
    }
    Ok(())
}

fn print_chart(out: &mut impl Write, table: &[u8]) -> io::Result<()> {
    let mut chart = [0; 8 * CHART_ROW];
    let call = timing_chart(table, &mut chart);
    match call.verdict {
        Verdict::Accepted => out.write_all(&chart[..call.size]),
        refused => writeln!(out, "{refused}"),
    }
}

fn print_program(out: &mut impl Write, table: &[u8]) -> io::Result<()> {
    let program = match program(table) {
        Ok(program) => program,
        Err(refused) => return writeln!(out, "{}", Verdict::from(refused)),
    };
    writeln!(out, "program {}", program.len())?;
    print_hex(out, &program)?;
    for node in 0..=u8::MAX {
        let part = part(&program, node);
        if part.is_empty() {
            break;
        }
        write!(out, "part {node} ")?;
        print_hex(out, part)?;
    }
    Ok(())
}

fn print_run(out: &mut impl Write, table: &[u8], choices: &[u8]) -> io::Result<()> {
    let mut bytes = vec![0; OBSERVATION * MAX_PASSAGES];
    let run = match run(table, choices, &mut bytes) {
        Ok(run) => run,
        Err(refused) => return writeln!(out, "{}", Verdict::from(refused)),
    };
    let end = run.end.number();
    writeln!(out, "run {end} {} {} {}", run.node, run.tick, run.used)?;
    for observation in bytes.chunks_exact(OBSERVATION).take(run.size) {
        print_hex(out, observation)?;
    }
    Ok(())
}

fn print_hex(out: &mut impl Write, bytes: &[u8]) -> io::Result<()> {
    for byte in bytes {
        write!(out, "{byte:02x}")?;
    }
    writeln!(out)
}
