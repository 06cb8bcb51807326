//! The commands, a file each.

mod chart;
mod choices;
mod completion;
mod each;
mod install;
mod list;
mod man;
mod schedule;
mod spread;
mod table;
mod text;
mod verdict;

#[cfg(feature = "library")]
mod airtime;
#[cfg(feature = "library")]
mod edge;
#[cfg(feature = "library")]
mod part;
#[cfg(feature = "library")]
mod period;
#[cfg(feature = "library")]
mod plan;
#[cfg(feature = "library")]
mod run;
#[cfg(feature = "library")]
mod simulate;
#[cfg(feature = "library")]
mod site;
#[cfg(feature = "library")]
mod translate;
#[cfg(feature = "library")]
mod uppaal;
#[cfg(feature = "library")]
mod r#where;
#[cfg(feature = "library")]
mod why;

use crate::json::{self, string};
use crate::options::{Form, Question};
#[cfg(feature = "library")]
use crate::output::BROKEN;
use crate::output::{Ended, Stop};
use crate::refusals;
use crate::words::{failed, Text, Words};
use each::{each_table, Told};
use std::ffi::OsStr;
use std::fs;
use std::io::{self, IsTerminal};
use std::os::unix::fs::MetadataExt;

/// Answers a question; the status.
pub fn answer(asked: &Question) -> Ended {
    try_outputs(asked)?;
    match asked.command {
        "verdict" => verdict::answer(asked),
        "spread" => spread::answer(asked),
        "schedule" => schedule::answer(asked),
        "chart" => chart::answer(asked),
        "list" => list::answer(asked),
        "choices" => choices::answer(asked),
        "text" => text::answer(asked),
        "table" => table::answer(asked),
        "install" => install::answer(asked),
        "man" => man::answer(asked),
        "completion" => completion::answer(asked),
        _ => answer_by_library(asked),
    }
}

/// The commands that ask the library.
#[cfg(feature = "library")]
fn answer_by_library(asked: &Question) -> Ended {
    match asked.command {
        "plan" => plan::answer(asked),
        "edge" => edge::answer(asked),
        "why" => why::answer(asked),
        "where" => r#where::answer(asked),
        "translate" => translate::answer(asked),
        "part" => part::answer(asked),
        "run" => run::answer(asked),
        "period" => period::answer(asked),
        "simulate" => simulate::answer(asked),
        "uppaal" => uppaal::answer(asked),
        "airtime" => airtime::answer(asked),
        "site" => site::answer(asked),
        _ => Err(Stop::silent(BROKEN)),
    }
}

#[cfg(not(feature = "library"))]
fn answer_by_library(_: &Question) -> Ended {
    Err(without_library())
}

/// What is said where the library was left out.
#[cfg(not(feature = "library"))]
fn without_library() -> Stop {
    Stop::broken("this binary was built without the library: ./vanillatarn builds it with it")
}

/// The commands that write bytes alone.
const OF_BYTES: [&str; 5] = ["plan", "translate", "table", "choices", "part"];

/// Tries what is written to: no input is written over, and a terminal gets no bytes.
fn try_outputs(asked: &Question) -> Result<(), Stop> {
    for option in ["-o", "--svg"] {
        let Some(output) = asked.text(option) else {
            continue;
        };
        if asked.files.iter().any(|file| is_same(output, file)) {
            let output = output.to_string_lossy();
            return Err(asked.misused(&format!("{option} names the input {output}")));
        }
    }
    let bytes = OF_BYTES.contains(&asked.command) && !asked.has("--c");
    if bytes && !asked.has("-o") && io::stdout().is_terminal() {
        let command = asked.command;
        return Err(asked.misused(&format!(
            "'{command}' writes bytes, and standard output is a terminal: add -o FILE"
        )));
    }
    Ok(())
}

/// Whether an output is a plain file, and the same as an input.
fn is_same(output: &OsStr, input: &OsStr) -> bool {
    let input = match input == "-" {
        true => OsStr::new("/dev/stdin"),
        false => input,
    };
    let place = |file: &OsStr| fs::metadata(file).ok();
    let (Some(output), Some(input)) = (place(output), place(input)) else {
        return false;
    };
    output.is_file() && (output.dev(), output.ino()) == (input.dev(), input.ino())
}

/// Ends where two of the files are standard input.
fn one_input(asked: &Question, files: &[impl AsRef<OsStr>]) -> Result<(), Stop> {
    let inputs = files.iter().filter(|file| file.as_ref() == "-").count();
    if inputs > 1 {
        return Err(asked.misused("only one of the files can be standard input"));
    }
    Ok(())
}

/// A text of proved words about a table: what tells it, how it begins where it is no refusal, and
/// what an object has of it.
struct Handed {
    text: Text,
    words: fn(&[u8]) -> Words,
    begins: &'static str,
    fields: fn(&str) -> Vec<(&'static str, String)>,
}

/// Hands the proved words of each table on. An object is read off the same words.
fn hand_on(asked: &Question, handed: &Handed) -> Ended {
    each_table(asked, &asked.files, |file, input| {
        let told = (handed.words)(input.table())?;
        let said = String::from_utf8_lossy(&told).into_owned();
        let object = |fields, refused| {
            let name = ("file", string(&file.to_string_lossy()));
            let fields: Vec<(&str, String)> =
                [vec![name], fields, vec![("refused", refused)]].concat();
            json::line(&fields)
        };
        if said.starts_with(handed.begins) {
            let answer = match asked.form() {
                Form::Json => object((handed.fields)(&said), "null".to_string()),
                Form::Words => told,
            };
            return Ok(Told::Answer(answer, 0));
        }
        let Some(number) = refusals::number_in(&told) else {
            return Err(failed(handed.text, "what it wrote is no answer").into());
        };
        let refusal = || object(Vec::new(), refusals::field_in(&said));
        Ok(Told::refused(
            asked.form(),
            input.table(),
            number,
            &told,
            refusal,
        ))
    })
}
