//! `vanillatarn run`: how a run of a table under choices ends, and what is observed.

mod json;
mod long;
mod printed;
mod told;

use super::one_input;
use crate::input::{self, Input};
use crate::options::{Form, Question};
use crate::output::{tell, write, Ended, Stop, REFUSED};
use crate::refusals::{name_kind, number_in, refuse_with};
use crate::words::{self, failed, Text};
use long::LongRun;
use std::ffi::OsStr;
use table_text::Kind;
use told::Report;

/// The most choices that are read: one more than are allowed is refused with 14 by the call. A run
/// to a horizon has no such limit.
const CHOICES: u64 = 1_000_000;
const MANY: u64 = 17_179_869_184;

/// How a run is told that ends with a choice that is not allowed.
const NOT_ALLOWED: &[u8] = b"choice not allowed: ";

pub fn answer(asked: &Question) -> Ended {
    one_input(asked, &asked.files)?;
    let file = asked.files[0].as_os_str();
    let input = input::table_of(file)?;
    let most = match asked.has("--horizon") {
        true => MANY,
        false => CHOICES,
    };
    let choices = match asked.files.get(1) {
        Some(list) => input::choices_of(list, most)?,
        None => super::choices::made(asked, file, input.table())?,
    };
    match asked.number("--horizon") {
        Some(horizon) => run_to(asked, horizon, &input, &choices),
        None => run(asked, &input, &choices),
    }
}

/// The run to the table's own horizon, as the proved words tell it.
fn run(asked: &Question, input: &Input, choices: &[u8]) -> Ended {
    let file = asked.files[0].as_os_str();
    let report = Report {
        form: asked.form(),
        close: asked.number("--close"),
        spread: asked.number("--spread").unwrap_or(0),
        offsets: asked.numbers("--offsets").unwrap_or_default(),
    };
    let table = input.table();
    let words = words::run(table, choices, report.spread, report.offsets)?;
    let refused = number_in(&words);
    if let Some(number) = refused {
        name_kind(file, input, number)?;
        if report.form == Form::Words {
            return refuse(asked, &words, number);
        }
    }
    let status = match (refused, status(&words)) {
        (Some(_), _) => REFUSED,
        (None, Some(status)) => status,
        (None, None) => return Err(failed(Text::Run, "what it wrote is no answer").into()),
    };
    if let (true, Some(list)) = (words.starts_with(NOT_ALLOWED), asked.files.get(1)) {
        not_another(list, choices)?;
    }
    if report.form == Form::Words && report.close.is_none() {
        write(&words)?;
        return Ok(status);
    }
    let told = report.told(table, choices, &String::from_utf8_lossy(&words));
    write(&told.map_err(|fault| failed(Text::Run, &fault))?)?;
    Ok(status)
}

/// The run to a horizon: no limit on the choices, and the library's own answer.
fn run_to(asked: &Question, horizon: u32, input: &Input, choices: &[u8]) -> Ended {
    let run = LongRun {
        form: asked.form(),
        close: asked.number("--close"),
        horizon,
    };
    let (told, status) = run.told(input.table(), choices)?;
    if let (Form::Words, Some(number)) = (run.form, number_in(&told)) {
        name_kind(&asked.files[0], input, number)?;
        return refuse(asked, &told, number);
    }
    write(&told)?;
    Ok(status)
}

/// How a run that was made ended: 0 at the horizon or with all choices used up.
fn status(words: &[u8]) -> Option<u8> {
    let first = words.split(|byte| *byte == b'\n').next()?;
    match first {
        b"horizon reached" | b"choices used up" => Some(0),
        _ if first.starts_with(b"late: ") => Some(REFUSED),
        _ if first.starts_with(NOT_ALLOWED) => Some(REFUSED),
        _ => None,
    }
}

/// Ends where a file of another kind stands in the place of the choices.
fn not_another(file: &OsStr, choices: &[u8]) -> Result<(), Stop> {
    let kinds = [Kind::Table, Kind::Text, Kind::Program, Kind::Part];
    match input::other_than(choices, "list of choices", &kinds) {
        Some(problem) => Err(problem.of(file)),
        None => Ok(()),
    }
}

/// Ends with a refusal. Of an offset that is refused it is told what to give.
fn refuse(asked: &Question, words: &[u8], number: u8) -> Ended {
    let (file, spread) = (asked.files[0].as_os_str(), asked.number("--spread"));
    let more = match (number, spread) {
        (20, Some(spread)) => format!("an offset is above --spread {spread}"),
        (20, None) => {
            "without --spread all nodes wake at tick 0: give the spread that the offsets keep to"
                .to_string()
        }
        _ => return refuse_with(words, number, file, spread.unwrap_or(0)),
    };
    tell(words)?;
    Err(Stop::refused(more))
}
