//! `vanillatarn where`: where components are at ticks: the pairs of a log, each with its
//! passage, in words or as objects. What is wrong with a pair is told by its line.

mod pairs;
mod told;

use super::one_input;
use crate::input;
use crate::json::object;
use crate::options::{decimal, Form, Question};
use crate::output::{tell, write, Ended, Stop, REFUSED};
use crate::refusals::{self, field, name_kind, refuse};
use crate::shown::name;
use pairs::{Columns, Fault};
use std::ffi::OsStr;
use timed_network::{positions, Refused};

pub fn answer(asked: &Question) -> Ended {
    let [table, log] = asked.files.as_slice() else {
        return Err(asked.misused("PAIRS is missing"));
    };
    one_input(asked, &asked.files)?;
    let columns = columns(asked)?;
    let input = input::table_of(table)?;
    let pairs = pairs::read(log, columns).map_err(|problem| problem.of(log))?;
    match positions(input.table(), &pairs.pairs) {
        Ok(positions) => {
            let words = match asked.form() {
                Form::Words => told::words(&pairs.pairs, &positions),
                Form::Json => told::json(&pairs.pairs, &positions),
            };
            write(words.as_bytes())
        }
        Err(refused) => {
            let number = refused.refusal.number();
            name_kind(table, &input, number)?;
            let fault = pairs.first_bad(input.table());
            let fault = fault.filter(|fault| fault.number == number);
            match asked.form() {
                Form::Words => tell_refusal(&refused, fault, table, log),
                Form::Json => {
                    let line = fault.map_or("null".to_string(), |fault| fault.line.to_string());
                    let object = object(&[("line", line), ("refused", field(&refused))]);
                    write(format!("{object}\n").as_bytes())?;
                    Ok(REFUSED)
                }
            }
        }
    }
}

/// The columns in which component and tick stand.
fn columns(asked: &Question) -> Result<Columns, Stop> {
    let column = |option, usual| match asked.text(option) {
        Some(word) => decimal(option, word).map_err(|fault| asked.misused(&fault)),
        None => Ok(usual),
    };
    let (component, tick) = (column("--component", 1)?, column("--tick", 2)?);
    if component == 0 || tick == 0 {
        return Err(asked.misused("columns are counted from 1"));
    }
    if component == tick {
        return Err(asked.misused("--component and --tick name the same column"));
    }
    Ok(Columns {
        component: component as usize,
        tick: tick as usize,
    })
}

/// The refusal, and after 21 and 24 the line at fault.
fn tell_refusal(refused: &Refused, fault: Option<Fault>, table: &OsStr, log: &OsStr) -> Ended {
    let Some(fault) = fault else {
        return refuse(refused, table);
    };
    tell(refusals::words(refused).as_bytes())?;
    let (line, words) = (fault.line, fault.words);
    Err(Stop::refused(format!(
        "{}: line {line}: {words}",
        name(log)
    )))
}
