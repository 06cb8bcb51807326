//! `vanillatarn period`: from when to when everything of a table comes again; where nothing
//! does, what keeps it from coming.

mod json;
mod words;

use super::each::{each_table, Told};
use crate::options::{Form, Question};
use crate::output::Ended;
use crate::refusals;
use timed_network::{period, Pair, Refused};

/// What the library says of a table.
type Answer = Result<Option<Pair>, Refused>;

pub fn answer(asked: &Question) -> Ended {
    each_table(asked, &asked.files, |file, input| {
        let table = input.table();
        let answer = period(table);
        let object = || json::object_of(file, table, &answer).into_bytes();
        Ok(match (asked.form(), &answer) {
            (Form::Json, Ok(_)) => Told::Answer(object(), 0),
            (Form::Words, Ok(pair)) => Told::Answer(words::told(table, *pair).into_bytes(), 0),
            (form, Err(refused)) => {
                let (number, words) = (refused.refusal.number(), refusals::words(refused));
                Told::refused(form, table, number, words.as_bytes(), object)
            }
        })
    })
}

/// The horizon that a table states.
fn horizon_of(table: &[u8]) -> u16 {
    u16::from_be_bytes([table[5], table[6]])
}
