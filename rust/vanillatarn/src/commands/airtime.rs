//! `vanillatarn airtime`: how many ticks of its horizon a table may send.

use super::each::{each_table, Told};
use super::site::{json, words};
use crate::options::{Form, Question};
use crate::output::Ended;
use crate::refusals;
use timed_network::airtime;

pub fn answer(asked: &Question) -> Ended {
    each_table(asked, &asked.files, |file, input| {
        let answer = airtime(input.table());
        let object = || json::airtime(file, &answer).into_bytes();
        Ok(match (asked.form(), &answer) {
            (Form::Json, Ok(_)) => Told::Answer(object(), 0),
            (Form::Words, Ok(network)) => Told::Answer(words::airtime(network).into_bytes(), 0),
            (form, Err(refused)) => {
                let (number, words) = (refused.refusal.number(), refusals::words(refused));
                Told::refused(form, input.table(), number, words.as_bytes(), object)
            }
        })
    })
}
