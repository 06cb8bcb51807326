//! `vanillatarn why`: why a component takes its edge at a tick, as the proved words tell it, or
//! an object; of a text with the line of each edge.

mod json;
mod told;

use super::each::{each_table, Told as Answered};
use crate::input::{self, Input};
use crate::options::{decimal, Form, Question};
use crate::output::{Ended, Stop};
use crate::shown::{name, shown};
use crate::words;
use std::ffi::OsStr;
use table_text::{edge_start, statement};
use timed_network::{reasons, Reasons};
use told::Told;

/// What is asked about.
pub struct Asked<'a> {
    component: u32,
    tick: u32,
    file: &'a OsStr,
}

pub fn answer(asked: &Question) -> Ended {
    // The last two words are no files.
    let split = asked.files.len().saturating_sub(2);
    let (files, [component, tick]) = asked.files.split_at(split) else {
        return Err(asked.misused("TICK is missing"));
    };
    let number = |what, word| decimal(what, word).map_err(|fault| asked.misused(&fault));
    let (component, tick) = (number("COMPONENT", component)?, number("TICK", tick)?);
    each_table(asked, files, |file, input| {
        let about = Asked {
            component,
            tick,
            file,
        };
        about.told(asked.form(), input)
    })
}

impl Asked<'_> {
    fn told(&self, form: Form, input: &Input) -> Result<Answered, Stop> {
        let (table, component, tick) = (input.table(), self.component, self.tick);
        let answer = reasons(table, component, tick);
        if let Err(refused) = &answer {
            if let Some(problem) = input::another_kind(table, refused.refusal.number()) {
                return Ok(Answered::Fault(problem));
            }
        }
        let told = Told::of(words::reasons(table, component, tick)?, &answer)?;
        Ok(match (form, &answer) {
            (Form::Json, Ok(reasons)) => {
                Answered::Answer(json::told(self, input, reasons, &told.windows), 0)
            }
            (Form::Words, Ok(reasons)) => {
                let words = [&told.words[..], &self.line_words(input, reasons)].concat();
                Answered::Answer(words, 0)
            }
            (form, Err(refused)) => {
                let object = || json::refused(self, refused);
                let number = refused.refusal.number();
                Answered::refused(form, table, number, &told.words, object)
            }
        })
    }

    /// The line of each edge in a text.
    fn line_words(&self, input: &Input, reasons: &Reasons) -> Vec<u8> {
        let Input::Text { text, .. } = input else {
            return Vec::new();
        };
        let mut words = String::new();
        for (edge, _) in &reasons.edges {
            if let Some(line) = self.line(input, *edge) {
                let said = shown(statement(text, line).as_bytes());
                let name = name(self.file);
                words += &format!(
                    "Edge {edge} is line {line} of {name}: {said}
"
                );
            }
        }
        words.into_bytes()
    }

    /// The line of an edge in a text.
    fn line(&self, input: &Input, edge: u8) -> Option<usize> {
        let Input::Text { encoded, .. } = input else {
            return None;
        };
        let component = u8::try_from(self.component).ok()?;
        encoded.line_of(edge_start(&encoded.bytes, component, edge)?)
    }
}
