//! `vanillatarn site`: tables under one airtime limit.

pub mod json;
pub mod words;

use super::one_input;
use crate::input::{self, Input};
use crate::options::{whole, Form, Question};
use crate::output::{write, Ended, Stop, REFUSED};
use crate::refusals::name_kind;
use std::ffi::OsStr;
use timed_network::{airtime, Network, Refused, Site};

/// What came of a table that was to be put into a place.
#[derive(Clone, Copy)]
pub struct Step<'a> {
    place: u8,
    file: &'a OsStr,
    /// Unless the table is refused.
    network: Option<Network>,
    /// The horizon of the networks that were present.
    horizon: Option<u16>,
    refused: Option<Refused>,
    in_use: u64,
    left: u64,
}

/// All files are read before the first table is put in.
pub fn answer(asked: &Question) -> Ended {
    let limit = whole("LIMIT", &asked.files[0]).map_err(|fault| asked.misused(&fault))?;
    let files = &asked.files[1..];
    one_input(asked, files)?;
    let mut inputs = Vec::new();
    for file in files {
        inputs.push((file.as_os_str(), table_in(file)?));
    }
    let steps = put_in(limit, &inputs);
    let told = match asked.form() {
        Form::Words => words::site(limit, &steps),
        Form::Json => steps.iter().map(|step| json::step(limit, step)).collect(),
    };
    write(told.as_bytes())?;
    let refused = steps.iter().any(|step| step.refused.is_some());
    Ok(if refused { REFUSED } else { 0 })
}

/// Puts tables into places 0 upward.
fn put_in<'a>(limit: u32, inputs: &[(&'a OsStr, Input)]) -> Vec<Step<'a>> {
    let mut site = Site::new(limit);
    let mut steps = Vec::new();
    for (number, (file, input)) in inputs.iter().enumerate() {
        let place = u8::try_from(number).unwrap_or(u8::MAX);
        let mut present = (0..=u8::MAX).filter_map(|place| site.network(place));
        let horizon = present.next().map(|network| network.horizon);
        let answer = site.put(input.table(), place);
        steps.push(Step {
            place,
            file,
            network: airtime(input.table()).ok(),
            horizon,
            refused: answer.err(),
            in_use: site.in_use(),
            left: site.left(),
        });
    }
    steps
}

/// The table in a file; a file of another kind ends the command.
pub fn table_in(file: &OsStr) -> Result<Input, Stop> {
    let input = input::table_of(file)?;
    if let Err(refused) = airtime(input.table()) {
        name_kind(file, &input, refused.refusal.number())?;
    }
    Ok(input)
}
