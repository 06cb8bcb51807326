//! `vanillatarn verdict`: whether tables are accepted, one after the other. In words it is what
//! the proved words say, byte for byte, and where the table comes from a text the lines behind
//! that at which the check stopped; as JSON and for the status alone the library is asked. The
//! status is the worst of all files.

#[cfg(feature = "library")]
mod json;
#[cfg(feature = "library")]
mod numbers;
#[cfg(feature = "library")]
mod stop;
mod told;

use super::one_input;
use crate::input::{self, Input};
use crate::lines::line_words;
use crate::options::Question;
use crate::output::{write, Ended, Stop, BROKEN, REFUSED};
use crate::shown::shown;
use std::ffi::OsStr;
use std::os::unix::ffi::OsStrExt;
use told::Told;

/// How a verdict is told.
#[derive(Clone, Copy, PartialEq, Eq)]
enum Form {
    Words,
    Json,
    Quiet,
}

/// What all files have in common.
struct Asked {
    form: Form,
    /// How many ticks apart the nodes may wake.
    spread: u32,
    /// Whether there are several files, so that each is named.
    several: bool,
}

pub fn answer(asked: &Question) -> Ended {
    one_input(asked, &asked.files)?;
    let form = match (asked.has("--json"), asked.has("--quiet")) {
        (true, _) => Form::Json,
        (_, true) => Form::Quiet,
        _ => Form::Words,
    };
    let common = Asked {
        form,
        spread: asked.number("--spread").unwrap_or(0),
        several: asked.files.len() > 1,
    };
    let mut worst = 0;
    for file in &asked.files {
        // After a failure nothing is tried any more.
        worst = worst.max(common.judge(file).unwrap_or_else(Stop::told));
        if worst == BROKEN {
            break;
        }
    }
    Ok(worst)
}

impl Asked {
    fn judge(&self, file: &OsStr) -> Ended {
        let told = input::input_of(file).map(|input| match self.form {
            Form::Words => self.words(file, &input),
            Form::Json | Form::Quiet => self.numbers(file, &input),
        });
        let problem = match told {
            Ok(told) => match told? {
                Ok(status) => return Ok(status),
                Err(problem) => problem,
            },
            Err(problem) => problem,
        };
        if self.form == Form::Json {
            write(&crate::json::problem(file, &problem))?;
        }
        Err(problem.of(file))
    }

    /// Tells the verdict in words.
    fn words(&self, file: &OsStr, input: &Input) -> Result<Result<u8, input::Problem>, Stop> {
        let told = Told::of(input.table(), self.spread)?;
        if let Some(problem) = input::another_kind(input.table(), told.number) {
            return Ok(Err(problem));
        }
        let lines = line_words(file, input, told.stop().as_ref());
        let name = match self.several {
            true => shown(file.as_bytes()) + ": ",
            false => String::new(),
        };
        write(&[name.as_bytes(), &told.text, &lines].concat())?;
        Ok(Ok(if told.number == 0 { 0 } else { REFUSED }))
    }

    #[cfg(not(feature = "library"))]
    fn numbers(&self, _: &OsStr, _: &Input) -> Result<Result<u8, input::Problem>, Stop> {
        Err(super::without_library())
    }
}
