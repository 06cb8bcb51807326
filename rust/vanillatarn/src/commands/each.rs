//! Commands that are asked about several files: one after the other, in words each under its
//! name, as JSON an object a line. The status is the worst of all files.

use super::one_input;
use crate::input::{self, Input, Problem};
use crate::json;
use crate::options::{Form, Question};
use crate::output::{write, Ended, Stop, BROKEN, REFUSED};
use crate::refusals::refuse_with;
use crate::shown::shown;
use std::ffi::{OsStr, OsString};
use std::os::unix::ffi::OsStrExt;

/// What is told of one file, in the form that is asked for.
pub enum Told {
    /// An answer, and its status.
    Answer(Vec<u8>, u8),
    /// An answer that is no: what is said of the file besides.
    Flawed(Vec<u8>, &'static str),
    /// A refusal with its number; in words it goes to standard error.
    Refusal(Vec<u8>, u8),
    /// The file is at fault.
    Fault(Problem),
}

impl Told {
    /// A refusal of a table: its number, its words, its object. A file of another kind is named.
    pub fn refused(
        form: Form,
        table: &[u8],
        number: u8,
        words: &[u8],
        object: impl FnOnce() -> Vec<u8>,
    ) -> Told {
        match (input::another_kind(table, number), form) {
            (Some(problem), _) => Told::Fault(problem),
            (None, Form::Json) => Told::Refusal(object(), number),
            (None, Form::Words) => Told::Refusal(words.to_vec(), number),
        }
    }
}

/// Answers for each of these files: what reads one, what tells of it.
pub fn each<T>(
    asked: &Question,
    files: &[OsString],
    read: impl Fn(&OsStr) -> Result<T, Problem>,
    one: impl Fn(&OsStr, &T) -> Result<Told, Stop>,
) -> Ended {
    one_input(asked, files)?;
    let mut worst = 0;
    for file in files {
        let told = match read(file) {
            Ok(input) => one(file, &input),
            Err(problem) => Ok(Told::Fault(problem)),
        };
        let status = told.and_then(|told| tell(asked.form(), file, files.len() > 1, told));
        // After a failure nothing is tried any more.
        worst = worst.max(status.unwrap_or_else(Stop::told));
        if worst == BROKEN {
            break;
        }
    }
    Ok(worst)
}

/// The same of tables, or texts that stand for them.
pub fn each_table(
    asked: &Question,
    files: &[OsString],
    one: impl Fn(&OsStr, &Input) -> Result<Told, Stop>,
) -> Ended {
    each(asked, files, input::input_of, one)
}

/// Tells it, under the file's name where there are several.
fn tell(form: Form, file: &OsStr, several: bool, told: Told) -> Ended {
    let name = match (form, several) {
        (Form::Words, true) => format!("{}:\n", shown(file.as_bytes())),
        _ => String::new(),
    };
    let named = |text: &[u8]| [name.as_bytes(), text].concat();
    match told {
        Told::Answer(text, status) => write(&named(&text)).map(|_| status),
        Told::Flawed(text, words) => {
            write(&named(&text))?;
            Err(Stop::of_file(file, REFUSED, words))
        }
        Told::Refusal(text, _) if form == Form::Json => write(&text).map(|_| REFUSED),
        Told::Refusal(text, number) => refuse_with(&named(&text), number, file, 0),
        Told::Fault(problem) => {
            if form == Form::Json {
                write(&json::problem(file, &problem))?;
            }
            Err(problem.of(file))
        }
    }
}
