//! The command `vanillatarn`: tables, schedules, programs and runs. It asks the library, and
//! where words are proved it hands on what they say (`words`).
//!
//! The statuses are those of `output`.

#![deny(unsafe_code)]
#![cfg_attr(not(feature = "library"), allow(dead_code))]

mod commands;
mod help;
mod home;
mod input;
mod json;
mod lines;
mod nearest;
mod options;
mod output;
mod process;
mod refusals;
mod shown;
mod words;

use options::Asked;
use output::{Stop, BROKEN};
use std::ffi::OsString;
use std::process::ExitCode;

fn main() -> ExitCode {
    let words: Vec<OsString> = std::env::args_os().skip(1).collect();
    // A fault of the command itself is none of the answers.
    let answered = std::panic::catch_unwind(|| answer(&words));
    ExitCode::from(answered.unwrap_or(BROKEN))
}

fn answer(words: &[OsString]) -> u8 {
    let told = options::read(words).and_then(|asked| match asked {
        Asked::Help(page) => output::write(page.as_bytes()),
        Asked::Version => output::write(home::version()?.as_bytes()),
        Asked::Command(asked) => commands::answer(&asked),
    });
    told.unwrap_or_else(Stop::told)
}
