//! `vanillatarn text`: a table in its text form.

use crate::input;
use crate::options::Question;
use crate::output::{write, Ended, Stop, REFUSED};
use table_text::Kind;

pub fn answer(asked: &Question) -> Ended {
    let file = asked.files[0].as_os_str();
    let input = input::table_of(file)?;
    match table_text::decode(input.table()) {
        Ok(text) => write(text.as_bytes()),
        Err(fault) => {
            let kinds = [Kind::Program, Kind::Part];
            match input::other_than(input.table(), "table", &kinds) {
                Some(problem) => Err(problem.of(file)),
                None => Err(Stop::of_file(file, REFUSED, &fault.to_string())),
            }
        }
    }
}
