//! `vanillatarn table`: the bytes of a table from its text form.

use crate::input;
use crate::options::Question;
use crate::output::{deliver, Ended, Stop, REFUSED};
use table_text::Kind;

pub fn answer(asked: &Question) -> Ended {
    let file = asked.files[0].as_os_str();
    let text = input::text_of(file)?;
    let kinds = [Kind::Table, Kind::Program, Kind::Part];
    if let Some(problem) = input::other_than(&text, "text", &kinds) {
        return Err(problem.of(file));
    }
    match table_text::encode_file(&text) {
        Ok(table) => deliver(&table, asked.text("-o")),
        Err(fault) => Err(Stop::of_file(file, REFUSED, &fault.to_string())),
    }
}
