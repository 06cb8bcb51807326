//! `vanillatarn translate`: the program of a table's nodes, from the library.

use crate::input;
use crate::options::Question;
use crate::output::{deliver, Ended};
use crate::refusals;

pub fn answer(asked: &Question) -> Ended {
    let file = asked.files[0].as_os_str();
    let input = input::table_of(file)?;
    match timed_network::program(input.table()) {
        Ok(program) => deliver(&program, asked.text("-o")),
        Err(refused) => {
            let number = refused.refusal.number();
            refusals::name_kind(file, &input, number)?;
            let words = refusals::whole_words(&refused);
            refusals::refuse_with(words.as_bytes(), number, file, 0)
        }
    }
}
