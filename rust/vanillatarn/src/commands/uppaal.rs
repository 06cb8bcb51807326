//! `vanillatarn uppaal`: the network of a table as a text for UPPAAL, and beside it what can be
//! asked of it there.

mod queries;

use super::is_same;
use crate::input;
use crate::options::Question;
use crate::output::{deliver, Ended};
use crate::refusals::{name_kind, refuse};
use reference::table::read_table;
use std::ffi::{OsStr, OsString};
use std::os::unix::ffi::OsStrExt;
use timed_network::{passages, uppaal, Refused};

pub fn answer(asked: &Question) -> Ended {
    let file = asked.files[0].as_os_str();
    let output = asked.text("-o");
    let queries = output.filter(|output| *output != "-").map(beside);
    if let Some(queries) = queries.as_ref().filter(|queries| is_same(queries, file)) {
        let queries = queries.to_string_lossy();
        return Err(asked.misused(&format!("the queries would stand in the input {queries}")));
    }
    let input = input::table_of(file)?;
    let (text, asked_there) = match written(input.table()) {
        Ok(written) => written,
        Err(refused) => {
            name_kind(file, &input, refused.refusal.number())?;
            return refuse(&refused, file);
        }
    };
    deliver(text.as_bytes(), output)?;
    match queries {
        Some(queries) => deliver(asked_there.as_bytes(), Some(&queries)),
        None => Ok(0),
    }
}

/// The file of the queries beside that of the text.
fn beside(output: &OsStr) -> OsString {
    let name = output.as_bytes();
    let stem = name.strip_suffix(b".xta").unwrap_or(name);
    OsStr::from_bytes(&[stem, b".q"].concat()).to_owned()
}

/// The text and the queries. Queries are asked about a text alone that there is.
fn written(table: &[u8]) -> Result<(String, String), Refused> {
    let (text, rows) = (uppaal(table)?, passages(table)?);
    let table = read_table(table).expect("the library has accepted the table");
    Ok((text, queries::queries(&table, &rows)))
}
