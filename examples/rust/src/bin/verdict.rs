//! A table's verdict in words, as the verified program prints it.
//!
//!     verdict TABLE [SPREAD]
//!
//! TABLE is a file with the bytes of a table, SPREAD how many ticks apart its nodes may
//! wake, 0 unless said. The output is that of the example in C.
#![forbid(unsafe_code)]

use std::env;
use std::error::Error;
use std::fs;
use std::io::{self, Write};

use timed_network_words::verdict;

fn main() -> Result<(), Box<dyn Error>> {
    let words: Vec<String> = env::args().skip(1).collect();
    let (table, spread) = match &words[..] {
        [table] => (table, 0),
        [table, spread] => (table, spread.parse()?),
        _ => return Err("usage: verdict TABLE [SPREAD]".into()),
    };
    let text = verdict(&fs::read(table)?, spread);
    let mut out = io::stdout().lock();
    out.write_all(text.as_bytes())?;
    Ok(out.flush()?)
}
