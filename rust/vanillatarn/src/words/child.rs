//! What a verified program writes: it is called for each text.

use super::{failed, Fault, Text};
use crate::home::Home;
use crate::process::ends_with_this;
use std::io::{self, Write};
use std::path::Path;
use std::process::{Command, Output, Stdio};

/// What the program of a text writes. A verified program ends with status 0 and says nothing on
/// standard error unless it could not do its work.
pub fn printed(text: Text, words: &[String], input: &[u8]) -> Result<Vec<u8>, Fault> {
    let home = Home::find().map_err(|_| failed(text, "it is not found"))?;
    let program = home.programs().join(text.program());
    if !program.exists() {
        return Err(Fault(home.missing(text.program())));
    }
    let output = run(&program, words, input).map_err(|error| failed(text, &error.to_string()))?;
    if output.status.success() && output.stderr.is_empty() {
        return Ok(output.stdout);
    }
    let said = String::from_utf8_lossy(&output.stderr);
    let why = format!("{} {}", output.status, said.trim_end());
    Err(failed(text, &why))
}

/// Calls a program with these words and this standard input. That has at most 65,535 bytes, a
/// program of a table's nodes, and a pipe holds them: all of it can be written before anything is
/// read.
fn run(program: &Path, words: &[String], input: &[u8]) -> io::Result<Output> {
    let mut command = Command::new(program);
    command
        .args(words)
        .stdin(Stdio::piped())
        .stdout(Stdio::piped())
        .stderr(Stdio::piped());
    let mut child = ends_with_this(&mut command).spawn()?;
    if let Some(mut pipe) = child.stdin.take() {
        // A program that does not read is told by what it writes.
        let _ = pipe.write_all(input);
    }
    child.wait_with_output()
}
