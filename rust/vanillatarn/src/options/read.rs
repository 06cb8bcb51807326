//! Reads the words of a call.

use super::values::{Kind, Value};
use super::{of_command, Command, Form, Known, COMMANDS, EXCLUDED, OPTIONS, SHORT};
use crate::help;
use crate::input;
use crate::nearest::meant;
use crate::output::Stop;
use std::ffi::{OsStr, OsString};
use std::os::unix::ffi::OsStrExt;

/// The most bytes of a list of names.
const NAMES: u64 = 100_000_000;

/// What is asked for.
pub enum Asked {
    Help(&'static str),
    Version,
    Command(Question),
}

/// A command with its words and what was given to its options.
pub struct Question {
    pub command: &'static str,
    pub files: Vec<OsString>,
    given: Vec<(&'static str, Value)>,
}

/// Wrong use of a command, or of all of it.
pub fn misused(command: Option<&str>, message: &str) -> Stop {
    let command = command.map_or(String::new(), |command| format!("{command} "));
    Stop::wrong(format!("{message} (see: vanillatarn {command}--help)"))
}

/// Reads all words.
pub fn read(words: &[OsString]) -> Result<Asked, Stop> {
    let Some((first, rest)) = words.split_first() else {
        return Err(misused(None, "a command is missing"));
    };
    match first.to_str().unwrap_or_default() {
        "-h" | "--help" | "help" => help_of(rest).map(Asked::Help),
        "-V" | "--version" => match rest {
            [] => Ok(Asked::Version),
            [more, ..] => Err(misused(None, &too_many(more))),
        },
        _ => {
            let command = command_of(first)?;
            read_command(command, rest).map_err(|fault| misused(Some(command.name), &fault))
        }
    }
}

fn too_many(word: &OsStr) -> String {
    format!("one word too many: {}", word.to_string_lossy())
}

/// The page that is asked for.
fn help_of(words: &[OsString]) -> Result<&'static str, Stop> {
    match words {
        [] => Ok(help::GENERAL),
        [name] => Ok(command_of(name)?.page),
        [_, more, ..] => Err(misused(None, &too_many(more))),
    }
}

fn command_of(word: &OsStr) -> Result<&'static Command, Stop> {
    let name = word.to_string_lossy();
    let found = COMMANDS.iter().find(|known| known.name == name);
    found.ok_or_else(|| {
        let names = COMMANDS.iter().map(|known| known.name);
        let meant = meant(&name, names);
        misused(None, &format!("unknown command '{name}'{meant}"))
    })
}

/// The words behind a command.
fn read_command(command: &'static Command, words: &[OsString]) -> Result<Asked, String> {
    let mut question = Question {
        command: command.name,
        files: Vec::new(),
        given: Vec::new(),
    };
    let mut rest = words.iter();
    while let Some(word) = rest.next() {
        match word.as_bytes() {
            b"--" => question.files.extend(rest.by_ref().cloned()),
            [b'-', _, ..] => {
                if question.read_option(word, &mut rest)? {
                    return Ok(Asked::Help(command.page));
                }
            }
            _ => question.files.push(word.clone()),
        }
    }
    question.add_listed(command)?;
    question.counted(command)?;
    Ok(Asked::Command(question))
}

/// An option in both forms: its name, and the word behind `=` if there is one.
fn parts(word: &OsStr) -> (String, Option<OsString>) {
    let bytes = word.as_bytes();
    let split = bytes.iter().position(|byte| *byte == b'=');
    let (name, value) = match split.filter(|_| bytes.starts_with(b"--")) {
        Some(place) => (&bytes[..place], Some(&bytes[place + 1..])),
        None => (bytes, None),
    };
    let name = String::from_utf8_lossy(name).into_owned();
    let long = SHORT.iter().find(|[short, _]| *short == name);
    let name = long.map_or(name, |[_, long]| long.to_string());
    (name, value.map(|value| OsStr::from_bytes(value).to_owned()))
}

impl Question {
    /// Reads an option, and its word from the rest if it takes one. Whether it asks for help.
    fn read_option<'a>(
        &mut self,
        word: &OsStr,
        rest: &mut impl Iterator<Item = &'a OsString>,
    ) -> Result<bool, String> {
        let (name, joined) = parts(word);
        let known = self.known(&name)?;
        let value = match (known.kind.takes_word(), joined) {
            (false, None) => OsString::new(),
            (false, Some(_)) => return Err(format!("{} takes no word", known.name)),
            (true, joined) => joined
                .or_else(|| rest.next().cloned())
                .ok_or_else(|| format!("{} lacks its {}", known.name, known.kind.lacks()))?,
        };
        if known.kind.takes_word() && self.value(known.name).is_some() {
            return Err(format!("{} is given twice", known.name));
        }
        let value = known.kind.value(known.name, &value)?;
        self.given.push((known.name, value));
        for [one, other] in EXCLUDED {
            if self.has(one) && self.has(other) {
                return Err(format!("{one} and {other} exclude each other"));
            }
        }
        Ok(known.kind == Kind::Help)
    }

    /// The option of this name, if the command has it.
    fn known(&self, name: &str) -> Result<&'static Known, String> {
        let own = |known: &&Known| known.kind == Kind::Help || known.of.contains(&self.command);
        let Some(known) = OPTIONS.iter().find(|known| known.name == name) else {
            // Of two letters one is no hint of the other.
            let long = of_command(self.command).filter(|option| option.len() > 2);
            let meant = meant(name, long);
            return Err(format!("unknown option {name}{meant}"));
        };
        let other = || format!("'{}' has no option {name}", self.command);
        Some(known).filter(own).ok_or_else(other)
    }

    /// Puts the files that `--files-from` names before those that are given as words: a name a
    /// line, with `-0` a zero behind each.
    fn add_listed(&mut self, command: &Command) -> Result<(), String> {
        let Some(list) = self.text("--files-from") else {
            return match self.has("-0") {
                true => Err("-0 is for --files-from alone".to_string()),
                false => Ok(()),
            };
        };
        let bytes = input::read(list, NAMES).map_err(|problem| {
            let list = list.to_string_lossy();
            format!("{list}: {}", problem.words)
        })?;
        let end = if self.has("-0") { 0 } else { b'\n' };
        let names = bytes.split(|byte| *byte == end);
        let names = names.filter(|name| !name.is_empty());
        let names: Vec<OsString> = names
            .map(|name| OsStr::from_bytes(name).to_owned())
            .collect();
        let place = command.file_place().min(self.files.len());
        self.files.splice(place..place, names);
        Ok(())
    }

    /// Whether there are as many words as the command takes. Where a list names the files there
    /// may be none.
    fn counted(&self, command: &Command) -> Result<(), String> {
        let listed = self.has("--files-from");
        if listed && self.files.len() + 1 >= command.words.len() {
            return Ok(());
        }
        let made = ["--early", "--late", "--seed"]
            .iter()
            .find(|option| self.has(option));
        if let (Some(made), "run") = (made, command.name) {
            return match self.files.as_slice() {
                [] => Err("TABLE is missing".to_string()),
                [_] => Ok(()),
                _ => Err(format!("{made} makes the choices: give it or CHOICES")),
            };
        }
        match (
            command.words.get(self.files.len()),
            self.files.get(command.words.len()),
        ) {
            (Some(missing), _) => Err(format!("{missing} is missing")),
            (None, Some(more)) if !command.many => Err(too_many(more)),
            _ => Ok(()),
        }
    }

    fn value(&self, option: &str) -> Option<&Value> {
        let mut given = self.given.iter();
        let found = given.find(|(name, _)| *name == option);
        found.map(|(_, value)| value)
    }

    pub fn has(&self, option: &str) -> bool {
        self.value(option).is_some()
    }

    pub fn text(&self, option: &str) -> Option<&OsStr> {
        match self.value(option)? {
            Value::Text(text) => Some(text),
            _ => None,
        }
    }

    pub fn number(&self, option: &str) -> Option<u32> {
        match self.value(option)? {
            Value::Number(number) => Some(*number),
            _ => None,
        }
    }

    pub fn numbers(&self, option: &str) -> Option<&[u32]> {
        match self.value(option)? {
            Value::Numbers(numbers) => Some(numbers),
            _ => None,
        }
    }

    pub fn range(&self, option: &str) -> Option<(u32, u32)> {
        match self.value(option)? {
            Value::Range(lo, hi) => Some((*lo, *hi)),
            _ => None,
        }
    }

    pub fn form(&self) -> Form {
        match self.has("--json") {
            true => Form::Json,
            false => Form::Words,
        }
    }

    /// Wrong use of this command.
    pub fn misused(&self, message: &str) -> Stop {
        misused(Some(self.command), message)
    }

    /// What an option has to give.
    pub fn needed<T>(&self, option: &str, value: Option<T>) -> Result<T, Stop> {
        value.ok_or_else(|| self.misused(&format!("{option} is missing")))
    }
}

#[cfg(test)]
mod tests;
