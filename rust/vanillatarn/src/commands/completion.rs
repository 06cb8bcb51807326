//! `vanillatarn completion`: what lets a shell complete commands, options and files. It is made
//! of the tables of `options`, so that it knows every option and no other.

use crate::help::GENERAL;
use crate::options::{of_command, takes, words_of, Command, Question, COMMANDS};
use crate::output::{deliver, Ended};

pub fn answer(asked: &Question) -> Ended {
    let text = match asked.files[0].to_str() {
        Some("bash") => bash(),
        Some("zsh") => zsh(),
        _ => return Err(asked.misused("SHELL is bash or zsh")),
    };
    deliver(text.as_bytes(), asked.text("-o"))
}

/// What a word of a command is completed with.
fn kind_of(word: &str) -> &'static str {
    match word {
        "TABLE" | "TEXTFILE" | "PROGRAM" | "CHOICES" | "PAIRS" => "file",
        "PREFIX" => "folder",
        "SHELL" => "shell",
        _ => "none",
    }
}

/// The kinds of a command's words, in their order; a `+` behind the last where it may stand
/// there often.
fn kinds(command: &Command) -> String {
    let (words, many) = words_of(command);
    let mut kinds: Vec<&str> = words.iter().map(|word| kind_of(word)).collect();
    if many {
        kinds.push("+");
    }
    kinds.join(" ")
}

fn options(command: &str) -> Vec<&'static str> {
    of_command(command).chain(["--help"]).collect()
}

/// What the general page says of a command, in a line.
fn said_of(command: &str) -> String {
    let mut lines = GENERAL.lines();
    let head = format!("  {command} ");
    let first = lines.find(|line| line.starts_with(&head)).unwrap_or("");
    let behind = |line: &str| line.get(34..).map(|text| text.trim().to_string());
    let here = behind(first).filter(|_| first.get(32..34) == Some("  "));
    here.or_else(|| {
        let next = lines.find(|line| line.starts_with("      ") && line.len() > 34)?;
        behind(next)
    })
    .unwrap_or_default()
}

fn bash() -> String {
    let names: Vec<&str> = COMMANDS.iter().map(|command| command.name).collect();
    let mut cases = String::new();
    for command in &COMMANDS {
        let name = command.name;
        let offered = options(name).join(" ");
        cases.push_str(&format!(
            "        {name}) options='{offered}' kinds='{}' ;;\n",
            kinds(command)
        ));
    }
    let files = with_word(true).join(" | ");
    let numbers = with_word(false).join(" | ");
    include_str!("completion/bash.txt")
        .replace("@COMMANDS@", &names.join(" "))
        .replace("@CASES@", cases.trim_end())
        .replace("@FILES@", &files)
        .replace("@NUMBERS@", &numbers)
}

/// The options that take a word, by whether it is a file.
fn with_word(file: bool) -> Vec<&'static str> {
    let mut found: Vec<&str> = Vec::new();
    for command in &COMMANDS {
        for option in of_command(command.name) {
            if takes(option) == (true, file) && !found.contains(&option) {
                found.push(option);
            }
        }
    }
    found
}

fn zsh() -> String {
    let mut names = String::new();
    let mut cases = String::new();
    for command in &COMMANDS {
        let name = command.name;
        names.push_str(&format!("    '{name}:{}'\n", said_of(name)));
        cases.push_str(&format!(
            "        {name}) _arguments -s {} ;;\n",
            zsh_words(command)
        ));
    }
    include_str!("completion/zsh.txt")
        .replace("@COMMANDS@", names.trim_end())
        .replace("@CASES@", cases.trim_end())
}

/// The words of a command as zsh's `_arguments` takes them.
fn zsh_words(command: &Command) -> String {
    let mut told: Vec<String> = Vec::new();
    for option in options(command.name) {
        told.push(match takes(option) {
            (false, _) => format!("'{option}'"),
            (true, false) => format!("'{option}:word:'"),
            (true, true) => format!("'{option}:file:_files'"),
        });
    }
    let (words, many) = words_of(command);
    for (place, word) in words.iter().enumerate() {
        let often = many && place + 1 == words.len();
        let place = match often {
            true => "*".to_string(),
            false => (place + 1).to_string(),
        };
        let action = match kind_of(word) {
            "file" => "_files",
            "folder" => "_files -/",
            "shell" => "(bash zsh)",
            _ => "",
        };
        told.push(format!("'{place}:{word}:{action}'"));
    }
    told.join(" ")
}

#[cfg(test)]
mod tests {
    use super::{bash, said_of, zsh};
    use crate::options::{of_command, COMMANDS};

    #[test]
    fn every_command_and_option_is_offered() {
        for (shell, text) in [("bash", bash()), ("zsh", zsh())] {
            for mark in ["@COMMANDS", "@CASES", "@FILES", "@NUMBERS"] {
                assert!(!text.contains(mark), "{shell} {mark}");
            }
            for command in &COMMANDS {
                let head = format!("        {}) ", command.name);
                let line = text.lines().find(|line| line.starts_with(&head));
                let line = line.unwrap_or_else(|| panic!("{shell} {}", command.name));
                for option in of_command(command.name).chain(["--help"]) {
                    assert!(line.contains(option), "{shell} {} {option}", command.name);
                }
            }
        }
    }

    #[test]
    fn every_command_is_said() {
        for command in &COMMANDS {
            assert!(!said_of(command.name).is_empty(), "{}", command.name);
        }
        assert_eq!(said_of("spread"), "how many ticks apart its nodes may wake");
        assert_eq!(said_of("why"), "why a component takes its edge at a tick");
    }
}
