//! `vanillatarn man`: the manual page. Its words are those of `--help`, and no others but the
//! headings; here they are only laid out.

use crate::help::GENERAL;
use crate::options::{Question, COMMANDS};
use crate::output::{deliver, Ended};

const SAYS: &str = "tables, schedules, programs and runs of timed networks of radio nodes";

pub fn answer(asked: &Question) -> Ended {
    deliver(manual().as_bytes(), asked.text("-o"))
}

/// The page: what all commands share, then a section a command.
fn manual() -> String {
    let version = include_str!("../../../../VERSION").trim();
    let mut page = format!(
        ".TH VANILLATARN 1 \"\" \"vanillatarn {version}\" \"Vanillatarn\"\n.SH NAME\nvanillatarn \\- {SAYS}\n.SH COMMANDS\n"
    );
    page.push_str(&as_it_is(GENERAL));
    for command in &COMMANDS {
        page.push_str(&format!(".SH {}\n", command.name.to_uppercase()));
        page.push_str(&as_it_is(command.page));
    }
    page
}

/// A text line by line as it stands.
fn as_it_is(text: &str) -> String {
    let lines: String = text.lines().map(line).collect();
    format!(".nf\n{lines}.fi\n")
}

/// A line in which nothing is a request or an escape: `\&` in front, and no bare backslash,
/// hyphen, quote or accent.
fn line(text: &str) -> String {
    let mut escaped = String::from("\\&");
    for letter in text.chars() {
        match letter {
            '\\' => escaped.push_str("\\e"),
            '-' => escaped.push_str("\\-"),
            '\'' => escaped.push_str("\\(aq"),
            '`' => escaped.push_str("\\(ga"),
            '^' => escaped.push_str("\\(ha"),
            '~' => escaped.push_str("\\(ti"),
            other => escaped.push(other),
        }
    }
    escaped.push('\n');
    escaped
}

#[cfg(test)]
mod tests {
    use super::manual;
    use crate::help::GENERAL;
    use crate::options::COMMANDS;

    /// The words of a line of the page, as they are shown.
    fn shown(line: &str) -> String {
        let marks = [
            ("\\&", ""),
            ("\\-", "-"),
            ("\\(aq", "'"),
            ("\\(ga", "`"),
            ("\\(ha", "^"),
            ("\\(ti", "~"),
            ("\\e", "\\"),
        ];
        let start = line.to_string();
        marks
            .iter()
            .fold(start, |text, (mark, sign)| text.replace(mark, sign))
    }

    #[test]
    fn the_page_has_every_help_text_whole() {
        let lines: Vec<String> = manual()
            .lines()
            .filter(|line| line.starts_with("\\&"))
            .map(shown)
            .collect();
        let pages = COMMANDS.iter().map(|command| command.page);
        let told: Vec<String> = [GENERAL]
            .into_iter()
            .chain(pages)
            .flat_map(|page| page.lines().map(str::to_string))
            .collect();
        assert_eq!(lines, told);
    }

    #[test]
    fn requests_are_the_pages_own() {
        let mut requests: Vec<String> = Vec::new();
        for line in manual().lines().filter(|line| line.starts_with('.')) {
            let name = line.split(' ').next().unwrap_or_default();
            if !requests.iter().any(|known| known == name) {
                requests.push(name.to_string());
            }
        }
        assert_eq!(requests, [".TH", ".SH", ".nf", ".fi"]);
    }
}
