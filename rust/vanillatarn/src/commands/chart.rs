//! `vanillatarn chart`: the chart of the proved words, or with `--svg` a drawing.

#[cfg(feature = "library")]
mod drawing;

use super::{hand_on, Handed};
use crate::json::string;
use crate::options::Question;
use crate::output::Ended;
use crate::words::{self, Text};

pub fn answer(asked: &Question) -> Ended {
    if asked.has("--svg") {
        if let [_, more, ..] = asked.files.as_slice() {
            let more = more.to_string_lossy();
            return Err(asked.misused(&format!("one word too many: {more}")));
        }
        #[cfg(feature = "library")]
        return drawing::answer(asked);
        #[cfg(not(feature = "library"))]
        return Err(super::without_library());
    }
    for option in ["--from", "--to"] {
        if asked.has(option) {
            return Err(asked.misused(&format!("{option} is for --svg alone")));
        }
    }
    hand_on(
        asked,
        &Handed {
            text: Text::Chart,
            words: words::chart,
            begins: "C0: ",
            fields,
        },
    )
}

/// The rows, without the names of the components in front of them.
fn fields(words: &str) -> Vec<(&'static str, String)> {
    let row = |line: &str| string(line.split_once(": ").map_or("", |(_, cells)| cells));
    let rows: Vec<String> = words.lines().map(row).collect();
    vec![("rows", format!("[{}]", rows.join(",")))]
}

#[cfg(test)]
mod tests {
    use super::fields;

    #[test]
    fn rows_are_read_off_the_words() {
        let rows = r#"["SS.","R  "]"#.to_string();
        assert_eq!(fields("C0: SS.\nC1: R  \n"), [("rows", rows)]);
    }
}
