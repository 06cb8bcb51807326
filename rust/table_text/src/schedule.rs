//! The text that the schedule printer prints for an accepted table: a line of
//! column heads, then one line a passage.

/// The first line.
pub const HEADS: &str = "c e l entry ready end msg";
/// The seventh number of a passage without a message, printed as `-`.
pub const NO_MESSAGE: u32 = 255;

/// A passage: component, edge, location, entry, ready, end, message.
pub type Passage = [u32; 7];

/// The line of a passage.
pub fn line(passage: &Passage) -> String {
    let [before @ .., message] = passage;
    let mut words: Vec<String> = before.iter().map(u32::to_string).collect();
    words.push(match *message {
        NO_MESSAGE => "-".to_string(),
        channel => channel.to_string(),
    });
    words.join(" ")
}

/// The whole text, each line with its line feed.
pub fn print(passages: &[Passage]) -> String {
    let lines = passages.iter().map(line);
    let all = std::iter::once(HEADS.to_string()).chain(lines);
    all.map(|line| line + "\n").collect()
}

/// The passages of the printer's lines, or what is wrong with one of them.
pub fn read<'a>(lines: impl IntoIterator<Item = &'a str>) -> Result<Vec<Passage>, String> {
    let mut lines = lines.into_iter();
    if lines.next() != Some(HEADS) {
        return Err(format!("line 1: write: {HEADS}"));
    }
    let passage = |(number, text): (usize, &str)| {
        let wrong = || format!("line {number}: write seven numbers, - for no message");
        read_line(text).ok_or_else(wrong)
    };
    (2..).zip(lines).map(passage).collect()
}

/// A line, if it is just as the printer prints it.
fn read_line(text: &str) -> Option<Passage> {
    let mut passage = [NO_MESSAGE; 7];
    let words: Vec<&str> = text.split(' ').collect();
    if words.len() != passage.len() {
        return None;
    }
    for (place, word) in words.into_iter().enumerate() {
        if place < 6 || word != "-" {
            passage[place] = word.parse().ok()?;
        }
    }
    (line(&passage) == text).then_some(passage)
}

#[cfg(test)]
mod tests {
    use super::*;

    const TEXT: &str = "c e l entry ready end msg\n0 0 0 0 3 5 0\n1 2 1 6 9 10 -\n";
    const PASSAGES: [Passage; 2] = [[0, 0, 0, 0, 3, 5, 0], [1, 2, 1, 6, 9, 10, NO_MESSAGE]];

    #[test]
    fn both_ways() {
        assert_eq!(print(&PASSAGES), TEXT);
        assert_eq!(read(TEXT.lines()), Ok(PASSAGES.to_vec()));
        assert_eq!(read([HEADS]), Ok(vec![]));
    }

    #[test]
    fn other_lines_are_told() {
        let heads = Err("line 1: write: c e l entry ready end msg".to_string());
        assert_eq!(read([]), heads);
        assert_eq!(read(["0 0 0 0 3 5 0"]), heads);
        for bad in ["0 0 0 0 3 5", "0 0 0 0 3 5 0 0", "", "0 0 0 0 3 5 255"] {
            let form = "line 2: write seven numbers, - for no message";
            assert_eq!(read([HEADS, bad]), Err(form.to_string()), "{bad}");
        }
        for bad in [
            "0 0 0 0 3 - 0",
            "0 0 0 0 03 5 0",
            "0 0 0  0 3 5 0",
            "+0 0 0 0 3 5 0",
        ] {
            assert!(read([HEADS, bad]).is_err(), "{bad}");
        }
    }
}
