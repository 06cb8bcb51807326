//! Pairs of component and tick from a text, a pair a line.

use crate::input::{self, Problem};
use crate::output::{REFUSED, WRONG};
use std::ffi::OsStr;

/// The most bytes of a text of pairs.
const MOST: usize = 100_000_000;

/// In which columns of a line component and tick stand, counted from 1.
#[derive(Clone, Copy, Debug, PartialEq, Eq)]
pub struct Columns {
    pub component: usize,
    pub tick: usize,
}

/// The pairs of a text, each with its line, counted from 1.
#[derive(Debug, PartialEq, Eq)]
pub struct Pairs {
    pub pairs: Vec<(u32, u32)>,
    lines: Vec<usize>,
}

/// What is wrong with a pair.
#[derive(Debug, PartialEq, Eq)]
pub struct Fault {
    /// The number of the refusal.
    pub number: u8,
    pub line: usize,
    pub words: String,
}

/// The pairs of a file, `-` for standard input.
pub fn read(file: &OsStr, columns: Columns) -> Result<Pairs, Problem> {
    let bytes = input::read(file, MOST as u64)?;
    if bytes.len() > MOST {
        let words = format!("longer than {MOST} bytes, the most that pairs have");
        let status = WRONG;
        return Err(Problem {
            words,
            status,
            line: None,
        });
    }
    pairs_of(&String::from_utf8_lossy(&bytes), columns).map_err(|words| Problem {
        words,
        status: REFUSED,
        line: None,
    })
}

/// A pair a line. What stands behind `#` is a comment; a line without a word counts for
/// nothing.
fn pairs_of(text: &str, columns: Columns) -> Result<Pairs, String> {
    let mut all = Pairs {
        pairs: Vec::new(),
        lines: Vec::new(),
    };
    for (place, line) in text.lines().enumerate() {
        let stated = line.split('#').next().unwrap_or_default();
        let blank = |character: char| character.is_whitespace() || character == ',';
        let words: Vec<&str> = stated
            .split(blank)
            .filter(|word| !word.is_empty())
            .collect();
        if words.is_empty() {
            continue;
        }
        let number = |column: usize| {
            let word = words.get(column - 1).copied();
            number(word, column).map_err(|fault| format!("line {}: {fault}", place + 1))
        };
        all.pairs
            .push((number(columns.component)?, number(columns.tick)?));
        all.lines.push(place + 1);
    }
    Ok(all)
}

/// The number in a column. One that does not fit 32 bits is the greatest that does,
/// which no table has.
fn number(word: Option<&str>, column: usize) -> Result<u32, String> {
    let word = word.ok_or(format!("there is no column {column}"))?;
    if word.bytes().all(|byte| byte.is_ascii_digit()) {
        Ok(word.parse().unwrap_or(u32::MAX))
    } else {
        Err(format!("'{word}' in column {column} is not a number"))
    }
}

impl Pairs {
    /// The first bad pair for an accepted table, as the library judges them.
    pub fn first_bad(&self, table: &[u8]) -> Option<Fault> {
        let [_, _, _, components, _, high, low] = *table.first_chunk()?;
        let horizon = u32::from(u16::from_be_bytes([high, low]));
        let mut before = 0;
        for ((component, tick), line) in self.pairs.iter().zip(&self.lines) {
            let fault = |number, words| Fault {
                number,
                line: *line,
                words,
            };
            if *component >= components.into() {
                let words = format!(
                    "there is no component {component}, the last one is {}",
                    components - 1
                );
                return Some(fault(21, words));
            }
            if *tick >= horizon {
                let words = format!("tick {tick} is not below the horizon, {horizon}");
                return Some(fault(21, words));
            }
            if *tick < before {
                return Some(fault(24, format!("tick {tick} comes after tick {before}")));
            }
            before = *tick;
        }
        None
    }
}

#[cfg(test)]
mod tests {
    use super::*;

    const FIRST: Columns = Columns {
        component: 1,
        tick: 2,
    };

    fn pairs(text: &str) -> Pairs {
        pairs_of(text, FIRST).unwrap()
    }

    #[test]
    fn pairs_comments_and_blank_lines() {
        let text = "# a log\n\n0 5\n  1\t6  # the hub\n007,008\n   \n";
        let expected = Pairs {
            pairs: vec![(0, 5), (1, 6), (7, 8)],
            lines: vec![3, 4, 5],
        };
        assert_eq!(pairs(text), expected);
        assert_eq!(pairs(""), pairs("# nothing\n"));
        assert_eq!(pairs("0 99999999999").pairs, [(0, u32::MAX)]);
    }

    #[test]
    fn columns_of_a_log() {
        let columns = Columns {
            component: 3,
            tick: 1,
        };
        let log = "17 tank 2 full\n18 tank 0 empty\n";
        let read = pairs_of(log, columns).unwrap();
        assert_eq!(read.pairs, [(2, 17), (0, 18)]);
        for (log, fault) in [
            ("17 tank\n", "line 1: there is no column 3"),
            (
                "17 tank 2\n\nx tank 1\n",
                "line 3: 'x' in column 1 is not a number",
            ),
            ("17 tank -2\n", "line 1: '-2' in column 3 is not a number"),
        ] {
            assert_eq!(pairs_of(log, columns), Err(fault.to_string()));
        }
    }

    /// Two components, horizon 20.
    const TABLE: [u8; 7] = [1, 0, 103, 2, 1, 0, 20];

    #[test]
    fn the_line_of_the_first_bad_pair() {
        let fault = |text: &str| pairs(text).first_bad(&TABLE);
        assert_eq!(fault("0 0\n1 19\n"), None);
        for (text, number, line, words) in [
            (
                "0 1\n\n2 0\n",
                21,
                3,
                "there is no component 2, the last one is 1",
            ),
            ("0 20\n0 1\n", 21, 1, "tick 20 is not below the horizon, 20"),
            (
                "0 5\n# more\n0 5\n1 2\n9 9\n",
                24,
                4,
                "tick 2 comes after tick 5",
            ),
            (
                "0 5\n9 2\n",
                21,
                2,
                "there is no component 9, the last one is 1",
            ),
        ] {
            let words = words.to_string();
            let expected = Fault {
                number,
                line,
                words,
            };
            assert_eq!(fault(text), Some(expected));
        }
    }
}
