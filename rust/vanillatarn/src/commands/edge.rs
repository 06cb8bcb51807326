//! `vanillatarn edge`: the edge that a component takes as it enters a location, and how many
//! edges were looked at, from the library.

use super::each::{each_table, Told};
use crate::json::{line, or_null, string};
use crate::options::{Form, Question};
use crate::output::{Ended, Stop, REFUSED};
use crate::refusals::field;
use reference::table::read_table;
use std::ffi::OsStr;
use std::fmt::Display;
use std::str::FromStr;
use timed_network::{edge_choice, EdgeChoice, Entry, Refused, TakenEdge, Verdict};

pub fn answer(asked: &Question) -> Ended {
    let entry = entry(asked)?;
    each_table(asked, &asked.files, |file, input| {
        let table = input.table();
        let answer = edge_choice(table, &entry);
        let object = || object_of(file, &entry, &answer);
        Ok(match &answer {
            Ok(choice) => {
                let status = if choice.taken.is_some() { 0 } else { REFUSED };
                let words = || told(&entry, locations(table, entry.component), choice).into_bytes();
                match asked.form() {
                    Form::Json => Told::Answer(object(), status),
                    Form::Words => Told::Answer(words(), status),
                }
            }
            Err(refused) => {
                let number = refused.refusal.number();
                let words = format!("{}\n", Verdict::from(*refused));
                Told::refused(asked.form(), table, number, words.as_bytes(), object)
            }
        })
    })
}

/// The object of an answer: where no edge is taken its number and ticks are null.
fn object_of(file: &OsStr, entry: &Entry, answer: &Result<EdgeChoice, Refused>) -> Vec<u8> {
    let choice = answer.as_ref().ok();
    let taken = choice.and_then(|choice| choice.taken);
    line(&[
        ("file", string(&file.to_string_lossy())),
        ("component", entry.component.to_string()),
        ("location", entry.location.to_string()),
        ("edge", or_null(taken.map(|taken| taken.edge))),
        ("ready", or_null(taken.map(|taken| taken.ready))),
        ("end", or_null(taken.map(|taken| taken.end))),
        ("looked", or_null(choice.map(|choice| choice.looked))),
        ("refused", or_null(answer.as_ref().err().map(field))),
    ])
}

/// How many locations a component of a table has that passes 1 to 6.
fn locations(table: &[u8], component: u8) -> Option<usize> {
    let table = read_table(table).ok()?;
    let own = table.components.get(usize::from(component))?;
    Some(own.locations.len())
}

/// The entry that the options name.
fn entry(asked: &Question) -> Result<Entry, Stop> {
    let one = |option| {
        let word = asked.needed(option, asked.text(option))?;
        let many = word == "-" || word.to_string_lossy().contains(',');
        let fault = || format!("{option}: '{}' is not one number", word.to_string_lossy());
        match many {
            true => Err(asked.misused(&fault())),
            false => Ok(word),
        }
    };
    let misused = |fault: String| asked.misused(&fault);
    let byte = |option| {
        let number: [u8; 4] = numbers(option, one(option)?, (0, 255)).map_err(misused)?;
        Ok::<u8, Stop>(number[0])
    };
    let none = OsStr::new("-");
    let list = |option| asked.text(option).unwrap_or(none);
    let (clocks, values) = ((0, u32::MAX), (i16::MIN, i16::MAX));
    Ok(Entry {
        component: byte("--component")?,
        location: byte("--location")?,
        clocks: numbers("--clocks", list("--clocks"), clocks).map_err(misused)?,
        values: numbers("--variables", list("--variables"), values).map_err(misused)?,
    })
}

/// Up to four numbers with commas between them, or `-` for none; those left out are 0.
fn numbers<T>(option: &str, word: &OsStr, range: (T, T)) -> Result<[T; 4], String>
where
    T: FromStr + Copy + Default + Display,
{
    let text = word.to_string_lossy();
    let mut numbers = [T::default(); 4];
    if text == "-" {
        return Ok(numbers);
    }
    if text.ends_with(',') {
        return Err(format!(
            "{option}: a number is missing behind the last comma"
        ));
    }
    let words: Vec<&str> = text.split(',').collect();
    if words.len() > numbers.len() {
        return Err(format!("{option}: there are at most four"));
    }
    for (number, word) in numbers.iter_mut().zip(words) {
        let (least, most) = &range;
        let fault = || format!("{option}: '{word}' is not a number from {least} to {most}");
        *number = plain(word).ok_or_else(fault)?;
    }
    Ok(numbers)
}

/// A number without zeros or a sign in front of it that say nothing.
fn plain<T: FromStr>(word: &str) -> Option<T> {
    let digits = word.strip_prefix('-').unwrap_or(word);
    let zero = digits.starts_with('0') && word != "0";
    let all = !digits.is_empty() && digits.bytes().all(|byte| byte.is_ascii_digit());
    word.parse().ok().filter(|_| all && !zero)
}

/// The answer in words.
fn told(entry: &Entry, locations: Option<usize>, choice: &EdgeChoice) -> String {
    let (component, location) = (entry.component, entry.location);
    let taken = match (choice.taken, locations) {
        (Some(TakenEdge { edge, ready, end }), _) => {
            format!("edge {edge}, from {ready} to {end} ticks after the entry")
        }
        (None, None) => format!("there is no component {component}"),
        (None, Some(count)) if usize::from(location) >= count => {
            let last = count - 1;
            format!("component {component} has no location {location}, its last one is {last}")
        }
        (None, Some(_)) => "no edge is a candidate".to_string(),
    };
    let edges = if choice.looked == 1 { "edge" } else { "edges" };
    format!("{taken}\nlooked at {} {edges}\n", choice.looked)
}

#[cfg(test)]
mod tests {
    use super::*;

    #[test]
    fn numbers_are_plain() {
        let clocks = |word: &str| numbers::<u32>("--clocks", OsStr::new(word), (0, u32::MAX));
        assert_eq!(clocks("-"), Ok([0; 4]));
        assert_eq!(clocks("4294967295,2"), Ok([4_294_967_295, 2, 0, 0]));
        for word in [
            "",
            "1,",
            "1,,2",
            "01",
            "+1",
            "-1",
            "1,2,3,4,5",
            "4294967296",
            "x",
        ] {
            assert!(clocks(word).is_err(), "{word}");
        }
        let values = |word: &str| numbers::<i16>("--v", OsStr::new(word), (i16::MIN, i16::MAX));
        assert_eq!(values("-32768,32767"), Ok([-32_768, 32_767, 0, 0]));
        let fault = "--v: '32768' is not a number from -32768 to 32767";
        assert_eq!(values("32768"), Err(fault.to_string()));
        for word in ["-0", "-01", "--1"] {
            assert!(values(word).is_err(), "{word}");
        }
    }

    #[test]
    fn answers_are_told() {
        let entry = Entry {
            location: 2,
            ..Entry::default()
        };
        let (edge, ready, end) = (3, 0, 5);
        let taken = Some(TakenEdge { edge, ready, end });
        let told =
            |taken, locations, looked| told(&entry, locations, &EdgeChoice { taken, looked });
        let words = "edge 3, from 0 to 5 ticks after the entry\nlooked at 4 edges\n";
        assert_eq!(told(taken, Some(3), 4), words);
        let words = "no edge is a candidate\nlooked at 1 edge\n";
        assert_eq!(told(None, Some(3), 1), words);
        let words = "component 0 has no location 2, its last one is 1\nlooked at 1 edge\n";
        assert_eq!(told(None, Some(2), 1), words);
        let words = "there is no component 0\nlooked at 0 edges\n";
        assert_eq!(told(None, None, 0), words);
    }
}
