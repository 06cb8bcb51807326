//! What an option takes, and how that is read.

use std::ffi::{OsStr, OsString};

/// What an option takes.
#[derive(Clone, Copy, Debug, PartialEq, Eq)]
pub enum Kind {
    Flag,
    Help,
    /// A word that the command reads, and what it is called.
    Text(&'static str),
    /// A number. One that does not fit 32 bits is as far out of its range as the greatest.
    Decimal,
    /// A number of 32 bits: a seed that is cut is another seed.
    Whole,
    /// A tick of up to six digits.
    Tick,
    /// Up to eight numbers with commas between them.
    Offsets,
    /// `LO..HI`, or a number for both.
    Work,
}

/// What was given.
#[derive(Clone, Debug, PartialEq, Eq)]
pub enum Value {
    Flag,
    Text(OsString),
    Number(u32),
    Numbers(Vec<u32>),
    Range(u32, u32),
}

impl Kind {
    /// Whether a word belongs to the option.
    pub fn takes_word(self) -> bool {
        !matches!(self, Kind::Flag | Kind::Help)
    }

    /// What is lacking where there is no word.
    pub fn lacks(self) -> &'static str {
        match self {
            Kind::Text(what) => what,
            Kind::Tick => "word",
            Kind::Offsets => "numbers",
            _ => "number",
        }
    }

    /// The value of a word, or what is wrong with it.
    pub fn value(self, option: &str, word: &OsStr) -> Result<Value, String> {
        Ok(match self {
            Kind::Flag | Kind::Help => Value::Flag,
            Kind::Text(_) => Value::Text(word.to_owned()),
            Kind::Decimal => Value::Number(decimal(option, word)?),
            Kind::Whole => Value::Number(whole(option, word)?),
            Kind::Tick => Value::Number(tick(word)?),
            Kind::Offsets => Value::Numbers(offsets(option, word)?),
            Kind::Work => {
                let (lo, hi) = work(option, word)?;
                Value::Range(lo, hi)
            }
        })
    }
}

/// Digits alone.
fn digits(word: &OsStr) -> Option<&str> {
    let digits = word.to_str()?;
    let all = !digits.is_empty() && digits.bytes().all(|byte| byte.is_ascii_digit());
    all.then_some(digits)
}

fn text(word: &OsStr) -> String {
    word.to_string_lossy().into_owned()
}

fn no_number(what: &str, word: &OsStr) -> String {
    format!("{what} '{}' is not a number", text(word))
}

/// A decimal number; the greatest of 32 bits for one that does not fit.
pub fn decimal(what: &str, word: &OsStr) -> Result<u32, String> {
    let digits = digits(word).ok_or_else(|| no_number(what, word))?;
    Ok(digits.parse().unwrap_or(u32::MAX))
}

/// A number of 32 bits.
pub fn whole(what: &str, word: &OsStr) -> Result<u32, String> {
    let digits = digits(word).ok_or_else(|| no_number(what, word))?;
    let above = |_| format!("{what} '{digits}' is above 4294967295");
    digits.parse().map_err(above)
}

fn tick(word: &OsStr) -> Result<u32, String> {
    let small = digits(word).filter(|digits| digits.len() <= 6);
    let tick = small.and_then(|digits| digits.parse().ok());
    tick.ok_or_else(|| format!("'{}' is not a tick", text(word)))
}

fn offsets(option: &str, word: &OsStr) -> Result<Vec<u32>, String> {
    let text = text(word);
    let fault = || format!("{option} '{text}' are not numbers with commas between them");
    let number = |word: &str| decimal(option, OsStr::new(word)).map_err(|_| fault());
    let numbers: Vec<u32> = text.split(',').map(number).collect::<Result<_, _>>()?;
    match numbers.len() {
        0..=8 => Ok(numbers),
        _ => Err(format!("{option}: there are at most eight nodes")),
    }
}

fn work(option: &str, word: &OsStr) -> Result<(u32, u32), String> {
    let text = text(word);
    let (lo, hi) = text.split_once("..").unwrap_or((&text, &text));
    if digits(OsStr::new(lo)).is_none() || digits(OsStr::new(hi)).is_none() {
        return Err(format!("{option} '{text}' is neither LO..HI nor a number"));
    }
    Ok((
        whole(option, OsStr::new(lo))?,
        whole(option, OsStr::new(hi))?,
    ))
}

#[cfg(test)]
mod tests {
    use super::*;

    fn of(kind: Kind, word: &str) -> Result<Value, String> {
        kind.value("--x", OsStr::new(word))
    }

    #[test]
    fn numbers_are_digits() {
        for (word, number) in [("0", 0), ("007", 7), ("4294967295", u32::MAX)] {
            assert_eq!(of(Kind::Decimal, word), Ok(Value::Number(number)));
            assert_eq!(of(Kind::Whole, word), Ok(Value::Number(number)));
        }
        assert_eq!(of(Kind::Decimal, "4294967296"), Ok(Value::Number(u32::MAX)));
        let above = "--x '4294967296' is above 4294967295".to_string();
        assert_eq!(of(Kind::Whole, "4294967296"), Err(above));
        for word in ["", "+1", "-1", "1 ", "1x", "1\n2"] {
            let fault = Err(format!("--x '{word}' is not a number"));
            assert_eq!(of(Kind::Decimal, word), fault);
            assert_eq!(of(Kind::Whole, word), fault);
        }
    }

    #[test]
    fn ticks_offsets_and_work_times() {
        assert_eq!(of(Kind::Tick, "007"), Ok(Value::Number(7)));
        assert!(of(Kind::Tick, "1000000").is_err());
        assert_eq!(
            of(Kind::Offsets, "1,02,0"),
            Ok(Value::Numbers(vec![1, 2, 0]))
        );
        for word in ["", "1,", ",1", "1,,2", "1,-2", "-"] {
            assert!(of(Kind::Offsets, word).is_err(), "{word}");
        }
        assert!(of(Kind::Offsets, "0,0,0,0,0,0,0,0,0").is_err());
        assert_eq!(of(Kind::Work, "0..2"), Ok(Value::Range(0, 2)));
        assert_eq!(of(Kind::Work, "3"), Ok(Value::Range(3, 3)));
        for word in ["0-2", "0..2..3", "..2", "2..", ""] {
            assert!(of(Kind::Work, word).is_err(), "{word}");
        }
    }
}
