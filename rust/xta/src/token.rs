//! The words of a text: names, numbers and signs, with blanks and comments between
//! them.

use crate::Wrong;

/// A word of a text.
#[derive(Clone, Debug, PartialEq, Eq)]
pub(crate) enum Word {
    /// A name, or a word of the tool.
    Name(String),
    /// A number: `NAT`.
    Number(i32),
    /// A sign.
    Sign(&'static str),
}

/// A word and where it stands.
#[derive(Clone, Debug, PartialEq, Eq)]
pub(crate) struct Token {
    pub(crate) at: usize,
    pub(crate) word: Word,
}

/// The signs, longer ones before those that they begin with.
const SIGNS: [&str; 28] = [
    "->", ":=", "<=", ">=", "==", "!=", "&&", "||", "(", ")", "{", "}", "[", "]", ",", ";", "<",
    ">", "=", "+", "-", "*", "/", "%", "!", "?", ":", ".",
];

/// The words that no name may be: those that the tool lists, for future use too, and those of
/// its newer versions.
const RESERVED: [&str; 58] = [
    "chan",
    "clock",
    "bool",
    "int",
    "commit",
    "const",
    "urgent",
    "broadcast",
    "init",
    "process",
    "state",
    "guard",
    "sync",
    "assign",
    "system",
    "trans",
    "deadlock",
    "and",
    "or",
    "not",
    "imply",
    "true",
    "false",
    "for",
    "forall",
    "exists",
    "while",
    "do",
    "if",
    "else",
    "return",
    "typedef",
    "struct",
    "rate",
    "before_update",
    "after_update",
    "meta",
    "priority",
    "progress",
    "scalar",
    "select",
    "void",
    "default",
    "switch",
    "case",
    "continue",
    "break",
    "enum",
    "hybrid",
    "double",
    "string",
    "xor",
    "sum",
    "inf",
    "sup",
    "dynamic",
    "import",
    "branchpoint",
];

/// Whether a word is one of the tool's own.
pub(crate) fn is_reserved(name: &str) -> bool {
    RESERVED.contains(&name)
}

/// All words of a text.
pub(crate) fn tokens(text: &[u8]) -> Result<Vec<Token>, Wrong> {
    let mut tokens = Vec::new();
    let mut at = skip(text, 0)?;
    while at < text.len() {
        let (word, length) = word(&text[at..]).map_err(|what| (at, what))?;
        tokens.push(Token { at, word });
        at = skip(text, at + length)?;
    }
    Ok(tokens)
}

/// The place behind the blanks and comments that stand at a place.
fn skip(text: &[u8], mut at: usize) -> Result<usize, Wrong> {
    loop {
        let rest = &text[at..];
        if matches!(rest.first(), Some(b' ' | b'\t' | b'\n' | b'\r')) {
            at += 1;
        } else if rest.starts_with(b"//") {
            let line = rest.iter().position(|byte| *byte == b'\n');
            at += line.unwrap_or(rest.len());
        } else if rest.starts_with(b"/*") {
            let close = rest[2..].windows(2).position(|two| two == b"*/");
            let inside = close.ok_or((at, "a comment without its end".to_string()))?;
            at += 2 + inside + 2;
        } else {
            return Ok(at);
        }
    }
}

/// The word at the front of a text that is not empty, and its length.
fn word(text: &[u8]) -> Result<(Word, usize), String> {
    let first = text[0];
    if first.is_ascii_alphabetic() || first == b'_' {
        let name = front(text, |byte| byte.is_ascii_alphanumeric() || byte == b'_');
        return Ok((Word::Name(name.to_string()), name.len()));
    }
    if first.is_ascii_digit() {
        return number(front(text, |byte| byte.is_ascii_alphanumeric()));
    }
    let sign = SIGNS.iter().find(|sign| text.starts_with(sign.as_bytes()));
    let sign = sign.ok_or(format!("no word begins with byte {first}"))?;
    Ok((Word::Sign(sign), sign.len()))
}

/// A number of 32 bits.
fn number(digits: &str) -> Result<(Word, usize), String> {
    let number = digits.parse().map_err(|_| format!("no number: {digits}"))?;
    Ok((Word::Number(number), digits.len()))
}

/// The front of a text that has such bytes alone, all of them ASCII.
fn front(text: &[u8], belongs: impl Fn(u8) -> bool) -> &str {
    let end = text.iter().position(|byte| !belongs(*byte));
    let front = &text[..end.unwrap_or(text.len())];
    std::str::from_utf8(front).expect("letters, digits and underscores are ASCII")
}
