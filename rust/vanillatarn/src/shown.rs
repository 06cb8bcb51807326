//! Names and words of files in what is told: control characters are shown, never sent to a
//! terminal; and a name in a command that can be pasted.

use std::ffi::OsStr;
use std::fmt::Write;
use std::os::unix::ffi::OsStrExt;

/// The text with each byte of a control character, and each that is no character's, as `\x1b`.
pub fn shown(bytes: &[u8]) -> String {
    let mut text = String::new();
    for chunk in bytes.utf8_chunks() {
        for character in chunk.valid().chars() {
            if character.is_control() {
                let mut room = [0; 4];
                escape(&mut text, character.encode_utf8(&mut room).as_bytes());
            } else {
                text.push(character);
            }
        }
        escape(&mut text, chunk.invalid());
    }
    text
}

fn escape(text: &mut String, bytes: &[u8]) {
    for byte in bytes {
        // A string takes every byte.
        let _ = write!(text, "\\x{byte:02x}");
    }
}

/// A file's name in a message.
pub fn name(file: &OsStr) -> String {
    match file.as_bytes() {
        b"-" => "standard input".to_string(),
        name => shown(name),
    }
}

/// A file in a command that is proposed, with `--` before it where its name begins with a dash.
pub fn pasted(file: &OsStr) -> String {
    let dash = match file.as_bytes() {
        [b'-', _, ..] => "-- ",
        _ => "",
    };
    format!("{dash}{}", quoted(file.as_bytes()))
}

/// A word for a shell.
fn quoted(word: &[u8]) -> String {
    let plain = |byte: &u8| byte.is_ascii_alphanumeric() || b"_./,:=@%+-".contains(byte);
    let text = shown(word);
    if !word.is_empty() && word.iter().all(plain) {
        text
    } else if text.as_bytes() == word {
        format!("'{}'", text.replace('\'', r"'\''"))
    } else {
        format!("$'{}'", dollar_quoted(word))
    }
}

/// What stands between the quotes of `$'..'`.
fn dollar_quoted(word: &[u8]) -> String {
    let mut text = String::new();
    for byte in word {
        match byte {
            b'\'' | b'\\' => text.extend(['\\', char::from(*byte)]),
            b' '..=b'~' => text.push(char::from(*byte)),
            _ => escape(&mut text, &[*byte]),
        }
    }
    text
}

#[cfg(test)]
mod tests {
    use super::*;

    #[test]
    fn control_characters_are_shown() {
        assert_eq!(shown(b"a\x1b[31mb\n\x7f"), r"a\x1b[31mb\x0a\x7f");
        assert_eq!(shown("caf\u{e9} \u{9b}".as_bytes()), r"café \xc2\x9b");
        assert_eq!(shown(b"caf\xe9!"), r"caf\xe9!");
        assert_eq!(name(OsStr::new("-")), "standard input");
    }

    #[test]
    fn words_for_a_shell() {
        let word = |bytes: &[u8]| pasted(OsStr::from_bytes(bytes));
        assert_eq!(word(b"a/b_1.txt"), "a/b_1.txt");
        assert_eq!(word(b"a bad file.txt"), "'a bad file.txt'");
        assert_eq!(word(b"it's"), r"'it'\''s'");
        assert_eq!(word(b""), "''");
        assert_eq!(word(b"-"), "-");
        assert_eq!(word(b"--late"), "-- --late");
        assert_eq!(word(b"a\x1b'"), r"$'a\x1b\''");
        assert_eq!(word("caf\u{e9}".as_bytes()), "'café'");
    }
}
