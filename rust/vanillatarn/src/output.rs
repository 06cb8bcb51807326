//! How is written, how is ended, and the statuses: 0 fine, 1 the answer is no, 2 wrong use or
//! a file that cannot be read or written, 3 something failed, or standard output or standard
//! error cannot be written.

use crate::shown::shown;
use std::ffi::OsStr;
use std::fs::{File, OpenOptions};
use std::io::{self, ErrorKind, Write};
use std::os::fd::{AsFd, BorrowedFd};
use std::os::unix::ffi::OsStrExt;

pub const REFUSED: u8 = 1;
pub const WRONG: u8 = 2;
pub const BROKEN: u8 = 3;

/// Why the command ends before its answer: the status, and what is said on standard error.
#[derive(Debug, PartialEq, Eq)]
pub struct Stop {
    pub status: u8,
    message: Option<Vec<u8>>,
}

/// How a command ends: with a status, or before its answer.
pub type Ended = Result<u8, Stop>;

impl Stop {
    fn new(status: u8, message: impl AsRef<[u8]>) -> Stop {
        let message = Some(message.as_ref().to_vec());
        Stop { status, message }
    }

    /// The answer is no.
    pub fn refused(message: impl AsRef<[u8]>) -> Stop {
        Stop::new(REFUSED, message)
    }

    /// Wrong use, or a file at fault.
    pub fn wrong(message: impl AsRef<[u8]>) -> Stop {
        Stop::new(WRONG, message)
    }

    /// Something failed.
    pub fn broken(message: impl AsRef<[u8]>) -> Stop {
        Stop::new(BROKEN, message)
    }

    /// Nothing is said.
    pub fn silent(status: u8) -> Stop {
        let message = None;
        Stop { status, message }
    }

    /// What is said of a file.
    pub fn of_file(file: &OsStr, status: u8, words: &str) -> Stop {
        Stop::new(status, [file.as_bytes(), b": ", words.as_bytes()].concat())
    }

    /// Says it, and gives the status.
    pub fn told(self) -> u8 {
        match self.message {
            Some(message) => say(&message, self.status),
            None => self.status,
        }
    }
}

/// Writes to standard output. A reader that has gone is told nothing.
pub fn write(bytes: &[u8]) -> Ended {
    match to(io::stdout().as_fd(), bytes) {
        Ok(()) => Ok(0),
        Err(error) if error.kind() == ErrorKind::BrokenPipe => Err(Stop::silent(BROKEN)),
        Err(_) => Err(Stop::broken("standard output cannot be written")),
    }
}

/// Writes to standard error, as it is.
pub fn tell(bytes: &[u8]) -> Ended {
    let told = to(io::stderr().as_fd(), bytes);
    told.map(|()| 0).map_err(|_| Stop::silent(BROKEN))
}

/// Says something on standard error and gives the status; a message that cannot be written
/// is a failure.
pub fn say(message: &[u8], status: u8) -> u8 {
    let line = format!("vanillatarn: {}\n", shown(message));
    match to(io::stderr().as_fd(), line.as_bytes()) {
        Ok(()) => status,
        Err(_) => BROKEN,
    }
}

/// Hands bytes on: to the file of an option, else to standard output.
pub fn deliver(bytes: &[u8], file: Option<&OsStr>) -> Ended {
    let Some(file) = file.filter(|file| *file != "-") else {
        return write(bytes);
    };
    let open = |options: &mut OpenOptions| options.create(true).open(file);
    let cannot = |_| Stop::of_file(file, WRONG, "cannot be written");
    let unfinished = |_| Stop::of_file(file, BROKEN, "could not be written to its end");
    open(OpenOptions::new().append(true)).map_err(cannot)?;
    let mut opened = open(OpenOptions::new().write(true).truncate(true)).map_err(unfinished)?;
    opened.write_all(bytes).map_err(unfinished)?;
    Ok(0)
}

/// Writes to an open file. The streams of the standard library do not tell of one that is open
/// for reading alone.
fn to(output: BorrowedFd<'_>, bytes: &[u8]) -> io::Result<()> {
    File::from(output.try_clone_to_owned()?).write_all(bytes)
}
