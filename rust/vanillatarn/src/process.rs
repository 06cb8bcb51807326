//! What the standard library does not offer: outputs that were closed before the command began,
//! children that end with it, and bytes that a child reads as a file. The only unsafe code.

#![allow(unsafe_code)]

use std::ffi::{c_char, c_int, c_uint, c_ulong};
use std::fs::File;
use std::io::{self, Write};
use std::os::fd::{AsRawFd, FromRawFd};
use std::os::unix::process::CommandExt;
use std::process::Command;

extern "C" {
    fn fcntl(file: c_int, command: c_int, ...) -> c_int;
    fn open(path: *const c_char, flags: c_int, ...) -> c_int;
    fn prctl(option: c_int, ...) -> c_int;
    fn getppid() -> c_int;
    fn memfd_create(name: *const c_char, flags: c_uint) -> c_int;
}

const F_GETFD: c_int = 1;
const O_RDONLY: c_int = 0;
const O_WRONLY: c_int = 1;
const PR_SET_PDEATHSIG: c_int = 1;
const SIGKILL: c_ulong = 9;
const MFD_CLOEXEC: c_uint = 1;

/// Runs before the start of the standard library, which puts /dev/null in the place of a closed
/// output: what is written there would be lost, and nobody told. A device that is full is put
/// there instead. A closed input has nothing.
#[used]
#[link_section = ".init_array"]
static OPEN_OUTPUTS: extern "C" fn() = open_outputs;

extern "C" fn open_outputs() {
    for file in 0..=2 {
        let (path, flags) = match file {
            0 => (c"/dev/null", O_RDONLY),
            _ => (c"/dev/full", O_WRONLY),
        };
        // SAFETY: plain calls of the C library with numbers and a string that ends. The lowest
        // number that is free is the one that is given, and those below are open.
        unsafe {
            if fcntl(file, F_GETFD) == -1 {
                open(path.as_ptr(), flags);
            }
        }
    }
}

/// Lets a child end when this process does, whatever ends it.
pub fn ends_with_this(command: &mut Command) -> &mut Command {
    let own = std::process::id();
    let ends = move || {
        // SAFETY: two calls of the system, which may be made between fork and exec.
        let gone = unsafe {
            prctl(PR_SET_PDEATHSIG, SIGKILL);
            u32::try_from(getppid()) != Ok(own)
        };
        // This process ended before the child could ask.
        if gone {
            return Err(io::Error::other("its parent has ended"));
        }
        Ok(())
    };
    // SAFETY: the closure makes calls of the system alone.
    unsafe { command.pre_exec(ends) }
}

/// Bytes in memory that a child can open by a name while this is kept.
pub struct Lent {
    file: File,
}

impl Lent {
    pub fn new(bytes: &[u8]) -> io::Result<Lent> {
        // SAFETY: the name ends, and what is given is a file that nobody else has.
        let mut file = unsafe {
            let number = memfd_create(c"vanillatarn".as_ptr(), MFD_CLOEXEC);
            if number < 0 {
                return Err(io::Error::last_os_error());
            }
            File::from_raw_fd(number)
        };
        file.write_all(bytes)?;
        Ok(Lent { file })
    }

    pub fn path(&self) -> String {
        format!("/proc/{}/fd/{}", std::process::id(), self.file.as_raw_fd())
    }
}

#[cfg(test)]
mod tests {
    use super::*;

    #[test]
    fn lent_bytes_are_read_by_a_child() {
        let lent = Lent::new(b"some bytes").unwrap();
        let mut child = Command::new("cat");
        let read = ends_with_this(child.arg(lent.path())).output().unwrap();
        assert_eq!(read.stdout, b"some bytes");
    }
}
