//! The verdict of the library: an object, or the status alone.

use super::{json, Asked, Form};
use crate::input::{self, Input};
use crate::output::{write, Stop, REFUSED};
use std::ffi::OsStr;
use timed_network::{check_spread, Verdict};

impl Asked {
    /// Tells the verdict of the library, or nothing but the status.
    pub(super) fn numbers(
        &self,
        file: &OsStr,
        input: &Input,
    ) -> Result<Result<u8, input::Problem>, Stop> {
        let status = match check_spread(input.table(), self.spread) {
            Verdict::Accepted => 0,
            Verdict::Refused { number, .. } => {
                if let Some(problem) = input::another_kind(input.table(), number) {
                    return Ok(Err(problem));
                }
                REFUSED
            }
        };
        if self.form == Form::Json {
            write(&json::verdict(file, input, self.spread))?;
        }
        Ok(Ok(status))
    }
}
