//! The table that the second implementation was asked about last: many questions about
//! it stand one behind the other.

use reference::checks;
use reference::schedule::Passage;
use reference::table::{Refusal, Table};
use std::cell::RefCell;

/// A table that was read, and its schedule.
type Scheduled = (Table, Vec<Passage>);

/// The bytes of a table, and what was read of them.
type Read = (Vec<u8>, Result<Scheduled, Refusal>);

thread_local! {
    static LAST: RefCell<Option<Read>> = const { RefCell::new(None) };
}

/// Asks about a table, if it is accepted. One that is asked about again is not scheduled
/// again.
pub(super) fn ask<T>(
    table: &[u8],
    question: impl FnOnce(&Table, &[Passage]) -> Result<T, Refusal>,
) -> Result<T, Refusal> {
    LAST.with_borrow_mut(|last| {
        let (_, read) = match last.take() {
            Some(known) if known.0 == table => last.insert(known),
            _ => last.insert((table.to_vec(), checks::verdict(table))),
        };
        match read {
            Ok((table, passages)) => question(table, passages),
            Err(refusal) => Err(*refusal),
        }
    })
}
