//! The answers of timed cellar networks in words: what the verified programs print, byte for
//! byte, as calls of a library of its own.
//!
//! Each text is to be had twice: as a `String`, and (`_into`) at the front of bytes that are
//! lent. A table that is refused is no refusal of the call: its text says so, and begins with
//! `refused `. A text is ASCII and ends with a line feed.
//!
//! ```
//! let text = timed_network_words::verdict(&[], 0);
//! assert!(text.starts_with("refused 1 255\nThe answer is no: Is the first byte 1, 2 or 3?\n"));
//! assert_eq!(text, timed_network_words::refusal(1, 255));
//! ```
#![deny(unsafe_code)]
#![warn(missing_docs)]

mod exported;

use exported::WordsNumbers;
use std::error::Error;
use std::fmt;

/// The bytes that hold any verdict.
pub const VERDICT_ENOUGH: usize = 164_930;
/// The bytes that hold any schedule.
pub const SCHEDULE_ENOUGH: usize = 78_874;
/// The bytes that hold any chart.
pub const CHART_ENOUGH: usize = 552;
/// The bytes that hold the words of any largest spread.
pub const SPREAD_ENOUGH: usize = 170;
/// The bytes that hold any reasons.
pub const REASONS_ENOUGH: usize = 6_000;
/// The bytes that hold any run.
pub const RUN_ENOUGH: usize = 225_700;
/// The bytes that hold any simulated runs.
pub const SIMULATION_ENOUGH: usize = 300;
/// The bytes that hold any refusal.
pub const REFUSAL_ENOUGH: usize = 170;

/// Fewer bytes are lent than the text has; none of them was written.
#[derive(Clone, Copy, Debug, PartialEq, Eq)]
pub struct TooFew {
    /// The bytes that the text has.
    pub size: usize,
}

impl fmt::Display for TooFew {
    fn fmt(&self, formatter: &mut fmt::Formatter<'_>) -> fmt::Result {
        write!(formatter, "the text has {} bytes", self.size)
    }
}

impl Error for TooFew {}

/// The answer of a call as a result.
fn result(answer: WordsNumbers) -> Result<usize, TooFew> {
    let size = answer.size;
    match answer.number {
        0 => Ok(size),
        _ => Err(TooFew { size }),
    }
}

/// The text of a call that is lent so many bytes, or, where they are too few, as many as it has.
fn owned(enough: usize, call: impl Fn(&mut [u8]) -> WordsNumbers) -> String {
    let mut text = vec![0; enough];
    let size = result(call(&mut text)).unwrap_or_else(|few| {
        text = vec![0; few.size];
        result(call(&mut text)).expect("a text fits the bytes that it has")
    });
    text.truncate(size);
    text.shrink_to_fit();
    String::from_utf8(text).expect("a text is ASCII")
}

/// A table's verdict where nodes may wake so many ticks apart: accepted, or the refusal with its
/// question, where the check stopped, and which windows met. With spread 0 they wake together.
pub fn verdict(table: &[u8], spread: u32) -> String {
    owned(VERDICT_ENOUGH, |text| {
        exported::verdict(table, spread, text)
    })
}

/// Writes the same text to the front of the bytes lent, and answers how many bytes it has.
/// Those behind it stay.
///
/// # Errors
///
/// [`TooFew`] where fewer are lent than it has; then all stay. So it is for each call here.
///
/// ```
/// use timed_network_words::{verdict_into, TooFew};
///
/// let mut text = [7; 100];
/// let size = verdict_into(&[], 0, &mut text)?;
/// assert!(text[..size].starts_with(b"refused 1 255\n"));
/// assert!(text[size..].iter().all(|byte| *byte == 7));
/// assert_eq!(verdict_into(&[], 0, &mut []), Err(TooFew { size }));
/// # Ok::<(), TooFew>(())
/// ```
pub fn verdict_into(table: &[u8], spread: u32, text: &mut [u8]) -> Result<usize, TooFew> {
    result(exported::verdict(table, spread, text))
}

/// A table's schedule, a line a passage.
pub fn schedule(table: &[u8]) -> String {
    owned(SCHEDULE_ENOUGH, |text| exported::schedule(table, text))
}

/// The same into bytes that are lent, as [`verdict_into`].
pub fn schedule_into(table: &[u8], text: &mut [u8]) -> Result<usize, TooFew> {
    result(exported::schedule(table, text))
}

/// A table's schedule as a chart, a row a component.
pub fn chart(table: &[u8]) -> String {
    owned(CHART_ENOUGH, |text| exported::chart(table, text))
}

/// The same into bytes that are lent, as [`verdict_into`].
pub fn chart_into(table: &[u8], text: &mut [u8]) -> Result<usize, TooFew> {
    result(exported::chart(table, text))
}

/// The largest spread at which a table is accepted.
pub fn spread(table: &[u8]) -> String {
    owned(SPREAD_ENOUGH, |text| exported::spread(table, text))
}

/// The same into bytes that are lent, as [`verdict_into`].
pub fn spread_into(table: &[u8], text: &mut [u8]) -> Result<usize, TooFew> {
    result(exported::spread(table, text))
}

/// Why a component took the edge that it passes over at a tick, and no other.
pub fn reasons(table: &[u8], component: u32, tick: u32) -> String {
    let call = |text: &mut [u8]| exported::reasons(table, component, tick, text);
    owned(REASONS_ENOUGH, call)
}

/// The same into bytes that are lent, as [`verdict_into`].
pub fn reasons_into(
    table: &[u8],
    component: u32,
    tick: u32,
    text: &mut [u8],
) -> Result<usize, TooFew> {
    result(exported::reasons(table, component, tick, text))
}

/// A run of a table's programs under a list of choices. With spread 0 and no offset the nodes
/// start together.
pub fn run(table: &[u8], choices: &[u8], spread: u32, offsets: &[u32]) -> String {
    let call = |text: &mut [u8]| exported::run(table, choices, spread, offsets, text);
    owned(RUN_ENOUGH, call)
}

/// The same into bytes that are lent, as [`verdict_into`].
pub fn run_into(
    table: &[u8],
    choices: &[u8],
    spread: u32,
    offsets: &[u32],
    text: &mut [u8],
) -> Result<usize, TooFew> {
    result(exported::run(table, choices, spread, offsets, text))
}

/// What runs are simulated: the least and the most work, how many runs, and the seed.
#[derive(Clone, Copy, Debug, PartialEq, Eq)]
pub struct Experiment {
    /// The least work that is drawn.
    pub lo: u32,
    /// The most.
    pub hi: u32,
    /// How many runs.
    pub runs: u32,
    /// The generator's first number.
    pub seed: u32,
}

impl Experiment {
    fn numbers(self) -> [u32; 4] {
        [self.lo, self.hi, self.runs, self.seed]
    }
}

/// Simulated runs with drawn work times.
pub fn simulation(table: &[u8], experiment: Experiment) -> String {
    let call = |text: &mut [u8]| exported::simulation(table, experiment.numbers(), text);
    owned(SIMULATION_ENOUGH, call)
}

/// The same into bytes that are lent, as [`verdict_into`].
pub fn simulation_into(
    table: &[u8],
    experiment: Experiment,
    text: &mut [u8],
) -> Result<usize, TooFew> {
    result(exported::simulation(table, experiment.numbers(), text))
}

/// A refusal of any call of the crate `timed_network`, by its number and component.
pub fn refusal(number: u8, component: u8) -> String {
    owned(REFUSAL_ENOUGH, |text| {
        exported::refusal(number, component, text)
    })
}

/// The same into bytes that are lent, as [`verdict_into`].
pub fn refusal_into(number: u8, component: u8, text: &mut [u8]) -> Result<usize, TooFew> {
    result(exported::refusal(number, component, text))
}

/// A program's listing, a statement a line. It is counted, then written: no number of bytes is
/// enough for every damaged program, whose blocks may overlap.
pub fn listing(program: &[u8]) -> String {
    owned(0, |text| exported::listing(program, text))
}

/// The same into bytes that are lent, as [`verdict_into`].
pub fn listing_into(program: &[u8], text: &mut [u8]) -> Result<usize, TooFew> {
    result(exported::listing(program, text))
}
