//! The words that are proved: one function a text, what is asked in, bytes out. They come from
//! the verified programs (`child`), each of which writes one of these texts and nothing else.
//! Whatever else could tell them, such as calls of an archive, takes the place of `child` and
//! leaves these functions as they are.

mod child;

use crate::output::Stop;
use crate::process::Lent;
use child::printed;

/// The texts.
#[derive(Clone, Copy, Debug, PartialEq, Eq)]
pub enum Text {
    Verdict,
    Schedule,
    Chart,
    Spread,
    Reasons,
    Listing,
    Run,
}

impl Text {
    /// The program that writes it.
    fn program(self) -> &'static str {
        match self {
            Text::Verdict => "verdict_printer",
            Text::Schedule => "schedule_printer",
            Text::Chart => "chart_printer",
            Text::Spread => "spread_printer",
            Text::Reasons => "reason_printer",
            Text::Listing => "program_listing",
            Text::Run => "trial_run",
        }
    }
}

/// Why there are no words.
#[derive(Debug)]
pub struct Fault(String);

/// Words, or why there are none.
pub type Words = Result<Vec<u8>, Fault>;

impl From<Fault> for Stop {
    fn from(fault: Fault) -> Stop {
        Stop::broken(fault.0)
    }
}

/// The verdict on a table at a spread.
pub fn verdict(table: &[u8], spread: u32) -> Words {
    printed(Text::Verdict, &[spread.to_string()], table)
}

/// The schedule of a table, a line a passage.
pub fn schedule(table: &[u8]) -> Words {
    printed(Text::Schedule, &[], table)
}

/// The schedule of a table as a chart.
pub fn chart(table: &[u8]) -> Words {
    printed(Text::Chart, &[], table)
}

/// The largest spread of a table.
pub fn spread(table: &[u8]) -> Words {
    printed(Text::Spread, &[], table)
}

/// Why a component takes its edge at a tick.
pub fn reasons(table: &[u8], component: u32, tick: u32) -> Words {
    let numbers = [component, tick].map(|number| number.to_string());
    printed(Text::Reasons, &numbers, table)
}

/// A program, a statement a line.
pub fn listing(program: &[u8]) -> Words {
    printed(Text::Listing, &[], program)
}

/// How a run of a table under choices ends, and what is observed. The program reads two files:
/// the table is its standard input, the choices are lent.
pub fn run(table: &[u8], choices: &[u8], spread: u32, offsets: &[u32]) -> Words {
    let lent = Lent::new(choices).map_err(|error| failed(Text::Run, &error.to_string()))?;
    let offsets: Vec<String> = offsets.iter().map(u32::to_string).collect();
    let offsets = match offsets.as_slice() {
        [] => "-".to_string(),
        offsets => offsets.join(","),
    };
    let words = [
        "/dev/stdin".to_string(),
        lent.path(),
        spread.to_string(),
        offsets,
    ];
    printed(Text::Run, &words, table)
}

/// The fault of words that are not what they should be, and why.
pub fn failed(text: Text, why: &str) -> Fault {
    Fault(format!("{} failed: {why}", text.program()))
}
