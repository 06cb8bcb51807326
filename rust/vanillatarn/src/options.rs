//! The words behind `vanillatarn`: the commands, their files and their options.

mod read;
mod values;

pub use read::{read, Asked, Question};
#[cfg(feature = "library")]
pub use values::{decimal, whole};

use crate::help::page;
use values::Kind;

/// How an answer is told.
#[derive(Clone, Copy, Debug, PartialEq, Eq)]
pub enum Form {
    Words,
    Json,
}

/// A command: the words that it takes beside its options, and its help.
pub struct Command {
    pub name: &'static str,
    words: &'static [&'static str],
    /// Whether the one of them that is a file may stand there several times.
    many: bool,
    pub page: &'static str,
}

impl Command {
    /// Where among its words the file stands that there may be several of.
    fn file_place(&self) -> usize {
        let place = self.words.iter().position(|word| is_file(word));
        place.unwrap_or(self.words.len())
    }
}

/// Whether a word is the name of a file that is read.
fn is_file(word: &str) -> bool {
    matches!(word, "TABLE" | "PROGRAM")
}

macro_rules! command {
    ($name:literal, $words:expr, $many:expr) => {
        Command {
            name: $name,
            words: &$words,
            many: $many,
            page: page!($name),
        }
    };
}

pub const COMMANDS: [Command; 23] = [
    command!("verdict", ["TABLE"], true),
    command!("spread", ["TABLE"], true),
    command!("schedule", ["TABLE"], true),
    command!("chart", ["TABLE"], true),
    command!("plan", [], false),
    command!("edge", ["TABLE"], true),
    command!("why", ["TABLE", "COMPONENT", "TICK"], true),
    command!("where", ["TABLE", "PAIRS"], false),
    command!("translate", ["TABLE"], false),
    command!("list", ["PROGRAM"], true),
    command!("part", ["PROGRAM", "NODE"], false),
    command!("run", ["TABLE", "CHOICES"], false),
    command!("choices", ["TABLE"], false),
    command!("period", ["TABLE"], true),
    command!("simulate", ["TABLE"], false),
    command!("uppaal", ["TABLE"], false),
    command!("airtime", ["TABLE"], true),
    command!("site", ["LIMIT", "TABLE"], true),
    command!("text", ["TABLE"], false),
    command!("table", ["TEXTFILE"], false),
    command!("install", ["PREFIX"], false),
    command!("man", [], false),
    command!("completion", ["SHELL"], false),
];

/// An option: what it takes, and the commands that have it.
struct Known {
    name: &'static str,
    kind: Kind,
    of: &'static [&'static str],
}

/// The commands that are asked about any number of files.
const MANY: [&str; 10] = [
    "verdict", "spread", "schedule", "chart", "edge", "why", "list", "period", "airtime", "site",
];

const fn known(name: &'static str, kind: Kind, of: &'static [&'static str]) -> Known {
    Known { name, kind, of }
}

const OPTIONS: [Known; 30] = [
    known(
        "-o",
        Kind::Text("file"),
        &[
            "plan",
            "translate",
            "table",
            "choices",
            "part",
            "simulate",
            "uppaal",
            "man",
            "completion",
        ],
    ),
    known("--svg", Kind::Text("word"), &["chart"]),
    known("--from", Kind::Tick, &["chart"]),
    known("--to", Kind::Tick, &["chart"]),
    known("--probes", Kind::Decimal, &["plan"]),
    known("--slot", Kind::Decimal, &["plan"]),
    known("--guard", Kind::Decimal, &["plan"]),
    known("--period", Kind::Decimal, &["plan"]),
    known("--component", Kind::Text("number"), &["edge", "where"]),
    known("--tick", Kind::Text("number"), &["where"]),
    known("--location", Kind::Text("number"), &["edge"]),
    known("--clocks", Kind::Text("number"), &["edge"]),
    known("--variables", Kind::Text("number"), &["edge"]),
    known("--spread", Kind::Decimal, &["verdict", "run"]),
    known("--offsets", Kind::Offsets, &["run", "choices"]),
    known("--horizon", Kind::Whole, &["run", "choices"]),
    known("--close", Kind::Decimal, &["run"]),
    known("--work", Kind::Work, &["simulate"]),
    known("--runs", Kind::Whole, &["simulate"]),
    known("--seed", Kind::Whole, &["simulate", "run", "choices"]),
    known("--show", Kind::Whole, &["simulate"]),
    known("--sweep", Kind::Flag, &["simulate"]),
    known("--early", Kind::Flag, &["run", "choices"]),
    known("--late", Kind::Flag, &["run", "choices"]),
    known("--quiet", Kind::Flag, &["verdict"]),
    known("--c", Kind::Flag, &["part"]),
    known(
        "--json",
        Kind::Flag,
        &[
            "verdict", "spread", "schedule", "chart", "edge", "why", "where", "list", "run",
            "simulate", "period", "airtime", "site",
        ],
    ),
    known("--files-from", Kind::Text("file"), &MANY),
    known("-0", Kind::Flag, &MANY),
    known("--help", Kind::Help, &[]),
];

/// Options that exclude each other.
const EXCLUDED: [[&str; 2]; 9] = [
    ["--early", "--seed"],
    ["--late", "--seed"],
    ["--json", "--svg"],
    ["--json", "--quiet"],
    ["--early", "--late"],
    ["--horizon", "--spread"],
    ["--horizon", "--offsets"],
    ["--show", "--sweep"],
    ["--show", "--json"],
];

/// The same options by other names.
const SHORT: [[&str; 2]; 2] = [["-h", "--help"], ["-q", "--quiet"]];

/// The words that a command takes beside its options, and whether the last may stand there often.
pub fn words_of(command: &Command) -> (&'static [&'static str], bool) {
    (command.words, command.many)
}

/// Whether an option takes a word, and whether that is a file.
pub fn takes(option: &str) -> (bool, bool) {
    let known = OPTIONS.iter().find(|known| known.name == option);
    known.map_or((false, false), |known| {
        let file = known.kind == Kind::Text("file") || known.name == "--svg";
        (known.kind.takes_word(), file)
    })
}

/// The options that a command has.
pub fn of_command(command: &str) -> impl Iterator<Item = &'static str> + '_ {
    let own = move |known: &&Known| known.of.contains(&command);
    OPTIONS.iter().filter(own).map(|known| known.name)
}
