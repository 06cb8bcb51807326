//! Reads networks of timed automata in UPPAAL's textual form, XTA, and explores them
//! at whole ticks. Written from the tool's published grammar and semantics alone; it
//! knows nothing of tables.
//!
//! The part of the grammar that is read, in the tool's own words:
//!
//! ```text
//! XTA          ::= Declaration* System
//! Declaration  ::= VariableDecl | ProcDecl
//! VariableDecl ::= Type ID (',' ID)* ';'
//! Type         ::= 'chan' | 'clock' | 'int' [ '[' Expression ',' Expression ']' ]
//! ProcDecl     ::= 'process' ID '(' ')' '{' VariableDecl* States Init [Transitions] '}'
//! States       ::= 'state' StateDecl (',' StateDecl)* ';'
//! StateDecl    ::= ID [ '{' Expression '}' ]
//! Init         ::= 'init' ID ';'
//! Transitions  ::= 'trans' Transition (',' TransitionOpt)* ';'
//! Transition   ::= ID '->' ID '{' [Guard] [Sync] [Assign] '}'
//! TransitionOpt::= Transition | '->' ID '{' [Guard] [Sync] [Assign] '}'
//! Guard        ::= 'guard' Expression ';'
//! Sync         ::= 'sync' ID ('!' | '?') ';'
//! Assign       ::= 'assign' ExprList ';'
//! System       ::= 'system' ID (',' ID)* ';'
//! Expression   ::= ID | NAT | 'true' | 'false' | '(' Expression ')'
//!                | ('-' | '!' | 'not') Expression | Expression Op Expression
//! Op           ::= '<' | '<=' | '==' | '!=' | '>=' | '>' | '+' | '-' | '*' | '/' | '%'
//!                | '&&' | '||' | 'and' | 'or' | 'imply' | ':=' | '='
//! ```
//!
//! Blanks, tabs, line ends and comments (`//` to the end of the line, `/*` to `*/`)
//! stand anywhere between two words. Channels are declared outside the processes, clocks
//! and variables inside. Anything else, though it may be XTA, is not read: the text is
//! refused with the place of the first fault.
//!
//! What the tool asks besides its grammar is asked too: each name is declared once and
//! before it is used, no name is a word of the tool, clocks are compared with whole
//! numbers alone, a guard has no "or" and no "not" over clocks, an invariant bounds
//! clocks from above alone.
//!
//! [`read`] reads a text, [`network`] has its states and moves, [`explore`] counts them
//! up to a tick.
#![forbid(unsafe_code)]
#![warn(missing_docs)]

mod checked;
mod explore;
mod expression;
pub mod network;
mod parse;
mod system;
mod token;

pub use explore::{explore, Explored};
pub use system::{
    Arithmetic, Assignment, Condition, Location, Process, Relation, Sum, Sync, System, Transition,
    Variable,
};

use std::error::Error;
use std::fmt;

/// Why a text is not read, and where.
#[derive(Clone, Debug, PartialEq, Eq)]
pub struct Fault {
    /// The line of the first byte at fault, counted from 1.
    pub line: usize,
    /// Its place in the line, counted from 1.
    pub column: usize,
    /// What is wrong there.
    pub what: String,
}

impl fmt::Display for Fault {
    fn fmt(&self, out: &mut fmt::Formatter<'_>) -> fmt::Result {
        write!(out, "line {}, {}: {}", self.line, self.column, self.what)
    }
}

impl Error for Fault {}

/// Reads a text.
///
/// ```
/// let text = "process P() { clock x; state A { x <= 3 }; init A;
///             trans A -> A { guard x == 3; assign x := 0; }; } system P;";
/// let system = xta::read(text.as_bytes())?;
/// assert_eq!(system.processes[0].locations[0].name, "A");
/// let counted = xta::explore(&system, 8).unwrap();
/// assert_eq!((counted.states, counted.delays, counted.alone), (11, 8, 2));
/// # Ok::<(), xta::Fault>(())
/// ```
pub fn read(text: &[u8]) -> Result<System, Fault> {
    let tokens = token::tokens(text).map_err(|(at, what)| fault(text, at, what))?;
    let parsed = parse::parse(&tokens, text.len());
    let checked = parsed.and_then(|parsed| checked::checked(&parsed));
    checked.map_err(|(at, what)| fault(text, at, what))
}

/// A fault at a place of the text, counted in bytes.
type Wrong = (usize, String);

fn fault(text: &[u8], at: usize, what: String) -> Fault {
    let before = &text[..at];
    let line_start = before.iter().rposition(|byte| *byte == b'\n');
    Fault {
        line: 1 + before.iter().filter(|byte| **byte == b'\n').count(),
        column: 1 + at - line_start.map_or(0, |end| end + 1),
        what,
    }
}
