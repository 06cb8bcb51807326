//! The program: its statements, the translator, the part of one node, and a
//! decoder to readable statements.

mod part;
mod translate;

pub use part::{decode, part, part_bytes, NodeProgram};
pub use translate::{program, program_length, write_program};

use std::fmt;

/// The length of the program's header: "Version 1; total length (2 bytes);
/// component count; H (2 bytes)."
pub const HEADER: usize = 6;
/// The length of a part's head: "length, these two bytes included (2 bytes);
/// locations; edges; initial location; a zero byte".
pub const PART_HEAD: usize = 6;
/// "A statement is op (hexadecimal), a, k (2 bytes)".
pub const STATEMENT: usize = 4;

/// The ops, each with its byte.
#[derive(Clone, Copy, Debug, PartialEq, Eq)]
#[repr(u8)]
pub enum Op {
    /// 00: wait for the window.
    Sleep = 0x00,
    /// 01: set variable a to k.
    Set = 0x01,
    /// 02: add k to variable a.
    Add = 0x02,
    /// 03: the end of internal work.
    Done = 0x03,
    /// 04: send on channel a.
    Send = 0x04,
    /// 05: listen, with a pairs following.
    Listen = 0x05,
    /// 06: channel a leads to location k.
    Pair = 0x06,
    /// 07: clock a grows by n + d.
    Age = 0x07,
    /// 08: clock a becomes 0.
    Zero = 0x08,
    /// 09: go to location k, or to the paired one.
    Enter = 0x09,
    /// 0A: begin a trial.
    Trial = 0x0a,
    /// 0B: clock a must be k or more.
    Low = 0x0b,
    /// 0C: clock a must be k or less.
    High = 0x0c,
    /// 0D: variable a must be k or more.
    DataLow = 0x0d,
    /// 0E: variable a must be k or less.
    DataHigh = 0x0e,
    /// 0F: keep edge k if the candidate rule says so.
    Keep = 0x0f,
    /// 10: take the edge kept.
    Take = 0x10,
    /// 11: go to the present location's block.
    Choose = 0x11,
    /// 12: the window must have k ticks.
    Budget = 0x12,
}

impl Op {
    /// All ops, each at the place of its byte.
    const ALL: [Op; 19] = [
        Op::Sleep,
        Op::Set,
        Op::Add,
        Op::Done,
        Op::Send,
        Op::Listen,
        Op::Pair,
        Op::Age,
        Op::Zero,
        Op::Enter,
        Op::Trial,
        Op::Low,
        Op::High,
        Op::DataLow,
        Op::DataHigh,
        Op::Keep,
        Op::Take,
        Op::Choose,
        Op::Budget,
    ];

    /// The op of a byte, if there is one.
    pub fn from_byte(byte: u8) -> Option<Op> {
        Op::ALL.get(byte as usize).copied()
    }
}

/// "A statement is op (hexadecimal), a, k (2 bytes); fields not named are 0."
#[derive(Clone, Copy, Debug, PartialEq, Eq)]
pub struct Statement {
    /// What is to be done.
    pub op: Op,
    /// A clock, variable, channel or count.
    pub a: u8,
    /// A number, edge or location.
    pub k: u16,
}

impl Statement {
    /// A statement.
    pub const fn new(op: Op, a: u8, k: u16) -> Statement {
        Statement { op, a, k }
    }

    /// A statement without fields.
    pub const fn plain(op: Op) -> Statement {
        Statement::new(op, 0, 0)
    }

    /// The four bytes of the statement.
    pub fn to_bytes(self) -> [u8; STATEMENT] {
        let [high, low] = self.k.to_be_bytes();
        [self.op as u8, self.a, high, low]
    }

    /// The statement of four bytes, if the first is an op.
    pub fn from_bytes(bytes: [u8; STATEMENT]) -> Option<Statement> {
        let op = Op::from_byte(bytes[0])?;
        let k = u16::from_be_bytes([bytes[2], bytes[3]]);
        Some(Statement::new(op, bytes[1], k))
    }

    /// The number k read as "two's complement".
    pub fn signed(&self) -> i16 {
        self.k as i16
    }
}

/// The statement in readable form.
impl fmt::Display for Statement {
    fn fmt(&self, out: &mut fmt::Formatter<'_>) -> fmt::Result {
        let (a, k, number) = (self.a, self.k, self.signed());
        match self.op {
            Op::Sleep => write!(out, "sleep"),
            Op::Set => write!(out, "set v{a} = {number}"),
            Op::Add => write!(out, "add v{a} + {number}"),
            Op::Done => write!(out, "done"),
            Op::Send => write!(out, "send channel {a}"),
            Op::Listen => write!(out, "listen, {a} pairs"),
            Op::Pair => write!(out, "pair channel {a} to L{k}"),
            Op::Age => write!(out, "age x{a}"),
            Op::Zero => write!(out, "zero x{a}"),
            Op::Enter => write!(out, "enter L{k}"),
            Op::Trial => write!(out, "trial"),
            Op::Low => write!(out, "low x{a} >= {k}"),
            Op::High => write!(out, "high x{a} <= {k}"),
            Op::DataLow => write!(out, "low v{a} >= {number}"),
            Op::DataHigh => write!(out, "high v{a} <= {number}"),
            Op::Keep => write!(out, "keep e{k}"),
            Op::Take => write!(out, "take"),
            Op::Choose => write!(out, "choose"),
            Op::Budget => write!(out, "budget {k}"),
        }
    }
}
