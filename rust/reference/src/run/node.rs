//! One node: its registers and its statements.

use crate::program::{NodeProgram, Op, Statement};
use crate::schedule::{Clocks, Variables};
use crate::table::{MAX_CLOCKS, MAX_VARIABLES};

use super::Happening;

/// The trial of one edge: "Trial starts with ready delay 0; low raises it to
/// k − clock, high lowers the trial's end to k − clock; a bound not met fails
/// the trial."
#[derive(Clone, Copy, Debug, PartialEq, Eq)]
pub struct Trial {
    /// The ready delay.
    pub ready: i64,
    /// The trial's end.
    pub end: i64,
    /// Whether a bound was not met.
    pub failed: bool,
}

impl Trial {
    const START: Trial = Trial {
        ready: 0,
        end: i64::MAX,
        failed: false,
    };
}

/// The edge kept among those tried.
#[derive(Clone, Copy, Debug, PartialEq, Eq)]
pub struct Kept {
    /// Its number.
    pub edge: u8,
    /// Its ready delay.
    pub ready: u32,
    /// The length of its window.
    pub length: u32,
}

/// What a node remembers from one statement to the next.
#[derive(Clone, Copy, Debug, PartialEq, Eq)]
pub struct Registers {
    /// The place of the statement to be finished next.
    pub place: usize,
    /// The present location.
    pub location: u8,
    /// The edge taken last.
    pub edge: u8,
    /// The tick of the ready of the edge taken last.
    pub t: u32,
    /// Its ready delay.
    pub n: u32,
    /// The length of its window.
    pub d: u32,
    /// The clocks at the entry of the present location.
    pub clocks: Clocks,
    /// The variables.
    pub variables: Variables,
    /// The trial under way.
    pub trial: Trial,
    /// The edge kept so far.
    pub kept: Option<Kept>,
    /// The location paired with the message taken.
    pub paired: Option<u8>,
    /// Whether it stands between a sleep and the end of the work after it.
    pub working: bool,
}

/// A node: its program, read only, and its registers.
#[derive(Clone, Copy, Debug)]
pub struct Node<'a> {
    program: NodeProgram<'a>,
    /// Its registers.
    pub registers: Registers,
}

impl<'a> Node<'a> {
    /// "Choose goes to the present location's block. It starts there with t,
    /// n, d all 0." Nothing where the initial location has no block.
    pub fn new(program: NodeProgram<'a>) -> Option<Node<'a>> {
        let registers = Registers {
            place: program.location_start(program.initial)?,
            location: program.initial,
            edge: 0,
            t: 0,
            n: 0,
            d: 0,
            clocks: [0; MAX_CLOCKS],
            variables: [0; MAX_VARIABLES],
            trial: Trial::START,
            kept: None,
            paired: None,
            working: false,
        };
        Some(Node { program, registers })
    }

    /// The statement that it stands at.
    #[inline]
    pub fn statement(&self) -> Option<Statement> {
        self.program.statement(self.registers.place)
    }

    /// The last tick of its window.
    #[inline]
    pub fn window_end(&self) -> u32 {
        self.registers.t.saturating_add(self.registers.d)
    }

    /// Finishes a statement of its own, any but a send, at a tick of its own
    /// clock. Nothing, and nothing changed, where that is not allowed.
    #[inline]
    pub fn finish(&mut self, number: u8, statement: Statement, tick: u32) -> Option<Happening> {
        let Statement { op, a, .. } = statement;
        match op {
            Op::Sleep => self.sleep(number, tick),
            Op::Listen => self.listen(number, a, tick),
            Op::Done => {
                self.end_work(1);
                Some(Happening::Done { node: number })
            }
            Op::Take => self.take(),
            Op::Choose => self.choose(),
            Op::Send | Op::Pair => None,
            _ => {
                self.calculate(statement);
                self.registers.place += 1;
                Some(Happening::Own)
            }
        }
    }

    /// "Not allowed: [...] sleep unless the tick is t".
    fn sleep(&mut self, number: u8, tick: u32) -> Option<Happening> {
        if tick != self.registers.t {
            return None;
        }
        self.registers.working = true;
        self.registers.place += 1;
        Some(Happening::Slept { node: number })
    }

    /// "Not allowed: [...] a listen unless its window ends now".
    fn listen(&mut self, number: u8, pairs: u8, tick: u32) -> Option<Happening> {
        if tick != self.window_end() {
            return None;
        }
        self.end_work(1 + usize::from(pairs));
        Some(Happening::Timeout { node: number })
    }

    /// Ends the work, going on by so many statements.
    fn end_work(&mut self, statements: usize) {
        self.registers.working = false;
        self.registers.place += statements;
    }

    /// Its send is finished.
    pub fn sent(&mut self) {
        self.end_work(1);
    }

    /// Where it stands at a listen that names the channel: the pair count and
    /// the paired location.
    pub fn listens_to(&self, channel: u8) -> Option<(u8, u8)> {
        let listen = self.statement().filter(|s| s.op == Op::Listen)?;
        let first = self.registers.place + 1;
        let pairs = (first..first + usize::from(listen.a)).map(|p| self.program.statement(p));
        let pair = pairs
            .flatten()
            .find(|pair| pair.op == Op::Pair && pair.a == channel)?;
        Some((listen.a, pair.k as u8))
    }

    /// "A send finishes its listener's statement too"; pairs are "skipped
    /// when run".
    pub fn received(&mut self, pairs: u8, location: u8) {
        self.registers.paired = Some(location);
        self.end_work(1 + usize::from(pairs));
    }

    /// "Take moves t by the old d, then by the new ready delay n, sets d
    /// (window length) and goes to the edge block." Not allowed: "a take with
    /// nothing kept".
    fn take(&mut self) -> Option<Happening> {
        let kept = self.registers.kept?;
        let place = self.program.edge_start(kept.edge)?;
        let registers = &mut self.registers;
        registers.t = registers.t.saturating_add(registers.d);
        registers.t = registers.t.saturating_add(kept.ready);
        registers.n = kept.ready;
        registers.d = kept.length;
        registers.edge = kept.edge;
        registers.place = place;
        Some(Happening::Own)
    }

    /// "Choose goes to the present location's block", nothing kept yet.
    fn choose(&mut self) -> Option<Happening> {
        self.registers.place = self.program.location_start(self.registers.location)?;
        self.registers.kept = None;
        Some(Happening::Own)
    }

    /// The statements that change registers only.
    #[inline]
    fn calculate(&mut self, Statement { op, a, k }: Statement) {
        let number = k as i16;
        let registers = &mut self.registers;
        // Only a damaged program names a fifth clock or variable; the
        // remainder keeps the index in range.
        let (clock, variable) = (usize::from(a) % MAX_CLOCKS, usize::from(a) % MAX_VARIABLES);
        let reach = i64::from(k) - i64::from(registers.clocks[clock]);
        let value = registers.variables[variable];
        let trial = &mut registers.trial;
        match op {
            Op::Set => registers.variables[variable] = number,
            // Check 9 keeps the sum in range wherever this work is reached.
            Op::Add => registers.variables[variable] = value.wrapping_add(number),
            Op::Age => {
                let grown = registers.n.saturating_add(registers.d);
                registers.clocks[clock] = registers.clocks[clock].saturating_add(grown);
            }
            Op::Zero => registers.clocks[clock] = 0,
            // "Enter goes to location k, after a message to the paired one."
            Op::Enter => registers.location = registers.paired.take().unwrap_or(k as u8),
            Op::Trial => *trial = Trial::START,
            Op::Low => trial.ready = trial.ready.max(reach),
            Op::High => trial.end = trial.end.min(reach),
            Op::DataLow => trial.failed |= value < number,
            Op::DataHigh => trial.failed |= value > number,
            // Document 02, wish 8: "fails the trial of a shorter window".
            Op::Budget => trial.failed |= trial.end - trial.ready < i64::from(k),
            Op::Keep => self.keep(k as u8),
            _ => {}
        }
    }

    /// "Keep applies the candidate rule": ready < end, and on a tie the
    /// lowest number, which was tried first. A clock bound that is not met
    /// leaves no ready below the end.
    fn keep(&mut self, edge: u8) {
        let Trial { ready, end, failed } = self.registers.trial;
        let kept = self.registers.kept;
        let better = kept.is_none_or(|kept| ready < i64::from(kept.ready));
        if !failed && ready < end && better {
            self.registers.kept = Some(Kept {
                edge,
                ready: ready as u32,
                length: (end - ready) as u32,
            });
        }
    }
}
