//! One node of the plain run.

use super::{Fault, WIDTH};

/// A node: its statements and its registers.
pub struct Node {
    starts: Vec<usize>,
    locations: usize,
    code: Vec<[u8; 4]>,
    present: usize,
    fault: Fault,
    place: usize,
    location: u8,
    edge: u8,
    pub t: i64,
    n: i64,
    pub d: i64,
    clocks: [i64; 4],
    variables: [i64; 4],
    trial: (i64, i64, bool),
    kept: Option<(u8, i64, i64)>,
    paired: Option<u8>,
    /// When the last work was finished.
    finished: i64,
    /// When the first update of the work under way was made.
    begun: Option<i64>,
    /// When each work was finished.
    finishes: Vec<i64>,
    /// The sleeps finished.
    pub sleeps: usize,
    /// The observations, each with its place among those of all nodes.
    pub written: Vec<(usize, [u8; WIDTH])>,
}

fn two(bytes: &[u8]) -> usize {
    usize::from(bytes[0]) << 8 | usize::from(bytes[1])
}

/// Whether a trial's window is shorter than a budget.
fn is_short([ready, end]: [i64; 2], budget: i64, fault: Fault) -> bool {
    match fault {
        Fault::BudgetForgotten => false,
        Fault::BudgetOneTickMore => budget > 0 && end <= ready + budget,
        Fault::BudgetOneTickLess => end < ready + budget - 1,
        Fault::BudgetFromEntry => end < budget,
        _ => end < ready + budget,
    }
}

impl Node {
    pub fn new(part: &[u8], clocks: u8, fault: Fault) -> Node {
        let locations = usize::from(part[2]);
        let blocks = locations + usize::from(part[3]);
        let starts: Vec<usize> = (0..blocks).map(|b| two(&part[6 + 2 * b..])).collect();
        let code = part[6 + 2 * blocks..].chunks_exact(4);
        Node {
            place: starts[usize::from(part[4])],
            starts,
            locations,
            code: code.map(|c| [c[0], c[1], c[2], c[3]]).collect(),
            present: clocks.into(),
            fault,
            location: part[4],
            edge: 0,
            t: 0,
            n: 0,
            d: 0,
            clocks: [0; 4],
            variables: [0; 4],
            trial: (0, i64::MAX, false),
            kept: None,
            paired: None,
            finished: 0,
            begun: None,
            finishes: Vec::new(),
            sleeps: 0,
            written: Vec::new(),
        }
    }

    pub fn statement(&self) -> [u8; 4] {
        self.code[self.place]
    }

    pub fn op(&self) -> u8 {
        self.statement()[0]
    }

    /// Where a message on the channel leads, if it listens to it.
    pub fn names(&self, channel: u8) -> Option<u8> {
        let [5, count, _, _] = self.statement() else {
            return None;
        };
        let pairs = &self.code[self.place + 1..][..usize::from(count)];
        let pair = pairs.iter().find(|pair| pair[1] == channel)?;
        Some(pair[3])
    }

    /// Its listen is finished by a message.
    pub fn hear(&mut self, channel: u8, tick: i64) {
        if self.fault != Fault::PairedForgotten {
            self.paired = self.names(channel);
        }
        let pairs = self.statement()[1];
        self.work_done(tick, 1 + usize::from(pairs));
        if self.fault == Fault::FinishNotNotedForMessage {
            self.forget_finish();
        }
    }

    /// The tick of the work before stands for the last one.
    fn forget_finish(&mut self) {
        self.finishes.pop();
        self.finishes
            .push(self.finishes.last().copied().unwrap_or(-1));
    }

    /// Its work is finished; it goes on by so many statements.
    pub fn work_done(&mut self, tick: i64, statements: usize) {
        self.finished = tick;
        let begun = self.begun.take();
        self.finishes.push(match self.fault {
            Fault::FinishOfTheFirstUpdate => begun.unwrap_or(tick),
            Fault::FinishAtReady => self.t,
            Fault::FinishAtEnd => self.t + self.d,
            _ => tick,
        });
        let skipped = self.fault != Fault::PairsRun;
        self.place += if skipped { statements } else { 1 };
        if self.fault == Fault::WrittenAfterWork {
            if let Some((when, _)) = self.written.pop() {
                self.write(self.t, when);
            }
        }
    }

    /// Finishes a statement of its own, if it may; so many observations are
    /// written already.
    pub fn finish(&mut self, tick: i64, written: usize) -> bool {
        let [op, a, high, low] = self.statement();
        let k = i64::from(high) << 8 | i64::from(low);
        let fault = self.fault;
        match op {
            0x00 => {
                let early = fault == Fault::SleepsShorter && tick + 1 == self.t;
                if tick != self.t && !early {
                    return false;
                }
                self.sleeps += 1;
                self.write(tick, written);
            }
            0x03 => {
                self.work_done(tick, 1);
                return true;
            }
            0x05 => return self.time_out(tick, a),
            0x10 => return self.take(),
            0x11 => {
                if fault != Fault::KeptNeverForgotten {
                    self.kept = None;
                }
                self.place = self.starts[usize::from(self.location)];
                return true;
            }
            0x01 | 0x02 => {
                self.begun.get_or_insert(tick);
                self.calculate(op, usize::from(a), k);
            }
            _ => self.calculate(op, usize::from(a), k),
        }
        self.place += 1;
        true
    }

    /// Its listen is finished without a message, if it may be.
    fn time_out(&mut self, tick: i64, pairs: u8) -> bool {
        let early = self.fault == Fault::ListensShorter && tick + 1 == self.t + self.d;
        if tick != self.t + self.d && !early {
            return false;
        }
        self.work_done(tick, 1 + usize::from(pairs));
        if self.fault == Fault::FinishNotNotedForTimeout {
            self.forget_finish();
        }
        true
    }

    /// What stands in an observation of the work before.
    fn previous_finish(&self) -> [u8; 4] {
        let back = match self.fault {
            Fault::FinishOfTheWorkBefore => 2,
            _ => 1,
        };
        let place = self.finishes.len().checked_sub(back);
        let finish = match (place, self.fault) {
            (Some(place), _) => self.finishes[place],
            (None, Fault::FirstFinish0) => 0,
            (None, _) => -1,
        };
        match self.fault {
            Fault::FinishLittleEndian => (finish as u32).to_le_bytes(),
            _ => (finish as u32).to_be_bytes(),
        }
    }

    fn take(&mut self) -> bool {
        let Some((edge, ready, length)) = self.kept else {
            return false;
        };
        self.t = match self.fault {
            Fault::ReadyFromWorkOn | Fault::EntersWhenWorkFinishes => self.finished,
            _ => self.t + self.d,
        };
        self.t += ready;
        (self.edge, self.n, self.d) = (edge, ready, length);
        self.place = self.starts[self.locations + usize::from(edge)];
        true
    }

    fn calculate(&mut self, op: u8, a: usize, k: i64) {
        let signed = i64::from(k as u16 as i16);
        let (ready, end, failed) = &mut self.trial;
        let is = |fault| self.fault == fault;
        match op {
            0x01 => self.variables[a] = signed,
            0x02 => self.variables[a] += signed,
            0x07 => {
                self.clocks[a] += match self.fault {
                    Fault::AgesByWindow => self.d,
                    Fault::AgesByReady => self.n,
                    Fault::EntersWhenWorkFinishes => self.n + self.finished - self.t,
                    _ => self.n + self.d,
                };
                if is(Fault::ClocksOf16Bits) {
                    self.clocks[a] &= 0xffff;
                }
            }
            0x08 if !is(Fault::ZeroForgotten) => self.clocks[a] = 0,
            0x09 => {
                self.location = self.paired.unwrap_or(k as u8);
                if !is(Fault::PairedNeverForgotten) {
                    self.paired = None;
                }
            }
            0x0a => self.trial = (0, i64::MAX, false),
            0x0b if !is(Fault::LowForgotten) => *ready = (*ready).max(k - self.clocks[a]),
            0x0c if !is(Fault::HighForgotten) => *end = (*end).min(k - self.clocks[a]),
            0x0d if !is(Fault::DataForgotten) => *failed |= self.variables[a] < signed,
            0x0e if is(Fault::FailureForgotten) => *failed = self.variables[a] > signed,
            0x0e if !is(Fault::DataForgotten) => *failed |= self.variables[a] > signed,
            0x0f => self.keep(k as u8),
            0x12 => *failed |= is_short([*ready, *end], k, self.fault),
            _ => {}
        }
    }

    fn keep(&mut self, edge: u8) {
        let (ready, end, failed) = self.trial;
        let end = end.min(1 << 20);
        let fits = ready < end || (self.fault == Fault::WindowOfOneTick && ready == end);
        let better = self.kept.is_none_or(|(_, kept, _)| {
            ready < kept || (self.fault == Fault::TieToLastTried && ready == kept)
        });
        if !failed && fits && better {
            self.kept = Some((edge, ready, end - ready));
        }
    }

    fn write(&mut self, tick: i64, when: usize) {
        let mut bytes = [0; WIDTH];
        bytes[1] = self.edge;
        bytes[2] = match self.fault {
            Fault::DestinationShown => self.code
                [self.starts[self.locations..][usize::from(self.edge)]..]
                .iter()
                .find(|statement| statement[0] == 0x09)
                .map_or(0, |enter| enter[3]),
            _ => self.location,
        };
        bytes[4..8].copy_from_slice(&(tick as u32).to_be_bytes());
        let shown = match self.fault {
            Fault::AbsentClocksGrow => 4,
            _ => self.present,
        };
        for clock in 0..shown {
            let grown = match self.fault {
                Fault::ClocksAtEntry => 0,
                Fault::ClocksAtEnd => self.n + self.d,
                _ => self.n,
            };
            let value = (self.clocks[clock] + grown) as u32;
            bytes[8 + 4 * clock..][..4].copy_from_slice(&value.to_be_bytes());
        }
        for (place, variable) in self.variables.iter().enumerate() {
            let value = *variable as i16;
            let two = match self.fault {
                Fault::VariablesLittleEndian => value.to_le_bytes(),
                _ => value.to_be_bytes(),
            };
            bytes[24 + 2 * place..][..2].copy_from_slice(&two);
        }
        bytes[32..].copy_from_slice(&self.previous_finish());
        self.written.push((when, bytes));
    }
}
