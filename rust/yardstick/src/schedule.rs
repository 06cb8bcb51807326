//! The schedule: passages opened and closed in one sweep, with checks 7 to 12
//! on the way.

use crate::meetings::{Meetings, Window};
use crate::opening::{taken, updated, Taken};
use crate::table::*;
use crate::{Refusal, FIELDS, NO_MESSAGE};

/// "Are fewer than 1,024 passages open or closed?"
pub(crate) const PASSAGES: usize = 1024;
/// The place of a passage that there is not.
pub(crate) const NOWHERE: u16 = u16::MAX;

/// A passage, with the place of its component's next one.
#[derive(Clone, Copy, Default)]
pub(crate) struct Passage {
    pub(crate) component: u8,
    pub(crate) edge: u8,
    pub(crate) location: u8,
    pub(crate) message: u8,
    pub(crate) entry: u32,
    pub(crate) ready: u32,
    pub(crate) end: u32,
    pub(crate) next: u16,
}

impl Passage {
    /// The seven fields as numbers.
    #[inline]
    pub(crate) fn fields(&self) -> [u32; FIELDS] {
        [
            self.component.into(),
            self.edge.into(),
            self.location.into(),
            self.entry,
            self.ready,
            self.end,
            self.message.into(),
        ]
    }
}

/// A component whose passage is open: what it enters with at the end, as far
/// as that is known when the passage opens.
#[derive(Clone, Copy, Default)]
struct Lane {
    clocks: Clocks,
    variables: Variables,
    /// The destination of the edge taken.
    location: u8,
    edge: u8,
    /// The place of its open passage.
    row: usize,
}

/// An opening that is refused by one of checks 7 to 9.
#[derive(Clone, Copy, Default)]
pub(crate) struct Stop {
    pub(crate) location: u8,
    pub(crate) tick: u32,
    pub(crate) clocks: Clocks,
    pub(crate) variables: Variables,
    /// The edge taken, with 9.
    pub(crate) edge: u8,
}

/// The passages of a table.
pub(crate) struct Schedule {
    list: Box<[Passage; PASSAGES]>,
    count: usize,
    /// Where the sweep stopped last, if it did.
    pub(crate) stop: Stop,
}

impl Default for Schedule {
    fn default() -> Schedule {
        Schedule {
            list: Box::new([Passage::default(); PASSAGES]),
            count: 0,
            stop: Stop::default(),
        }
    }
}

impl Schedule {
    /// The passages.
    #[inline]
    pub(crate) fn passages(&self) -> &[Passage] {
        &self.list[..self.count.min(PASSAGES)]
    }

    /// The schedule of a table, with checks 7 to 12.
    pub(crate) fn fill(&mut self, table: &mut Table, bytes: &[u8]) -> Result<(), Refusal> {
        let mut sweep = Sweep {
            table,
            bytes,
            list: &mut self.list,
            stop: &mut self.stop,
            count: 0,
            ends: [u64::MAX; COMPONENTS],
            lanes: [Lane::default(); COMPONENTS],
            meetings: Meetings::new(),
        };
        let swept = sweep.pass();
        self.count = sweep.count;
        swept
    }
}

/// What the sweep knows at a tick.
struct Sweep<'a> {
    table: &'a mut Table,
    bytes: &'a [u8],
    list: &'a mut [Passage; PASSAGES],
    stop: &'a mut Stop,
    count: usize,
    /// For each component the end of its open passage, times 8, with its
    /// number: the least one closes next. They are wider than they need to
    /// be: a processor is slow to read several numbers at once where one was
    /// just written, and does not do so with numbers of this width.
    ends: [u64; COMPONENTS],
    lanes: [Lane; COMPONENTS],
    meetings: Meetings,
}

impl Sweep<'_> {
    /// "Components 0 upward open at tick 0. Then, while the least end of an
    /// open passage is below H, that passage closes (ties: lowest component)
    /// and its component's next opens."
    fn pass(&mut self) -> Result<(), Refusal> {
        for number in 0..self.table.count {
            self.open(number, self.table.component(number).initial, 0)?;
        }
        loop {
            let (end, number) = self.first_end();
            if end >= self.table.horizon {
                break;
            }
            let location = self.close(number);
            self.open(number, location, end)?;
        }
        self.finish();
        self.meetings.verdict()
    }

    /// The passage that closes next: its end and its component.
    #[inline]
    fn first_end(&self) -> (u32, usize) {
        let [a, b, c, d, e, f, g, h] = self.ends;
        let first = a.min(b).min(c.min(d)).min(e.min(f).min(g.min(h)));
        ((first >> 3) as u32, first as usize % COMPONENTS)
    }

    /// Opens a passage: checks 7, 8 and 9 in this order.
    #[inline]
    fn open(&mut self, number: usize, location: u8, entry: u32) -> Result<(), Refusal> {
        if self.count >= PASSAGES {
            return Err(self.refused(7, number, location, entry, 0));
        }
        let component = &mut self.table.components[number % COMPONENTS];
        let lane = &mut self.lanes[number % COMPONENTS];
        let values = (&lane.clocks, &lane.variables);
        let Some(taken) = taken(component, location, self.bytes, values) else {
            return Err(self.refused(8, number, location, entry, 0));
        };
        let edge = component.edge(taken.edge);
        if edge.kind == Kind::Internal && edge.items > 0 {
            let Some(variables) = updated(edge, self.bytes, &lane.variables) else {
                return Err(self.refused(9, number, location, entry, taken.edge));
            };
            lane.variables = variables;
        }
        lane.clocks = grown(&lane.clocks, taken.end, edge.mask);
        lane.location = edge.destination;
        lane.edge = taken.edge;
        self.write(number, location, entry, taken);
        Ok(())
    }

    /// Notes where the sweep stops. The lane has what the component enters with.
    #[cold]
    fn refused(&mut self, check: u8, number: usize, location: u8, tick: u32, edge: u8) -> Refusal {
        let lane = &self.lanes[number % COMPONENTS];
        *self.stop = Stop {
            location,
            tick,
            clocks: lane.clocks,
            variables: lane.variables,
            edge,
        };
        Refusal::of(check, number)
    }

    /// Writes the passage that opens behind the list.
    #[inline]
    fn write(&mut self, number: usize, location: u8, entry: u32, taken: Taken) {
        let edge = self.table.component(number).edge(taken.edge);
        let ready = entry + taken.ready as u32;
        let end = entry + taken.end as u32;
        let sends = edge.kind == Kind::Send;
        let row = self.count;
        self.count += 1;
        self.list[row % PASSAGES] = Passage {
            component: number as u8,
            edge: taken.edge,
            location,
            message: if sends { edge.channel() } else { NO_MESSAGE },
            entry,
            ready,
            end,
            next: NOWHERE,
        };
        let before = std::mem::replace(&mut self.lanes[number % COMPONENTS].row, row);
        if entry > 0 {
            self.list[before % PASSAGES].next = row as u16;
        }
        self.ends[number % COMPONENTS] = u64::from(end) << 3 | number as u64;
        if edge.kind == Kind::Receive || sends && ready < self.table.horizon {
            let band = self.table.band(edge.channel());
            let window = Window::new(sends, edge.channels, band, row, ready, end);
            self.meetings.open(number, entry, window);
        }
    }

    /// Closes the open passage of a component: the location that it enters.
    #[inline]
    fn close(&mut self, number: usize) -> u8 {
        let message = self.meetings.close(number);
        let lane = &self.lanes[number % COMPONENTS];
        match message {
            None | Some(NO_MESSAGE) => lane.location,
            Some(message) => {
                self.list[lane.row % PASSAGES].message = message;
                let edge = self.table.component(number).edge(lane.edge);
                edge.target(self.bytes, message)
            }
        }
    }

    /// The windows still open at the horizon meet too, as if they closed in
    /// the order of their ends.
    fn finish(&mut self) {
        for _ in 0..self.table.count {
            let (_, number) = self.first_end();
            self.ends[number] = u64::MAX;
            if let Some(message) = self.meetings.close(number) {
                let row = self.lanes[number].row;
                self.list[row % PASSAGES].message = message;
            }
        }
    }
}

/// The clocks after so many ticks: "masked clocks become 0 and the others have
/// grown".
#[inline]
pub(crate) fn grown(clocks: &Clocks, ticks: i32, mask: u8) -> Clocks {
    let kept = &KEPT[usize::from(mask) % KEPT.len()];
    let mut grown = *clocks;
    for (clock, kept) in grown.iter_mut().zip(kept) {
        *clock = (*clock + ticks) & kept;
    }
    grown
}

/// For each mask, all bits of the clocks that it leaves.
const KEPT: [Clocks; 1 << CLOCKS] = {
    let mut kept = [[-1; CLOCKS]; 1 << CLOCKS];
    let mut place = 0;
    while place < CLOCKS << CLOCKS {
        let (mask, clock) = (place / CLOCKS, place % CLOCKS);
        if mask >> clock & 1 != 0 {
            kept[mask][clock] = 0;
        }
        place += 1;
    }
    kept
};
