//! Messages and checks 10 to 12, noted while passages open and close.
//!
//! Two windows that share a tick are looked at once: when the first of them
//! closes, if the other is open then, or when the second opens at the tick at
//! which the first has closed. Passages close in the order of their ends, on
//! a tie the lowest component first, so the first send that lies within an
//! open receive window is the message of that receive.

use crate::table::{Bits, COMPONENTS};
use crate::{Refusal, NO_MESSAGE};

/// What a send or a receive has met so far. Of a send: no listener yet.
const UNHEARD: u8 = 0;
/// Of a send: one listener, which starts earlier and ends later.
const HEARD: u8 = 1;
/// Of a send: more than one listener. Of a receive: more than one send.
const TOO_MUCH: u8 = 2;
/// Of a send: one listener, which does not start earlier.
const LATE: u8 = 3;
/// Of a send: one listener, which starts earlier and does not end later.
const SOON: u8 = 4;
/// The refusal of a send that has met so much, or 0.
const REFUSALS: [u8; 5] = [11, 0, 15, 16, 17];

/// No passage is at fault.
const NOWHERE: u32 = u32::MAX;

/// The window of a send with ready < H or of a receive.
#[derive(Clone, Copy)]
pub(crate) struct Window {
    pub(crate) sends: bool,
    /// The channel of the send or the channels of the receive, as bits.
    pub(crate) channels: u16,
    /// The band of the send.
    pub(crate) band: u8,
    /// Its place in the schedule.
    pub(crate) row: u32,
    pub(crate) ready: u32,
    pub(crate) end: u32,
    /// What it has met.
    met: u8,
    /// The message of a receive.
    message: u8,
}

impl Window {
    /// A window that has met nothing.
    #[inline]
    pub(crate) fn new(
        sends: bool,
        channels: u16,
        band: u8,
        row: usize,
        ready: u32,
        end: u32,
    ) -> Window {
        Window {
            sends,
            channels,
            band,
            row: row as u32,
            ready,
            end,
            met: UNHEARD,
            message: NO_MESSAGE,
        }
    }
}

/// The windows that are open, those closed last, and the first passages at
/// fault.
pub(crate) struct Meetings {
    open: [Window; COMPONENTS],
    closed: [Window; COMPONENTS],
    /// The components with an open send, as bits.
    senders: u32,
    /// The components with an open receive, as bits.
    listeners: u32,
    /// For 10, 11 and 12 the place of the first passage at fault, times 8,
    /// with its component.
    first: [u32; 3],
    /// What the first send that is not heard well has met.
    met: u8,
}

impl Meetings {
    /// No window was opened yet.
    pub(crate) fn new() -> Meetings {
        let none = Window::new(false, 0, 0, 0, 0, u32::MAX);
        Meetings {
            open: [none; COMPONENTS],
            closed: [none; COMPONENTS],
            senders: 0,
            listeners: 0,
            first: [NOWHERE; 3],
            met: UNHEARD,
        }
    }

    /// A window of a component opens; those that closed at its first tick
    /// meet it.
    #[inline]
    pub(crate) fn open(&mut self, number: usize, entry: u32, window: Window) {
        let bit = 1 << number;
        if window.sends {
            self.senders |= bit;
        } else {
            self.listeners |= bit;
        }
        self.open[number % COMPONENTS] = window;
        if window.ready == entry {
            self.touch(number, entry);
        }
    }

    /// A window that opens at a tick meets those of other components that
    /// have closed at it. None of them lies within the other.
    fn touch(&mut self, number: usize, tick: u32) {
        let mut own = self.open[number % COMPONENTS];
        for other in 0..COMPONENTS {
            let mut closed = self.closed[other];
            if closed.end != tick || other == number {
                continue;
            }
            match (closed.sends, own.sends) {
                (true, true) if closed.band == own.band => self.note(10, closed.row, other),
                (true, false) if closed.channels & own.channels != 0 => {
                    listen(&mut closed, LATE);
                    self.note_unheard(&closed, other);
                    self.closed[other] = closed;
                    self.count_send(&mut own, number);
                }
                (false, true) if closed.channels & own.channels != 0 => {
                    listen(&mut own, SOON);
                    self.count_send(&mut closed, other);
                    self.closed[other] = closed;
                }
                _ => {}
            }
        }
        self.open[number % COMPONENTS] = own;
    }

    /// The open window of a component closes, if it has one; the message of
    /// a receive.
    #[inline]
    pub(crate) fn close(&mut self, number: usize) -> Option<u8> {
        let bit = 1 << number;
        if self.senders & bit != 0 {
            self.senders &= !bit;
            self.close_send(number);
        } else if self.listeners & bit != 0 {
            self.listeners &= !bit;
            return Some(self.close_receive(number));
        }
        None
    }

    /// A send closes: it meets the open sends on its band and the listeners to
    /// its channel.
    fn close_send(&mut self, number: usize) {
        let mut send = self.open[number % COMPONENTS];
        for other in Bits(self.senders) {
            let window = &self.open[other % COMPONENTS];
            if window.ready <= send.end && window.band == send.band {
                let first = window.row < send.row;
                let (row, component) = match first {
                    true => (window.row, other),
                    false => (send.row, number),
                };
                self.note(10, row, component);
            }
        }
        for other in Bits(self.listeners) {
            let mut receive = self.open[other % COMPONENTS];
            if receive.channels & send.channels != 0 && receive.ready <= send.end {
                self.count_send(&mut receive, other);
                hear(&mut send, &mut receive);
                self.open[other % COMPONENTS] = receive;
            }
        }
        if send.met != HEARD {
            self.note_unheard(&send, number);
        }
        self.closed[number % COMPONENTS] = send;
    }

    /// A receive closes: it meets the open sends on its channels, none of
    /// which lies within it.
    fn close_receive(&mut self, number: usize) -> u8 {
        let mut receive = self.open[number % COMPONENTS];
        for other in Bits(self.senders) {
            let send = &mut self.open[other % COMPONENTS];
            if receive.channels & send.channels != 0 && send.ready <= receive.end {
                let late = receive.ready >= send.ready;
                listen(send, if late { LATE } else { SOON });
                self.count_send(&mut receive, number);
            }
        }
        self.closed[number % COMPONENTS] = receive;
        receive.message
    }

    /// One send more for a receive; the second is one too many.
    #[inline]
    fn count_send(&mut self, receive: &mut Window, number: usize) {
        receive.met = (receive.met + 1).min(TOO_MUCH);
        if receive.met == TOO_MUCH {
            self.note(12, receive.row, number);
        }
    }

    /// Notes a passage at fault.
    #[inline]
    fn note(&mut self, check: usize, row: u32, number: usize) {
        let first = &mut self.first[check - 10];
        *first = (*first).min(row << 3 | number as u32);
    }

    /// Notes a closed send that is not heard well, or that has met more.
    fn note_unheard(&mut self, send: &Window, number: usize) {
        self.note(11, send.row, number);
        if self.first[1] >> 3 == send.row {
            self.met = send.met;
        }
    }

    /// Checks 10 to 12, after all passages are closed. In the place of 11
    /// stands what the send has met.
    pub(crate) fn verdict(&self) -> Result<(), Refusal> {
        let unheard = REFUSALS[usize::from(self.met) % REFUSALS.len()];
        for (number, first) in [10, unheard, 12].into_iter().zip(self.first) {
            if first != NOWHERE {
                return Err(Refusal::of(number, first as usize % COMPONENTS));
            }
        }
        Ok(())
    }
}

/// A receive window shares a tick with a send that closes; where it starts
/// earlier and ends later, the send is its message if it is the first.
#[inline]
fn hear(send: &mut Window, receive: &mut Window) {
    let met = match (receive.ready < send.ready, send.end < receive.end) {
        (true, true) => HEARD,
        (true, false) => SOON,
        (false, _) => LATE,
    };
    listen(send, met);
    if met == HEARD && receive.message == NO_MESSAGE {
        receive.message = send.channels.trailing_zeros() as u8;
    }
}

/// One listener more for a send, which alone would be met so.
#[inline]
fn listen(send: &mut Window, alone: u8) {
    send.met = match send.met {
        UNHEARD => alone,
        _ => TOO_MUCH,
    };
}
