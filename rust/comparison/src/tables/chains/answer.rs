//! What has to be said of a chain at a spread, from its windows alone: no table is
//! read and no schedule made.

use super::{Chain, Work};
use crate::readers::{refused, TOO_WIDE};
use timed_network::{Verdict, MAX_SPREAD};

/// A window that is in the schedule.
#[derive(Clone, Copy)]
struct Stay {
    entry: u32,
    component: u8,
    ready: u32,
    end: u32,
    work: Work,
}

impl Stay {
    fn sends(&self) -> Option<u8> {
        match self.work {
            Work::Send(channel) => Some(channel),
            _ => None,
        }
    }

    fn listens(&self) -> Option<u8> {
        match self.work {
            Work::Listen(channel) => Some(channel),
            _ => None,
        }
    }

    /// Whether two windows of two components are at most so many ticks apart.
    fn is_near(&self, other: &Stay, spread: u32) -> bool {
        let [first, second] = match self.ready <= other.ready {
            true => [self, other],
            false => [other, self],
        };
        let apart = i64::from(second.ready) - i64::from(first.end);
        self.component != other.component && apart <= i64::from(spread)
    }
}

impl Chain {
    /// The verdict on its table at a spread.
    pub fn answer(&self, spread: u32) -> Verdict {
        if spread > MAX_SPREAD {
            return refused(TOO_WIDE, 255);
        }
        let stays = self.stays();
        let counts = |stay: &&Stay| stay.sends().is_some() && stay.ready < self.horizon;
        let sends: Vec<&Stay> = stays.iter().filter(counts).collect();
        let collision = self.collision(&sends, spread);
        let unheard = || sends.iter().find_map(|send| unheard(&stays, send, spread));
        let crowded = || stays.iter().find(|stay| is_crowded(&sends, stay, spread));
        match collision.or_else(unheard) {
            Some((number, component)) => refused(number, component),
            None => match crowded() {
                Some(stay) => refused(12, stay.component),
                None => Verdict::Accepted,
            },
        }
    }

    /// The windows that are opened before the horizon, in the order of opening:
    /// each one when the window before it ends, lower components first.
    fn stays(&self) -> Vec<Stay> {
        let mut stays = Vec::new();
        for (component, own) in (0..).zip(&self.windows) {
            let mut entry = 0;
            for window in own {
                if entry > 0 && entry >= self.horizon {
                    break;
                }
                stays.push(Stay {
                    entry,
                    component,
                    ready: window.ready,
                    end: window.end,
                    work: window.work,
                });
                entry = window.end;
            }
        }
        stays.sort_by_key(|stay| (stay.entry, stay.component));
        stays
    }

    fn band(&self, channel: u8) -> u8 {
        self.bands.get(usize::from(channel)).copied().unwrap_or(0)
    }

    /// 10, and the component of the first send that is near to another on its band.
    fn collision(&self, sends: &[&Stay], spread: u32) -> Option<(u8, u8)> {
        let band = |stay: &Stay| stay.sends().map(|channel| self.band(channel));
        let disturbed = |send: &&&Stay| {
            let disturbs = |other: &&Stay| band(other) == band(send) && send.is_near(other, spread);
            sends.iter().any(disturbs)
        };
        let first = sends.iter().find(disturbed)?;
        Some((10, first.component))
    }
}

/// What is wrong with the hearing of a send, if something is.
fn unheard(stays: &[Stay], send: &Stay, spread: u32) -> Option<(u8, u8)> {
    let hears = |stay: &&Stay| stay.listens() == send.sends() && send.is_near(stay, spread);
    let heard: Vec<&Stay> = stays.iter().filter(hears).collect();
    let number = match heard[..] {
        [] => 11,
        [one] if one.ready + spread >= send.ready => 16,
        [one] if one.end <= send.end + spread => 17,
        [_] => return None,
        _ => 15,
    };
    Some((number, send.component))
}

/// Whether a listener hears two sends or more.
fn is_crowded(sends: &[&Stay], stay: &Stay, spread: u32) -> bool {
    let heard = |send: &&&Stay| stay.listens() == send.sends() && stay.is_near(send, spread);
    stay.listens().is_some() && sends.iter().filter(heard).count() > 1
}
