//! Checks 10 to 12 at a spread, written plainly over the windows of a schedule,
//! right or with one fault.

use comparison::readers::refused;
use reference::checks::scheduled_within;
use reference::schedule::{schedule, Passage};
use reference::table::{read_table, Action, Refusal, Table};
use timed_network::{Verdict, MAX_SPREAD};

/// What may be wrong.
#[derive(Clone, Copy, Debug, PartialEq, Eq)]
pub enum Fault {
    None,
    /// A spread of 1,001 is taken.
    OneMore,
    /// A spread of 1,000 is not.
    OneLess,
    /// 19 before 1 to 3.
    BeforeTheHeader,
    /// 19 after 4 to 6.
    AfterReading,
    /// Windows closer than the spread count, those at it do not.
    CloserThanTheSpread,
    /// Only windows behind the other one are looked for at the spread.
    OnlyBehind,
    /// Sends meet only if they share a tick.
    SendsTogether,
    /// Listeners count only if they share a tick.
    ListenersTogether,
    /// The listener may start just the spread earlier.
    StartNotStrict,
    /// It may end just the spread later.
    EndNotStrict,
    /// It has to start one tick earlier, whatever the spread.
    StartWithoutSpread,
    /// It has to end one tick later, whatever the spread.
    EndWithoutSpread,
    /// The end is looked at before the start.
    EndBeforeStart,
    /// The first of several listeners decides.
    FirstDecides,
    /// Sends on other bands disturb too.
    BandsIgnored,
    /// Sends from the horizon on count.
    PastTheHorizon,
    /// Listeners from the horizon on do not count.
    ListenersToTheHorizon,
    /// Windows of the sender's own component count.
    OwnWindows,
    /// Two windows of one listener count as one.
    OneComponentOnce,
    /// 12 is not asked.
    NeverCrowded,
}

/// The verdict on a table at a spread, with this fault.
pub fn check(table: &[u8], spread: u32, fault: Fault) -> Verdict {
    let answer = read(table, spread, fault).and_then(|(table, passages)| {
        let plain = Plain {
            table: &table,
            passages: &passages,
            spread,
            fault,
        };
        match plain.number() {
            Some((number, component)) => Err(Refusal { number, component }),
            None => Ok(()),
        }
    });
    match answer {
        Ok(()) => Verdict::Accepted,
        Err(refusal) => refused(refusal.number, refusal.component),
    }
}

/// Checks 1 to 9 and 19.
fn read(table: &[u8], spread: u32, fault: Fault) -> Result<(Table, Vec<Passage>), Refusal> {
    let wide = Refusal {
        number: 19,
        component: 255,
    };
    match fault {
        Fault::OneMore if spread == MAX_SPREAD + 1 => scheduled_within(table, 0),
        Fault::OneLess if spread == MAX_SPREAD => scheduled_within(table, spread + 1),
        Fault::BeforeTheHeader if spread > MAX_SPREAD => Err(wide),
        Fault::AfterReading if spread > MAX_SPREAD => {
            let table = read_table(table)?;
            schedule(&table)?;
            Err(wide)
        }
        _ => scheduled_within(table, spread),
    }
}

struct Plain<'a> {
    table: &'a Table,
    passages: &'a [Passage],
    spread: u32,
    fault: Fault,
}

impl Plain<'_> {
    fn has(&self, fault: Fault) -> bool {
        self.fault == fault
    }

    fn number(&self) -> Option<(u8, u8)> {
        let sends: Vec<&Passage> = self.passages.iter().filter(|p| self.counts(p)).collect();
        let collision = sends.iter().find(|send| self.collides(&sends, send));
        let unheard = sends.iter().find_map(|send| self.unheard(send));
        let crowded = |p: &&Passage| {
            let heard = sends.iter().filter(|send| self.hears(p, send, self.spread));
            heard.count() > 1 && !self.has(Fault::NeverCrowded)
        };
        let crowded = self.passages.iter().find(crowded);
        let collision = collision.map(|send| (10, send.component));
        collision
            .or(unheard)
            .or(crowded.map(|receive| (12, receive.component)))
    }

    fn channel(&self, p: &Passage) -> Option<u8> {
        match p.edge_in(self.table).action {
            Action::Send(channel) => Some(channel),
            _ => None,
        }
    }

    /// A send that counts.
    fn counts(&self, p: &Passage) -> bool {
        let before = p.ready < u32::from(self.table.horizon);
        self.channel(p).is_some() && (before || self.has(Fault::PastTheHorizon))
    }

    fn collides(&self, sends: &[&Passage], send: &Passage) -> bool {
        let spread = match self.has(Fault::SendsTogether) {
            true => 0,
            false => self.spread,
        };
        let band = |p: &Passage| self.channel(p).map(|channel| self.table.band(channel));
        sends.iter().any(|other| {
            other.component != send.component
                && self.near(other, send, spread)
                && (band(other) == band(send) || self.has(Fault::BandsIgnored))
        })
    }

    fn near(&self, p: &Passage, q: &Passage, spread: u32) -> bool {
        let (first, second) = if p.ready <= q.ready { (p, q) } else { (q, p) };
        let apart = second.ready.saturating_sub(first.end);
        match self.fault {
            Fault::CloserThanTheSpread => apart < spread.max(1),
            Fault::OnlyBehind if p.ready <= q.ready => apart == 0,
            _ => apart <= spread,
        }
    }

    fn hears(&self, p: &Passage, send: &Passage, spread: u32) -> bool {
        let own = p.component == send.component && !self.has(Fault::OwnWindows);
        let late = self.has(Fault::ListenersToTheHorizon);
        let late = late && p.ready >= u32::from(self.table.horizon);
        let named = |channel| p.edge_in(self.table).listens_to(channel);
        !own && !late && self.near(p, send, spread) && self.channel(send).is_some_and(named)
    }

    fn unheard(&self, send: &Passage) -> Option<(u8, u8)> {
        let spread = match self.has(Fault::ListenersTogether) {
            true => 0,
            false => self.spread,
        };
        let listeners = self.passages.iter();
        let mut heard: Vec<&Passage> = listeners.filter(|p| self.hears(p, send, spread)).collect();
        if self.has(Fault::FirstDecides) {
            heard.truncate(1);
        }
        if self.has(Fault::OneComponentOnce) {
            heard.dedup_by_key(|p| p.component);
        }
        let number = match heard[..] {
            [] => 11,
            [one] => self.margins(one, send)?,
            _ => 15,
        };
        Some((number, send.component))
    }

    /// What is wrong with the one listener.
    fn margins(&self, one: &Passage, send: &Passage) -> Option<u8> {
        let margin = |without, not_strict| {
            let spread = if self.has(without) { 0 } else { self.spread };
            spread + u32::from(!self.has(not_strict) || spread == 0)
        };
        let before = margin(Fault::StartWithoutSpread, Fault::StartNotStrict);
        let after = margin(Fault::EndWithoutSpread, Fault::EndNotStrict);
        let late = one.ready + before > send.ready;
        let soon = send.end + after > one.end;
        match [late, soon] {
            [true, true] if self.has(Fault::EndBeforeStart) => Some(17),
            [true, _] => Some(16),
            [_, true] => Some(17),
            _ => None,
        }
    }
}
