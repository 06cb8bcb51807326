//! The message of a receive, and checks 10 to 12, each over all pairs.

use super::{verdict, Fault, Passage};
use reference::table::*;
use timed_network::Verdict;

/// The message of a passage, looked for among the passages that there are.
pub fn message(table: &Table, list: &[Passage], index: usize, fault: Fault) -> Option<u8> {
    let own = &list[index];
    let Action::Receive(_) = own.edge(table).action else {
        return own.message;
    };
    let horizon = u32::from(table.horizon);
    let heard = list.iter().enumerate().filter(|(_, send)| {
        let starts = match fault {
            Fault::MessageStartsTogether => own.ready <= send.ready,
            _ => own.ready < send.ready,
        };
        let ends = match fault {
            Fault::MessageEndsTogether => send.end <= own.end,
            _ => send.end < own.end,
        };
        let before = match fault {
            Fault::MessageFromHorizonOn => true,
            Fault::MessageAtHorizon => send.ready <= horizon,
            _ => send.ready < horizon,
        };
        send.component != own.component && names(table, own, send) && starts && ends && before
    });
    let taken = heard.min_by_key(|(place, send)| match fault {
        Fault::MessageTieToHighest => (send.end, 8 - send.component),
        Fault::MessageTieToFirstOpened => (send.end, *place),
        Fault::MessageEndingLast => (u32::MAX - send.end, send.component),
        _ => (send.end, send.component),
    });
    taken.and_then(|(_, send)| send.message)
}

/// Whether one is a receive that names the channel of the other, a send.
fn names(table: &Table, receive: &Passage, send: &Passage) -> bool {
    match send.edge(table).action {
        Action::Send(channel) => receive.edge(table).listens_to(channel),
        _ => false,
    }
}

/// The channel of a send.
fn channel(table: &Table, send: &Passage) -> Option<u8> {
    match send.edge(table).action {
        Action::Send(channel) => Some(channel),
        _ => None,
    }
}

/// The band of a send's channel.
fn band(table: &Table, send: &Passage) -> Option<u8> {
    let band = |channel| table.bands.get(usize::from(channel)).copied();
    channel(table, send).map(|channel| band(channel).unwrap_or(0))
}

/// Whether one is a receive that names a channel on the band of the other.
fn names_band(table: &Table, receive: &Passage, send: &Passage) -> bool {
    let same = |pair: &Pair| Some(table.band(pair.channel)) == band(table, send);
    matches!(receive.edge(table).action, Action::Receive(pairs) if pairs.iter().any(same))
}

fn share(one: &Passage, other: &Passage) -> bool {
    one.ready <= other.end && other.ready <= one.end
}

/// The same without windows that have one tick in common.
fn overlap(one: &Passage, other: &Passage) -> bool {
    one.ready < other.end && other.ready < one.end
}

/// Checks 10 to 12.
pub fn check_messages(table: &Table, list: &[Passage], fault: Fault) -> Result<(), Verdict> {
    let all = All { table, list, fault };
    let numbers = match fault {
        Fault::TwelveBeforeEleven => [10, 12, 11],
        Fault::ElevenBeforeTen => [11, 10, 12],
        _ => [10, 11, 12],
    };
    for number in numbers {
        let at_fault = |own: &Passage| match number {
            10 => all.collides(own).then_some(10),
            11 if all.is_send(own) => all.unheard(own),
            11 => None,
            _ => all.hears_two(own).then_some(12),
        };
        let found = |own: &Passage| Some((at_fault(own)?, own.component));
        let first = match fault {
            Fault::LastAtFaultNamed => list.iter().rev().find_map(found),
            _ => list.iter().find_map(found),
        };
        if let Some((number, component)) = first {
            return Err(verdict(number, component));
        }
    }
    Ok(())
}

struct All<'a> {
    table: &'a Table,
    list: &'a [Passage],
    fault: Fault,
}

impl All<'_> {
    /// A send with ready < H.
    fn is_send(&self, own: &Passage) -> bool {
        let sends = matches!(own.edge(self.table).action, Action::Send(_));
        let horizon = u32::from(self.table.horizon);
        let counts = match self.fault {
            Fault::SendsFromHorizonOnCount => true,
            Fault::SendsAtHorizonCount => own.ready <= horizon,
            Fault::SendsEndingLaterForgotten => own.end < horizon,
            _ => own.ready < horizon,
        };
        sends && counts
    }

    /// Whether two windows meet; a passage entered when the other one ends
    /// may be missed.
    fn meet(&self, one: &Passage, other: &Passage) -> bool {
        let missed = one.entry == other.end || other.entry == one.end;
        share(one, other) && !(missed && self.fault == Fault::EntryTickMissed)
    }

    /// "Check 10 now concerns sends on one band only."
    fn disturb(&self, one: &Passage, other: &Passage) -> bool {
        let table = self.table;
        match self.fault {
            Fault::BandsIgnored => true,
            Fault::ChannelsForBands => channel(table, one) == channel(table, other),
            _ => band(table, one) == band(table, other),
        }
    }

    fn collides(&self, own: &Passage) -> bool {
        let others = self.list.iter().filter(|other| {
            let apart = other.component != own.component;
            let itself = std::ptr::eq(*other, own);
            apart || self.fault == Fault::OwnSendsCollide && !itself
        });
        let mut sends = others.filter(|other| self.is_send(other) && self.disturb(own, other));
        self.is_send(own)
            && sends.any(|other| match self.fault {
                Fault::TouchingSendsAllowed => overlap(own, other),
                _ => self.meet(own, other),
            })
    }

    /// The number of the fault in how a send is heard, if it has one.
    fn unheard(&self, own: &Passage) -> Option<u8> {
        let listens = |other: &&Passage| self.listens(other, own);
        let mut listeners: Vec<&Passage> = self.list.iter().filter(listens).collect();
        if self.fault == Fault::ComponentsForWindows {
            listeners.dedup_by_key(|listener| listener.component);
        }
        let number = match (self.fault, &listeners[..]) {
            (Fault::SecondListenerAllowed, several) => {
                let lies: Vec<u8> = several.iter().map(|one| self.alone(own, one)).collect();
                lies.iter().copied().min().unwrap_or(11)
            }
            (Fault::FirstOfSeveralDecides, [one, ..]) => self.alone(own, one),
            (_, []) => 11,
            (_, [one]) => self.alone(own, one),
            _ => 15,
        };
        let number = match (self.fault, number) {
            (Fault::ElevenForAll, 15..=17) => 11,
            (Fault::LateForEarly, 16) => 17,
            (Fault::LateForEarly, 17) => 16,
            (Fault::SeveralForNobody, 11) => 15,
            (Fault::EarlyForNobody, 11) => 17,
            _ => number,
        };
        (number > 0).then_some(number)
    }

    /// How a listener lies to a send, if it is the only one: 16 if it starts
    /// too late, 17 if it starts early enough but ends too soon, else 0.
    fn alone(&self, own: &Passage, listener: &Passage) -> u8 {
        let starts = match self.fault {
            Fault::ListenerStartsTogether => listener.ready <= own.ready,
            _ => listener.ready < own.ready,
        };
        let ends = match self.fault {
            Fault::ListenerEndsTogether => own.end <= listener.end,
            _ => own.end < listener.end,
        };
        match (starts, ends) {
            (true, true) => 0,
            (true, false) => 17,
            (false, false) if self.fault == Fault::EndBeforeStart => 17,
            (false, _) => 16,
        }
    }

    /// Whether a receive window counts for a send.
    fn listens(&self, other: &Passage, send: &Passage) -> bool {
        let edge = other.edge(self.table);
        let named = match self.fault {
            Fault::OtherChannelHeard => matches!(edge.action, Action::Receive(_)),
            Fault::ListenersByBand => names_band(self.table, other, send),
            _ => names(self.table, other, send),
        };
        let apart = other.component != send.component || self.fault == Fault::OwnListenerCounts;
        let meets = match self.fault {
            Fault::TouchingListenerAllowed => overlap(other, send),
            _ => self.meet(other, send),
        };
        let horizon = u32::from(self.table.horizon);
        let forgotten =
            self.fault == Fault::ListenersFromHorizonOnForgotten && other.ready >= horizon;
        named && apart && meets && !forgotten
    }

    fn hears_two(&self, own: &Passage) -> bool {
        let heard = self.list.iter().filter(|send| {
            let apart = send.component != own.component || self.fault == Fault::OwnSendHeard;
            self.is_send(send) && apart && names(self.table, own, send) && self.meet(own, send)
        });
        let heard: Vec<&Passage> = heard.collect();
        if self.fault == Fault::TwoSendsOnTwoBandsHeard {
            let one = |send: &&&Passage| self.disturb(send, heard[0]);
            return heard.iter().filter(one).count() > 1;
        }
        let mut components: Vec<usize> = heard.iter().map(|send| send.component).collect();
        match self.fault {
            Fault::TwoSendsForOneListener => return false,
            Fault::TwoSendsOfOneComponent => {
                components.sort();
                components.dedup();
            }
            _ => {}
        }
        components.len() > 1
    }
}
