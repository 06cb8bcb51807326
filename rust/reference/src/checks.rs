//! Checks 10 to 12 over the finished schedule, and the verdict on a table,
//! with the spread of document 02's wish 6.

use crate::schedule::{schedule, Passage};
use crate::table::*;

/// "A G above 1,000 is refused with 19 after 3".
pub const MAX_SPREAD: u32 = 1000;

/// Checks 1 to 12: "A table is accepted when 1 to 12 are passed". "G = 0 is the
/// old check."
pub fn verdict(bytes: &[u8]) -> Result<(Table, Vec<Passage>), Refusal> {
    verdict_within(bytes, 0)
}

/// "The check now takes a bound G on the spread": checks 1 to 3, then 19, then
/// 4 to 12.
pub fn verdict_within(bytes: &[u8], spread: u32) -> Result<(Table, Vec<Passage>), Refusal> {
    let (table, passages) = scheduled_within(bytes, spread)?;
    check_messages_within(&table, &passages, spread)?;
    Ok((table, passages))
}

/// Checks 1 to 3, then 19, then 4 to 9: a table and its schedule.
pub fn scheduled_within(bytes: &[u8], spread: u32) -> Result<(Table, Vec<Passage>), Refusal> {
    check_header(bytes)?;
    if spread > MAX_SPREAD {
        return Err(Refusal::whole(19));
    }
    let table = read_table(bytes)?;
    let passages = schedule(&table)?;
    Ok((table, passages))
}

/// The largest spread at which checks 10 to 12 are passed: one after the other
/// is tried, from 0 on. Nothing where they are not passed at 0.
pub fn largest_spread(table: &Table, passages: &[Passage]) -> Option<u32> {
    let passed = |spread: &u32| check_messages_within(table, passages, *spread).is_ok();
    (0..=MAX_SPREAD).take_while(passed).last()
}

/// Checks 10 to 12, each over the whole schedule before the next: "Then over
/// the schedule, for sends with ready < H". The refusal names the component
/// "of the first passage in schedule order at fault (a send for 10 and 11,
/// the receive for 12)". "In the place of 11, for the same passage", stands
/// the number of its fault (document 02, wish 3).
pub fn check_messages(table: &Table, passages: &[Passage]) -> Result<(), Refusal> {
    check_messages_within(table, passages, 0)
}

/// The same with a spread: "In checks 10 and 12, and for the listeners counted
/// in 11, windows closer than or equal to G count as sharing a tick; the
/// listener must start more than G earlier and end more than G later."
pub fn check_messages_within(
    table: &Table,
    passages: &[Passage],
    spread: u32,
) -> Result<(), Refusal> {
    match first_at_fault(table, passages, spread) {
        Some((index, number)) => Err(Refusal::new(number, passages[index].component)),
        None => Ok(()),
    }
}

/// The first passage at fault, as its place in the schedule, and the number of
/// the check.
fn first_at_fault(table: &Table, passages: &[Passage], spread: u32) -> Option<(usize, u8)> {
    let roles: Vec<Role> = passages.iter().map(|p| role(table, p)).collect();
    let notes = take_notes(passages, &roles, spread);
    let collides = |index: usize| notes[index].collides.then_some(10);
    let unheard = |index: usize| match roles[index] {
        Role::Send(_) => notes[index].hearing_fault(),
        _ => None,
    };
    let crowded = |index: usize| (notes[index].sends > 1).then_some(12);
    first(passages, collides)
        .or_else(|| first(passages, unheard))
        .or_else(|| first(passages, crowded))
}

/// The first place with a fault, and the fault's number.
fn first(passages: &[Passage], fault: impl Fn(usize) -> Option<u8>) -> Option<(usize, u8)> {
    (0..passages.len()).find_map(|index| Some((index, fault(index)?)))
}

/// Which windows met, where one of checks 10 to 12 is not passed: the passage at
/// fault, then in the order of the schedule the windows that it meets, of other
/// components and within the spread. For 10 those are sends on its band, for 11
/// (15 to 17) the receives that name its channel, for 12 the sends on its
/// channels; of the sends those with ready < H.
pub fn met_within<'a>(table: &Table, passages: &'a [Passage], spread: u32) -> Vec<&'a Passage> {
    let Some((index, number)) = first_at_fault(table, passages, spread) else {
        return Vec::new();
    };
    let own = &passages[index];
    let concerns = |other: &Passage| match (role(table, own), role(table, other)) {
        (Role::Send(one), Role::Send(other)) => number == 10 && one.band == other.band,
        (Role::Send(one), Role::Receive(channels)) => {
            number != 10 && channels >> one.channel & 1 == 1
        }
        (Role::Receive(channels), Role::Send(other)) => channels >> other.channel & 1 == 1,
        _ => false,
    };
    let met = |other: &&Passage| {
        other.component != own.component && own.lies_within(other, spread) && concerns(other)
    };
    let mut list = vec![own];
    list.extend(passages.iter().filter(met));
    list
}

/// What a passage does for checks 10 to 12.
#[derive(Clone, Copy)]
enum Role {
    /// A send with ready < H.
    Send(Sent),
    /// A receive, its channels as bits.
    Receive(u16),
    /// Anything else.
    Other,
}

/// Where a send is heard.
#[derive(Clone, Copy)]
struct Sent {
    channel: u8,
    band: u8,
}

fn role(table: &Table, passage: &Passage) -> Role {
    match &passage.edge_in(table).action {
        Action::Send(channel) if passage.ready < u32::from(table.horizon) => Role::Send(Sent {
            channel: *channel,
            band: table.band(*channel),
        }),
        Action::Receive(pairs) => {
            Role::Receive(pairs.iter().fold(0, |bits, pair| bits | 1 << pair.channel))
        }
        _ => Role::Other,
    }
}

/// What is noted of a passage: the first five of a send, the last of a
/// receive.
#[derive(Clone, Copy, Default)]
struct Note {
    /// It is near to a later send window of another component on its band.
    collides: bool,
    /// "For each send the components listening are noted as eight bits".
    listeners: u8,
    /// The number of their windows.
    windows: u32,
    /// Whether the last window noted starts more than G earlier.
    earlier: bool,
    /// Whether it ends more than G later.
    later: bool,
    /// The number of send windows of other components on its channels.
    sends: u32,
}

impl Note {
    /// "exactly one may be set, by one window", and that window must "start
    /// earlier and end later". Else the fault's number: "A send window that
    /// shares a tick with no receive window of another component naming its
    /// channel remains 11. Several are one fault", 15. "A single one that
    /// starts too late is another", 16. "A single one that starts early enough
    /// but ends too soon is the last", 17.
    fn hearing_fault(&self) -> Option<u8> {
        match self.windows {
            0 => Some(11),
            1 if !self.earlier => Some(16),
            1 if !self.later => Some(17),
            1 => None,
            _ => Some(15),
        }
    }

    /// Notes a receive window at its send.
    fn hear(&mut self, send: &Passage, receive: &Passage, spread: u32) {
        self.listeners |= 1 << receive.component;
        self.windows += 1;
        self.earlier = receive.ready + spread < send.ready;
        self.later = send.end + spread < receive.end;
    }
}

/// Tries each pair of windows that may be near. Entries never fall along the
/// list, so a later passage entered more than G after a window's end ends the
/// search.
fn take_notes(passages: &[Passage], roles: &[Role], spread: u32) -> Vec<Note> {
    let mut notes = vec![Note::default(); passages.len()];
    for (i, first) in passages.iter().enumerate() {
        if let Role::Other = roles[i] {
            continue;
        }
        for (j, second) in passages.iter().enumerate().skip(i + 1) {
            if second.entry > first.end + spread {
                break;
            }
            if first.component != second.component && first.lies_within(second, spread) {
                note_collision(roles, &mut notes, i, j);
                note_hearing(passages, roles, &mut notes, [i, j], spread);
            }
        }
    }
    notes
}

/// Notes two sends that disturb each other. Document 02, wish 2: "Check 10 now
/// concerns sends on one band only"; 11 and 12 ask for the channel, whatever its
/// band.
fn note_collision(roles: &[Role], notes: &mut [Note], i: usize, j: usize) {
    if let (Role::Send(one), Role::Send(other)) = (roles[i], roles[j]) {
        notes[i].collides |= one.band == other.band;
    }
}

/// Notes which of two near windows hears the other.
fn note_hearing(
    passages: &[Passage],
    roles: &[Role],
    notes: &mut [Note],
    [i, j]: [usize; 2],
    spread: u32,
) {
    for (send, receive) in [(i, j), (j, i)] {
        if let (Role::Send(sent), Role::Receive(channels)) = (roles[send], roles[receive]) {
            if channels >> sent.channel & 1 == 1 {
                notes[send].hear(&passages[send], &passages[receive], spread);
                notes[receive].sends += 1;
            }
        }
    }
}
