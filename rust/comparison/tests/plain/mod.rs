//! A third implementation of checks 7 to 12 and of the schedule, as short as
//! can be and without any haste, with places at which it can be made wrong.

mod messages;
mod opening;

use messages::check_messages;
use opening::opened;
use reference::table::*;
use timed_network::{Call, Verdict, FIELDS, NO_MESSAGE};

/// What is wrong with it.
#[derive(Clone, Copy, Debug, PartialEq, Eq)]
pub enum Fault {
    None,
    // The choice of an edge.
    TieToHighestEdge,
    LastReadyTaken,
    WindowOfOneTick,
    BudgetsIgnored,
    BudgetOneTickMore,
    BudgetOneTickLess,
    BudgetFromEntry,
    BudgetOfFirstEdge,
    BudgetOfTakenAlone,
    HighsIgnored,
    FirstBoundOnly,
    DataIgnored,
    DataUnsigned,
    // What a passage leaves behind.
    ClocksGrowByWindow,
    AllClocksReset,
    NoClockReset,
    UpdatesFromTheEnd,
    OverflowWraps,
    OverflowFoundAtClosing,
    TicksOf16Bits,
    // The order of passages.
    ClosesAtHorizon,
    CloseTieToHighest,
    OnePassageMore,
    OnePassageLess,
    SevenAfterEight,
    SevenAfterNine,
    // Messages.
    MessageStartsTogether,
    MessageEndsTogether,
    MessageFromHorizonOn,
    MessageAtHorizon,
    MessageTieToHighest,
    MessageTieToFirstOpened,
    MessageEndingLast,
    MessageOfOpenForgotten,
    TimeoutToFirstPair,
    // Checks 10 to 12.
    BandsIgnored,
    ChannelsForBands,
    TouchingSendsAllowed,
    OwnSendsCollide,
    SendsFromHorizonOnCount,
    SendsAtHorizonCount,
    SendsEndingLaterForgotten,
    ListenerStartsTogether,
    ListenerEndsTogether,
    SecondListenerAllowed,
    TouchingListenerAllowed,
    ListenersFromHorizonOnForgotten,
    OwnListenerCounts,
    OtherChannelHeard,
    ListenersByBand,
    TwoSendsOnTwoBandsHeard,
    TwoSendsForOneListener,
    TwoSendsOfOneComponent,
    OwnSendHeard,
    EntryTickMissed,
    TwelveBeforeEleven,
    ElevenBeforeTen,
    LastAtFaultNamed,
    // The numbers of a send that is not heard well.
    ComponentsForWindows,
    FirstOfSeveralDecides,
    ElevenForAll,
    LateForEarly,
    SeveralForNobody,
    EarlyForNobody,
    EndBeforeStart,
    // The list.
    MessageWrittenAs0,
    PassagesByEnd,
}

/// A passage with what the next one needs.
#[derive(Clone, Copy)]
pub struct Passage {
    pub component: usize,
    pub edge: usize,
    pub location: u8,
    pub entry: u32,
    pub ready: u32,
    pub end: u32,
    pub message: Option<u8>,
    pub clocks: [u32; 4],
    pub variables: [i32; 4],
}

impl Passage {
    pub fn edge<'a>(&self, table: &'a Table) -> &'a Edge {
        &table.components[self.component].edges[self.edge]
    }
}

fn verdict(number: u8, component: usize) -> Verdict {
    let component = component as u8;
    Verdict::Refused { number, component }
}

/// The passages of an accepted table.
fn passages(bytes: &[u8], fault: Fault) -> Result<Vec<Passage>, Verdict> {
    let table =
        read_table(bytes).map_err(|refusal| verdict(refusal.number, refusal.component.into()))?;
    let list = schedule(&table, fault)?;
    check_messages(&table, &list, fault)?;
    Ok(list)
}

fn schedule(table: &Table, fault: Fault) -> Result<Vec<Passage>, Verdict> {
    let mut list: Vec<Passage> = Vec::new();
    for component in 0..table.components.len() {
        let initial = table.components[component].initial;
        let entered = (component, initial, 0, [0; 4], [0; 4]);
        list.push(opened(table, entered, list.len(), fault)?);
    }
    let mut open: Vec<usize> = (0..list.len()).collect();
    while let Some(component) = next_to_close(table, &list, &open, fault) {
        let index = open[component];
        list[index].message = messages::message(table, &list, index, fault);
        open[component] = list.len();
        let entered = opening::closed(table, &list[index], fault)?;
        list.push(opened(table, entered, list.len(), fault)?);
    }
    for index in open {
        let receives = matches!(list[index].edge(table).action, Action::Receive(_));
        if !receives || fault != Fault::MessageOfOpenForgotten {
            list[index].message = messages::message(table, &list, index, fault);
        }
    }
    Ok(list)
}

fn next_to_close(table: &Table, list: &[Passage], open: &[usize], fault: Fault) -> Option<usize> {
    let end = |component: &usize| list[open[*component]].end;
    let components = 0..open.len();
    let first = match fault {
        Fault::CloseTieToHighest => components.rev().min_by_key(end)?,
        _ => components.min_by_key(end)?,
    };
    let horizon = u32::from(table.horizon) + u32::from(fault == Fault::ClosesAtHorizon);
    (end(&first) < horizon).then_some(first)
}

/// The call `check`.
pub fn check(bytes: &[u8], fault: Fault) -> Verdict {
    match passages(bytes, fault) {
        Ok(_) => Verdict::Accepted,
        Err(refused) => refused,
    }
}

/// The call `schedule`.
pub fn write(bytes: &[u8], list: &mut [u32], fault: Fault) -> Call {
    let refused = |verdict| Call { verdict, size: 0 };
    let mut passages = match passages(bytes, fault) {
        Ok(passages) => passages,
        Err(verdict) => return refused(verdict),
    };
    if list.len() < FIELDS * passages.len() {
        return refused(verdict(13, 255));
    }
    if fault == Fault::PassagesByEnd {
        passages.sort_by_key(|passage| (passage.end, passage.component));
    }
    for (place, passage) in list.chunks_exact_mut(FIELDS).zip(&passages) {
        let no_message = match fault {
            Fault::MessageWrittenAs0 => 0,
            _ => NO_MESSAGE,
        };
        place.copy_from_slice(&[
            passage.component as u32,
            passage.edge as u32,
            passage.location.into(),
            passage.entry,
            passage.ready,
            passage.end,
            passage.message.map_or(no_message, u32::from),
        ]);
    }
    Call {
        verdict: Verdict::Accepted,
        size: passages.len(),
    }
}
