//! The opening of a passage, and what a closed one leaves behind.

use super::{verdict, Fault, Passage};
use reference::table::*;
use timed_network::Verdict;

/// Component, location, entry, clocks and variables.
pub type Entered = (usize, u8, u32, [u32; 4], [i32; 4]);

/// Opens a passage.
pub fn opened(
    table: &Table,
    entered: Entered,
    count: usize,
    fault: Fault,
) -> Result<Passage, Verdict> {
    let (component, location, entry, clocks, variables) = entered;
    let (edge, [ready, end]) =
        tried(table, entered, count, fault).map_err(|number| verdict(number, component))?;
    let tick = |delay: u32| match fault {
        Fault::TicksOf16Bits => (entry + delay) & 0xffff,
        _ => entry + delay,
    };
    let message = match table.components[component].edges[edge].action {
        Action::Send(channel) => Some(channel),
        _ => None,
    };
    Ok(Passage {
        component,
        edge,
        location,
        entry,
        ready: tick(ready),
        end: tick(end),
        message,
        clocks,
        variables,
    })
}

/// The edge taken and its window, or 7, 8, 9.
fn tried(
    table: &Table,
    entered: Entered,
    count: usize,
    fault: Fault,
) -> Result<(usize, [u32; 2]), u8> {
    let (component, _, _, _, variables) = entered;
    let most = match fault {
        Fault::OnePassageMore => 1025,
        Fault::OnePassageLess => 1023,
        _ => 1024,
    };
    let full = count >= most;
    if full && fault != Fault::SevenAfterEight && fault != Fault::SevenAfterNine {
        return Err(7);
    }
    let (edge, window) = taken(table, entered, fault).ok_or(8)?;
    if full && fault == Fault::SevenAfterEight {
        return Err(7);
    }
    let in_range = updated(&table.components[component].edges[edge], variables, fault).is_some();
    if !in_range && fault != Fault::OverflowFoundAtClosing {
        return Err(9);
    }
    match full {
        true => Err(7),
        false => Ok((edge, window)),
    }
}

/// The edge taken and its window, counted from the entry.
fn taken(table: &Table, entered: Entered, fault: Fault) -> Option<(usize, [u32; 2])> {
    let (component, location, _, clocks, variables) = entered;
    let own = &table.components[component];
    let mut best: Option<(usize, [u32; 2])> = None;
    for (number, edge) in own.edges.iter().enumerate() {
        let holds = fault == Fault::DataIgnored || data_holds(edge, variables, fault);
        if edge.source != location || !holds {
            continue;
        }
        let window = window(&own.locations[usize::from(location)], edge, clocks, fault);
        let budget = match fault {
            Fault::BudgetOfFirstEdge => own.edges[0].budget,
            _ => edge.budget,
        };
        let long_enough = |window: &[u32; 2]| has_time(window, budget.into(), fault);
        if let Some(window) = window.filter(long_enough) {
            let better = best.is_none_or(|(_, kept)| match fault {
                Fault::TieToHighestEdge => window[0] <= kept[0],
                Fault::LastReadyTaken => window[0] > kept[0],
                _ => window[0] < kept[0],
            });
            if better {
                best = Some((number, window));
            }
        }
    }
    match fault {
        Fault::BudgetOfTakenAlone => {
            best.filter(|(number, [ready, end])| end - ready >= own.edges[*number].budget.into())
        }
        _ => best,
    }
}

/// Whether a window has a tick's length and that of a budget.
fn has_time(&[ready, end]: &[u32; 2], budget: u32, fault: Fault) -> bool {
    let length = end - ready;
    let one_tick = fault == Fault::WindowOfOneTick;
    let enough = match fault {
        Fault::BudgetsIgnored | Fault::BudgetOfTakenAlone => true,
        Fault::BudgetOneTickMore => length > budget || budget == 0,
        Fault::BudgetOneTickLess => length + 1 >= budget,
        Fault::BudgetFromEntry => end >= budget,
        _ => length >= budget,
    };
    (length > 0 || one_tick) && enough
}

/// The first and the last tick at which everything holds, counted from the
/// entry.
fn window(location: &Location, edge: &Edge, clocks: [u32; 4], fault: Fault) -> Option<[u32; 2]> {
    let bounds = match fault {
        Fault::FirstBoundOnly => 1,
        _ => 4,
    };
    let reach = |clock: u8, bound: u16| i64::from(bound) - i64::from(clocks[usize::from(clock)]);
    let mut first = 0;
    let mut last = reach(location.clock, location.bound);
    for bound in edge.clock_bounds.iter().take(bounds) {
        first = first.max(reach(bound.clock, bound.low));
        if let (Some(high), true) = (bound.high, fault != Fault::HighsIgnored) {
            last = last.min(reach(bound.clock, high));
        }
    }
    (first <= last).then_some([first as u32, last as u32])
}

fn data_holds(edge: &Edge, variables: [i32; 4], fault: Fault) -> bool {
    let read = |number: i32| match fault {
        Fault::DataUnsigned => number & 0xffff,
        _ => number,
    };
    edge.data_bounds.iter().all(|bound| {
        let value = read(variables[usize::from(bound.variable)]);
        read(bound.low.into()) <= value && value <= read(bound.high.into())
    })
}

/// The variables after an edge's updates, if they stay in range.
fn updated(edge: &Edge, mut variables: [i32; 4], fault: Fault) -> Option<[i32; 4]> {
    let Action::Internal(updates) = &edge.action else {
        return Some(variables);
    };
    let mut updates: Vec<Update> = updates.iter().copied().collect();
    if fault == Fault::UpdatesFromTheEnd {
        updates.reverse();
    }
    for update in updates {
        let variable = &mut variables[usize::from(update.variable)];
        *variable = match update.operation {
            Operation::Set => update.number.into(),
            Operation::Add => *variable + i32::from(update.number),
        };
        if i16::try_from(*variable).is_err() {
            if fault != Fault::OverflowWraps {
                return None;
            }
            *variable = i32::from(*variable as i16);
        }
    }
    Some(variables)
}

/// What is entered when a passage closes.
pub fn closed(table: &Table, passage: &Passage, fault: Fault) -> Result<Entered, Verdict> {
    let edge = passage.edge(table);
    let Some(variables) = updated(edge, passage.variables, fault) else {
        return Err(verdict(9, passage.component));
    };
    let growth = match fault {
        Fault::ClocksGrowByWindow => passage.end - passage.ready,
        _ => passage.end - passage.entry,
    };
    let mask = match fault {
        Fault::AllClocksReset => 0xff,
        Fault::NoClockReset => 0,
        _ => edge.mask,
    };
    let grown = |clock: usize| match mask >> clock & 1 {
        0 => passage.clocks[clock] + growth,
        _ => 0,
    };
    let clocks = std::array::from_fn(grown);
    let location = target(edge, passage.message, fault);
    Ok((passage.component, location, passage.end, clocks, variables))
}

fn target(edge: &Edge, message: Option<u8>, fault: Fault) -> u8 {
    match (&edge.action, message) {
        (Action::Receive(pairs), Some(channel)) => {
            let named = |pair: &&Pair| pair.channel == channel;
            pairs.iter().find(named).map_or(0, |pair| pair.location)
        }
        (Action::Receive(pairs), None) if fault == Fault::TimeoutToFirstPair => pairs[0].location,
        _ => edge.destination,
    }
}
