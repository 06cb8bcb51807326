//! Ticks at which everything comes again: document 02's wish 14.

use crate::horizon::{readies_of, schedule_to};
use crate::program::program;
use crate::run::{run_to_into, Outcome, OBSERVATION};
use crate::schedule::{Passage, Variables};
use crate::table::{Refusal, Table};

/// "a and b", a tick and the next at which everything is as it was then.
#[derive(Clone, Copy, Debug, PartialEq, Eq)]
pub struct Pair {
    /// a
    pub from: u32,
    /// b
    pub to: u32,
}

/// What is equal at both ticks of one component: location, clocks and variables.
type State<'a> = (u8, &'a [u32], Variables);

/// "Let a and b be ticks with a < b < H at which all components enter, with equal
/// locations, clocks and variables at both. The tool reports the first such b in the
/// schedule and the first a for it, or none." All pairs are tried.
pub fn pair(table: &Table, passages: &[Passage]) -> Option<Pair> {
    let first = passages.iter().filter(|passage| passage.component == 0);
    let entered = first.filter_map(|passage| {
        let states = states(table, passages, passage.entry)?;
        Some((passage.entry, states))
    });
    let entered: Vec<(u32, Vec<State>)> = entered.collect();
    for (to, at_b) in &entered {
        for (from, at_a) in &entered {
            if from < to && at_a == at_b {
                let (from, to) = (*from, *to);
                return Some(Pair { from, to });
            }
        }
    }
    None
}

/// The states in which all components enter at a tick; nothing where one does not.
fn states<'a>(table: &Table, passages: &'a [Passage], tick: u32) -> Option<Vec<State<'a>>> {
    let components = table.components.iter().enumerate();
    let entered = components.map(|(number, component)| {
        let own = |p: &&Passage| usize::from(p.component) == number && p.entry == tick;
        let passage = passages.iter().find(own)?;
        let clocks = &passage.clocks[..usize::from(component.clocks)];
        Some((passage.location, clocks, passage.variables))
    });
    entered.collect()
}

/// "A horizon of 0, or one above H without such a pair, is refused with 29".
pub fn reachable(table: &Table, passages: &[Passage], horizon: u32) -> Result<(), Refusal> {
    let beyond = horizon > u32::from(table.horizon);
    if horizon == 0 || (beyond && pair(table, passages).is_none()) {
        return Err(Refusal::whole(29));
    }
    Ok(())
}

/// A run of an accepted table to a horizon that is handed in, after checks 1 to 12:
/// 29, then "check 13 counts that horizon's passages, check 14 doesn't apply". "a run
/// handed a horizon takes no offsets."
pub fn run_to(
    table: &Table,
    passages: &[Passage],
    choices: &[u8],
    horizon: u32,
    bytes: &mut [u8],
) -> Result<(Outcome, usize), Refusal> {
    reachable(table, passages, horizon)?;
    let stays = schedule_to(table, horizon.into(), bytes.len() / OBSERVATION);
    let readies = readies_of(&stays.ok_or(Refusal::whole(13))?);
    let program = program(table);
    let answer = run_to_into(table, readies, &program, choices, horizon, bytes);
    Ok(answer.expect("the program of an accepted table can be opened"))
}
