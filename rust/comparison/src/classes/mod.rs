//! The classes of cases.

mod apart;
mod at_once;
mod bases;
mod budgets;
mod charts;
mod close;
mod cuts;
mod exported;
mod finishes;
mod generated;
mod limits;
mod long;
mod near_misses;
mod one_byte;
mod openings;
mod paths;
mod places;
mod planned;
mod positions;
mod programs;
mod random_bytes;
mod repeating;
mod running;
mod shifted;
mod simulated;
mod sited;
mod slots;
mod stored;
mod ties;
mod tried;

use crate::difference::Outcome;
use crate::random::Random;
use crate::trial::Trial;

/// How much is tried.
#[derive(Clone, Copy, Debug, PartialEq, Eq)]
pub struct Extent {
    /// How often a class makes something at random; each class takes a
    /// multiple of it.
    pub rounds: usize,
    /// A class that goes along a table goes on by so many places: with 1 it
    /// tries them all.
    pub step: usize,
}

impl Extent {
    /// All that the comparison tries.
    pub const FULL: Extent = Extent {
        rounds: 1000,
        step: 1,
    };
    /// A share of the same cases: the first of those made at random, and
    /// every fourth place of a table.
    pub const SHARE: Extent = Extent {
        rounds: 200,
        step: 4,
    };
    /// A few cases of each class.
    pub const SHORT: Extent = Extent {
        rounds: 10,
        step: 41,
    };
}

/// A class of cases.
#[derive(Clone, Copy)]
pub struct Class {
    /// What it tries, in a few words.
    pub name: &'static str,
    /// Tries all its cases.
    pub run: fn(&mut Trial, &mut Random, &Extent) -> Outcome,
}

const fn class(name: &'static str, run: fn(&mut Trial, &mut Random, &Extent) -> Outcome) -> Class {
    Class { name, run }
}

/// All classes, in the order in which they are tried.
pub const CLASSES: [Class; 116] = [
    class("vectors", stored::vectors),
    class("corpus", stored::corpus),
    class("random bytes", random_bytes::anything),
    class("random bytes, length stated", random_bytes::length_stated),
    class("random bytes after a header", random_bytes::after_header),
    class("random parts in a component", random_bytes::in_component),
    class("worked example, one byte changed", one_byte::worked_example),
    class("larger tables, one byte changed", one_byte::larger),
    class("truncations", cuts::kept),
    class("truncations, table length stated", cuts::total_stated),
    class("truncations, both lengths stated", cuts::both_stated),
    class("well-formed tables", generated::well_formed),
    class("at and near the limits", limits::counts),
    class("each number at and past its bounds", limits::numbers),
    class("random numbers changed", generated::numbers_changed),
    class("parts repeated or left out", shifted::parts),
    class("lengths and bytes shifted", shifted::bytes),
    class("a hub and its probes", planned::regular),
    class("planned tables", planned::sparse),
    class("planned tables, many edges", planned::crowded),
    class("two plans on two bands", planned::two_bands),
    class("planned tables, late ticks", planned::far),
    class("internal loops", planned::workers),
    class("planned tables and internal loops", planned::mixed),
    class("schedules near 1,024 passages", long::most),
    class("loops that end near 1,024 passages", long::ending),
    class("bounds moved by one", near_misses::moved_bounds),
    class("windows of one tick", near_misses::no_candidate),
    class("counters that overflow", near_misses::overflow),
    class("two senders on one tick", near_misses::senders),
    class(
        "two senders on one tick, by bands",
        near_misses::senders_on_bands,
    ),
    class("listeners too short, none or two", near_misses::listeners),
    class("one listener for two sends", near_misses::one_for_two),
    class("plans with windows moved", close::moved_windows),
    class("windows close together", close::windows),
    class("sends that end together", ties::messages),
    class("windows that meet at an entry", ties::entries),
    class("programs, parts and runs of the vectors", stored::requests),
    class("parts of programs cut off", programs::cut),
    class("parts of programs, one byte changed", programs::one_byte),
    class("parts of random bytes", programs::anything),
    class("many edges, some ready at once", at_once::crowds),
    class("charts with cells of few ticks", charts::horizons),
    class("charts with windows at cell ends", charts::windows),
    class("slot plans", slots::planned),
    class("slot plans of numbers out of range", slots::out_of_range),
    class("runs of slot plans", slots::run),
    class("runs of the vectors' tables", running::vectors),
    class("runs of the corpus", running::corpus),
    class("runs of a hub and its probes", running::regular),
    class("runs of planned tables", running::sparse),
    class("runs of planned tables, many edges", running::crowded),
    class("runs of two plans on two bands", running::two_bands),
    class("runs of internal loops", running::workers),
    class("runs of planned tables and internal loops", running::mixed),
    class("runs of windows close together", running::close),
    class("runs to dead ends", running::dead_ends),
    class("runs to late ticks", running::far),
    class("runs of up to 1,024 passages", running::long),
    class("runs with too many choices", running::too_many),
    class("chains at a spread", apart::chains),
    class("margins and gaps at a spread", apart::margins),
    class("plans at a spread", apart::plans),
    class("apart: runs of chains", apart::run_chains),
    class("apart: runs of plans", apart::run_plans),
    class("apart: runs of stored tables", apart::run_stored),
    class("apart: refused runs", apart::refused),
    class("components of each stated length", places::lengths),
    class("tables of each length", places::ends),
    class(
        "numbers of generated tables at their limits",
        places::limits,
    ),
    class("channels listed again", places::listed_again),
    class(
        "stored tables, a byte or two changed",
        places::stored_damaged,
    ),
    class(
        "generated tables, a byte or two changed",
        places::generated_damaged,
    ),
    class("openings: one passage too many", openings::passages),
    class("openings: no candidate", openings::candidates),
    class("openings: an update out of range", openings::updates),
    class("paths of stored tables", paths::stored),
    class("paths of a hub and its probes", paths::regular),
    class("paths of planned tables", paths::planned),
    class("paths of internal loops", paths::workers),
    class("paths of windows close together", paths::close),
    class("budgets in time", budgets::in_time),
    class("budgets too long for a location", budgets::too_long),
    class("budgets next to the windows", budgets::next_to_windows),
    class("budgets at and past the greatest", budgets::greatest),
    class("budgets cut", budgets::cut),
    class("budgets of many edges", budgets::crowds),
    class("budgets: runs", budgets::runs),
    class("finish ticks: works of several statements", finishes::works),
    class("finish ticks: messages and timeouts", finishes::messages),
    class("finish ticks: nodes that wake apart", finishes::apart),
    class("finish ticks: stored tables", finishes::stored),
    class("simulations of stored tables", simulated::stored),
    class("simulations of a hub and its probes", simulated::regular),
    class("simulations of planned tables", simulated::planned),
    class("simulations of internal loops", simulated::workers),
    class("simulations of windows close together", simulated::close),
    class("simulations with budgets", simulated::with_budgets),
    class("simulations of the longest work", simulated::longest_work),
    class("positions: stored tables", positions::stored),
    class("positions: planned tables", positions::planned),
    class("positions: internal loops", positions::workers),
    class("positions: windows close together", positions::close),
    class("texts of stored tables", exported::stored),
    class("texts of planned tables", exported::planned),
    class("texts of any table", exported::at_rest),
    class("texts of large tables", exported::large),
    class("texts of tables with budgets", exported::with_budgets),
    class("sites of drawn tables", sited::drawn_tables),
    class("sites of long airtimes", sited::long_airtimes),
    class("sites of stored tables", sited::stored),
    class("what comes again: stored tables", repeating::stored),
    class("what comes again: rings", repeating::rings),
    class("what comes again: slot plans", repeating::plans),
    class("what comes again: planned tables", repeating::planned),
    class("what comes again: the largest horizon", repeating::largest),
];
