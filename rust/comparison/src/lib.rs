//! Holds the exported library against the second implementation, and against
//! the yardstick of speed.
//!
//! Both sides get the same tables, class after class, and are lent lists and bytes
//! of the same lengths for schedules, charts, programs, plans and observations; at
//! the entries of schedules and at others both are asked for the edge that is
//! taken, and at ticks of accepted tables why it is, and where components are. Of each
//! table both are asked where it is refused by checks 4 to 9. At spreads both are asked
//! for verdicts and for the windows that met, and run nodes that wake apart. Both count
//! simulated runs, each of which is handed on as a list of choices. Both write texts for
//! UPPAAL, which are read back, and whose networks are explored beside those of the
//! tables. Both put networks into sites and take them out, in sequences of calls, and
//! the sites are compared after each. Both are asked from when to when everything of a
//! table comes again, and run tables to horizons far beyond their own. Of accepted tables
//! random paths of the network within the schedule are drawn, and found again in runs.
//! The first difference ends the comparison. Each run is also held to demand 3, with the
//! finish ticks in its observations.
//! [`tables`] makes well-formed tables, [`layout`] and [`bytes`] serve to
//! damage them, [`runs`] draws choices, [`classes`] lists what is tried,
//! [`trial`] tries it.
#![forbid(unsafe_code)]
#![warn(missing_docs)]

pub mod buffers;
pub mod bytes;
pub mod classes;
pub mod difference;
pub mod edge_choices;
pub mod exports;
mod fast;
pub mod layout;
pub mod lists;
pub mod periods;
pub mod places;
pub mod positions;
pub mod programs;
pub mod random;
pub mod readers;
pub mod reasons;
pub mod requests;
pub mod runs;
pub mod simulations;
pub mod sites;
pub mod spreads;
pub mod stored;
pub mod tables;
pub mod tally;
pub mod trial;

use classes::{Class, Extent, CLASSES};
use difference::Stop;
use random::Random;
use readers::{Readers, NUMBERS, UNHEARD};
use runs::noted;
use tally::Tally;
use trial::Trial;

/// Tries all classes and hands each one's counts on as soon as it is through.
pub fn compare(
    readers: &Readers,
    seed: u64,
    extent: &Extent,
    show: impl FnMut(&Tally),
) -> Result<Vec<Tally>, Stop> {
    compare_named(readers, seed, extent, "", show)
}

/// Tries the classes that have this in their names, each with the cases that it has
/// among all.
pub fn compare_named(
    readers: &Readers,
    seed: u64,
    extent: &Extent,
    name: &str,
    mut show: impl FnMut(&Tally),
) -> Result<Vec<Tally>, Stop> {
    let mut tallies = Vec::new();
    let named = |(_, class): &(u64, &Class)| class.name.contains(name);
    for (number, class) in (1..).zip(&CLASSES).filter(named) {
        let tally = compare_class(readers, class, &mut numbers(seed, number), extent)?;
        show(&tally);
        tallies.push(tally);
    }
    Ok(tallies)
}

/// Tries one class.
pub fn compare_class(
    readers: &Readers,
    class: &Class,
    random: &mut Random,
    extent: &Extent,
) -> Result<Tally, Stop> {
    let mut trial = Trial::new(readers, class.name);
    (class.run)(&mut trial, random, extent)?;
    Ok(trial.tally())
}

/// Random numbers for a class, which do not depend on what the classes before
/// it have drawn.
fn numbers(seed: u64, class: u64) -> Random {
    Random::new(Random::new(seed).number().wrapping_add(class))
}

/// How much the comparison has to try.
#[derive(Clone, Copy, Debug, PartialEq, Eq)]
pub struct Least {
    /// Tables.
    pub cases: u64,
    /// Runs.
    pub runs: u64,
    /// Runs of each kind.
    pub of_each_kind: u64,
    /// Tables refused for each of the ways in which a send is not heard well.
    pub of_each_hearing: u64,
    /// Of each kind of answer at a spread, and of each kind of run of nodes that
    /// wake apart.
    pub of_each_apart: u64,
    /// Of each way in which checks 4 to 9 stop.
    pub of_each_place: u64,
    /// Paths of each kind.
    pub of_each_path: u64,
    /// Finish ticks of each kind, in runs and in runs of nodes that wake apart.
    pub of_each_finish: u64,
    /// Simulations and simulated runs of each kind.
    pub of_each_simulation: u64,
    /// Texts for UPPAAL of each kind, and of what their networks have.
    pub of_each_export: u64,
    /// Calls of sites of each kind.
    pub of_each_site: u64,
    /// Pairs and runs to a horizon of each kind.
    pub of_each_period: u64,
}

/// What the comparison should have tried and did not: a class without cases,
/// an answer that never came, one of the faults of a send's hearing that came
/// too rarely, lists or bytes that never came back in one of the ways, a kind of
/// edge choice, a reason of an edge or an answer to pairs that never came, parts never
/// found or never missed, a kind of run that is too rare, an answer at a spread or a kind
/// of run of nodes that wake apart that is, a way in which checks 4 to 9 stop that is, a
/// kind of path, of finish tick, of simulation, of text, of a site's call, of pair or of
/// run to a horizon that is, fewer cases or runs in all than demanded.
pub fn gaps(tallies: &[Tally], least: &Least) -> Vec<String> {
    let empty = tallies.iter().filter(|tally| tally.is_empty());
    let mut gaps: Vec<String> = empty
        .map(|tally| format!("nothing was tried in the class: {}", tally.class))
        .collect();
    let sum = Tally::sum(tallies);
    let never = |number: &u8| sum.answered(*number) == 0;
    gaps.extend(
        NUMBERS
            .into_iter()
            .filter(never)
            .map(|number| match number {
                0 => "no table was accepted".to_string(),
                _ => format!("no table was refused with {number}"),
            }),
    );
    gaps.extend(hearing_gaps(&sum, least.of_each_hearing));
    gaps.extend(list_gaps(&sum));
    gaps.extend(sum.asked.gaps());
    gaps.extend(sum.located.gaps());
    gaps.extend(sum.runs.gaps(least.of_each_kind));
    gaps.extend(sum.spreads.gaps(least.of_each_apart));
    gaps.extend(sum.apart.gaps(least.of_each_apart));
    gaps.extend(sum.places.gaps(least.of_each_place));
    gaps.extend(sum.paths.gaps(least.of_each_path));
    for (runs, tally) in [("runs", &sum.runs), ("runs apart", &sum.apart.runs)] {
        gaps.extend(noted::gaps(runs, &tally.noted, least.of_each_finish));
    }
    gaps.extend(sum.simulated.gaps(least.of_each_simulation));
    gaps.extend(sum.exports.gaps(least.of_each_export));
    gaps.extend(sum.sites.gaps(least.of_each_site));
    gaps.extend(sum.periods.gaps(least.of_each_period));
    let (cases, runs) = (sum.cases(), sum.runs.ran());
    for (count, least, what) in [(cases, least.cases, "cases"), (runs, least.runs, "runs")] {
        if count < least {
            gaps.push(format!("{count} {what} are fewer than {least}"));
        }
    }
    gaps
}

/// The ways in which sends are not heard well that are too rare.
fn hearing_gaps(sum: &Tally, least: u64) -> impl Iterator<Item = String> + '_ {
    let counts = UNHEARD.map(|number| (number, sum.answered(number)));
    let rare = move |(_, count): &(u8, u64)| (1..least).contains(count);
    let gap = move |(number, count)| {
        format!("{count} tables refused with {number} are fewer than {least}")
    };
    counts.into_iter().filter(rare).map(gap)
}

/// The ways in which no list, no bytes, no edge or no part came back.
fn list_gaps(sum: &Tally) -> impl Iterator<Item = String> {
    let ways = [
        (sum.lists.written, "no list was written"),
        (sum.lists.short, "no list was too short"),
        (sum.lists.kept, "no list was lent for a refused table"),
        (sum.programs.written, "no program was written"),
        (sum.programs.short, "no program was too long"),
        (sum.programs.kept, "no refused table was translated"),
        (sum.charts.written, "no chart was written"),
        (sum.charts.short, "no chart was too long"),
        (sum.charts.kept, "no refused table was drawn"),
        (sum.plans.written, "no plan was written"),
        (sum.plans.short, "no plan was too long"),
        (sum.plans.kept, "no plan was refused with 18"),
        (sum.edge_choices.at_once, "no edge was taken at once"),
        (sum.edge_choices.later, "no edge was taken with a delay"),
        (sum.edge_choices.none, "nowhere was there no candidate"),
        (
            sum.edge_choices.refused,
            "no refused table was asked for an edge",
        ),
        (sum.parts[0], "no part was found"),
        (sum.parts[1], "no part was empty"),
    ];
    let never = ways.into_iter().filter(|(count, _)| *count == 0);
    never.map(|(_, gap)| gap.to_string())
}

/// The cases of all classes, the verdicts at spreads, the runs, those of nodes that
/// wake apart among them, and the paths.
pub fn cases(tallies: &[Tally]) -> [u64; 4] {
    let sum = Tally::sum(tallies);
    let runs = sum.runs.all() + sum.apart.all();
    [sum.cases(), sum.spreads.verdicts(), runs, sum.paths.all()]
}
