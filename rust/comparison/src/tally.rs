//! What was counted.

use crate::edge_choices::Chosen;
use crate::exports::Exports;
use crate::periods::Periods;
use crate::places::Places;
use crate::positions::Located;
use crate::readers::{NUMBERS, TOO_SHORT};
use crate::reasons::Asked;
use crate::runs::apart::RunsApart;
use crate::runs::paths::Paths;
use crate::runs::Runs;
use crate::simulations::Simulated;
use crate::sites::Sites;
use crate::spreads::Spreads;
use std::fmt;
use timed_network::Verdict;

/// How many answers there are.
const ANSWERS: usize = NUMBERS.len();

/// How often each answer was given in a class.
#[derive(Clone, Debug, PartialEq, Eq)]
pub struct Tally {
    /// The name of the class.
    pub class: &'static str,
    /// In the order of [`NUMBERS`].
    pub answers: [u64; ANSWERS],
    /// The lists that were lent for schedules and compared.
    pub lists: Lists,
    /// The bytes that were lent for programs and compared.
    pub programs: Lists,
    /// The bytes that were lent for charts and compared.
    pub charts: Lists,
    /// The bytes that were lent for plans and compared.
    pub plans: Lists,
    /// The edges that were asked for and compared.
    pub edge_choices: EdgeChoices,
    /// The questions why edges are taken.
    pub asked: Asked,
    /// The pairs that were asked for positions.
    pub located: Located,
    /// The parts that were found in programs, and those that were not.
    pub parts: [u64; 2],
    /// The runs.
    pub runs: Runs,
    /// The simulated runs.
    pub simulated: Simulated,
    /// The texts for UPPAAL.
    pub exports: Exports,
    /// Airtimes, and the calls of sites.
    pub sites: Sites,
    /// What comes again, and the runs to a horizon.
    pub periods: Periods,
    /// Verdicts at a spread, and what belongs to them.
    pub spreads: Spreads,
    /// The runs of nodes that wake apart.
    pub apart: RunsApart,
    /// Where the tables were refused.
    pub places: Places,
    /// The paths within accepted schedules that were found again in runs.
    pub paths: Paths,
}

/// How lent lists came back, or lent bytes.
#[derive(Clone, Copy, Debug, Default, PartialEq, Eq)]
pub struct Lists {
    /// With a schedule, a program, a chart or a plan.
    pub written: u64,
    /// As they were, too short for it.
    pub short: u64,
    /// As they were, the table, or the numbers of a plan, being refused.
    pub kept: u64,
}

impl Lists {
    /// All lists.
    pub fn all(&self) -> u64 {
        self.written + self.short + self.kept
    }

    /// Counts a list that came back with this verdict.
    pub fn count(&mut self, verdict: Verdict) {
        match verdict {
            Verdict::Accepted => self.written += 1,
            Verdict::Refused { number, .. } if number == TOO_SHORT => self.short += 1,
            Verdict::Refused { .. } => self.kept += 1,
        }
    }

    fn add(&mut self, other: &Lists) {
        self.written += other.written;
        self.short += other.short;
        self.kept += other.kept;
    }
}

impl fmt::Display for Lists {
    fn fmt(&self, out: &mut fmt::Formatter<'_>) -> fmt::Result {
        let Lists {
            written,
            short,
            kept,
        } = self;
        write!(
            out,
            "written {written}, too short {short}, refused before {kept}"
        )
    }
}

/// What came of edge choices.
#[derive(Clone, Copy, Debug, Default, PartialEq, Eq)]
pub struct EdgeChoices {
    /// An edge that is ready with no delay.
    pub at_once: u64,
    /// An edge that is ready later.
    pub later: u64,
    /// No edge.
    pub none: u64,
    /// The table is refused.
    pub refused: u64,
}

impl EdgeChoices {
    /// All edge choices.
    pub fn all(&self) -> u64 {
        self.at_once + self.later + self.none + self.refused
    }

    /// Counts an answer.
    pub fn count(&mut self, chosen: &Chosen) {
        let place = match chosen {
            Ok(choice) => match choice.taken {
                Some(taken) if taken.ready == 0 => &mut self.at_once,
                Some(_) => &mut self.later,
                None => &mut self.none,
            },
            Err(_) => &mut self.refused,
        };
        *place += 1;
    }

    fn add(&mut self, other: &EdgeChoices) {
        self.at_once += other.at_once;
        self.later += other.later;
        self.none += other.none;
        self.refused += other.refused;
    }
}

impl fmt::Display for EdgeChoices {
    fn fmt(&self, out: &mut fmt::Formatter<'_>) -> fmt::Result {
        let EdgeChoices {
            at_once,
            later,
            none,
            refused,
        } = self;
        write!(
            out,
            "at once {at_once}, later {later}, no candidate {none}, table refused {refused}"
        )
    }
}

impl Tally {
    /// A class of which nothing was counted yet.
    pub fn new(class: &'static str) -> Tally {
        Tally {
            class,
            answers: [0; ANSWERS],
            lists: Lists::default(),
            programs: Lists::default(),
            charts: Lists::default(),
            plans: Lists::default(),
            edge_choices: EdgeChoices::default(),
            asked: Asked::default(),
            located: Located::default(),
            parts: [0; 2],
            runs: Runs::default(),
            simulated: Simulated::default(),
            exports: Exports::default(),
            sites: Sites::default(),
            periods: Periods::default(),
            spreads: Spreads::default(),
            apart: RunsApart::default(),
            places: Places::default(),
            paths: Paths::default(),
        }
    }

    /// The number of cases: tables tried.
    pub fn cases(&self) -> u64 {
        self.answers.iter().sum()
    }

    /// Whether nothing was tried.
    pub fn is_empty(&self) -> bool {
        let lent = self.charts.all() + self.plans.all() + self.exports.all();
        let runs = self.runs.all() + self.simulated.all() + self.sites.all() + self.apart.all();
        let others = self.parts.iter().sum::<u64>() + self.spreads.all() + self.paths.all();
        let asked = self.located.all() + self.periods.all();
        self.cases() + lent + runs + others + asked == 0
    }

    /// Counts an answer, which must be one that there is.
    pub fn count(&mut self, answer: Verdict) {
        let given = match answer {
            Verdict::Accepted => 0,
            Verdict::Refused { number, .. } => number,
        };
        let place = NUMBERS.iter().position(|number| *number == given);
        self.answers[place.expect("a number that there is")] += 1;
    }

    /// How often this number was answered.
    pub fn answered(&self, number: u8) -> u64 {
        let counts = NUMBERS.iter().zip(self.answers);
        let own = counts.filter(|(given, _)| **given == number);
        own.map(|(_, count)| count).sum()
    }

    /// All classes together.
    pub fn sum(tallies: &[Tally]) -> Tally {
        let mut sum = Tally::new("all classes");
        for tally in tallies {
            for (all, own) in sum.answers.iter_mut().zip(tally.answers) {
                *all += own;
            }
            sum.lists.add(&tally.lists);
            sum.programs.add(&tally.programs);
            sum.charts.add(&tally.charts);
            sum.plans.add(&tally.plans);
            sum.edge_choices.add(&tally.edge_choices);
            sum.asked.add(&tally.asked);
            sum.located.add(&tally.located);
            for (all, own) in sum.parts.iter_mut().zip(tally.parts) {
                *all += own;
            }
            sum.runs.add(&tally.runs);
            sum.simulated.add(&tally.simulated);
            sum.exports.add(&tally.exports);
            sum.sites.add(&tally.sites);
            sum.periods.add(&tally.periods);
            sum.spreads.add(&tally.spreads);
            sum.apart.add(&tally.apart);
            sum.places.add(&tally.places);
            sum.paths.add(&tally.paths);
        }
        sum
    }
}

/// What was tried: the answers that were given, each with how often, then
/// lists, programs, charts, plans, edge choices, questions, pairs, parts, runs, simulated
/// ones, texts, sites, pairs and runs to a horizon, what there is of nodes that wake
/// apart, where the tables were refused, and paths.
impl fmt::Display for Tally {
    fn fmt(&self, out: &mut fmt::Formatter<'_>) -> fmt::Result {
        let [accepted, refusals @ ..] = &self.answers;
        write!(out, "{}: {} cases", self.class, self.cases())?;
        if self.cases() > 0 {
            write!(out, ": accepted {accepted}")?;
        }
        for (number, count) in NUMBERS[1..].iter().zip(refusals) {
            if *count > 0 {
                write!(out, ", refused {number}: {count}")?;
            }
        }
        for (lists, name) in [
            (&self.lists, "lists"),
            (&self.programs, "programs"),
            (&self.charts, "charts"),
            (&self.plans, "plans"),
        ] {
            if lists.all() > 0 {
                write!(out, "; {} {name}: {lists}", lists.all())?;
            }
        }
        if self.edge_choices.all() > 0 {
            let choices = &self.edge_choices;
            write!(out, "; {} edge choices: {choices}", choices.all())?;
        }
        if self.asked.all() > 0 {
            write!(out, "; {}", self.asked)?;
        }
        if self.located.all() > 0 {
            write!(out, "; {}", self.located)?;
        }
        let [found, empty] = self.parts;
        let parts = found + empty;
        if parts > 0 {
            write!(out, "; {parts} parts: found {found}, empty {empty}")?;
        }
        if self.runs.all() > 0 {
            write!(out, "; {}", self.runs)?;
        }
        if self.simulated.all() > 0 {
            write!(out, "; {}", self.simulated)?;
        }
        if self.exports.all() > 0 {
            write!(out, "; {}", self.exports)?;
        }
        if self.sites.all() > 0 {
            write!(out, "; {}", self.sites)?;
        }
        if self.periods.all() > 0 {
            write!(out, "; {}", self.periods)?;
        }
        if self.spreads.all() > 0 {
            write!(out, "; {}", self.spreads)?;
        }
        if self.apart.all() > 0 {
            write!(out, "; {}", self.apart)?;
        }
        if self.places.all() > 0 {
            write!(out, "; {}", self.places)?;
        }
        if self.paths.all() > 0 {
            write!(out, "; {}", self.paths)?;
        }
        Ok(())
    }
}
