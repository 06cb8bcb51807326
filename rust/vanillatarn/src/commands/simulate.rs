//! `vanillatarn simulate`: work times tried on a table: how many of so many runs end late, by
//! node, or for each of many work times; and the choices of one of the runs.

mod chosen;
mod counted;
mod json;
mod progress;
mod words;

use crate::input;
use crate::options::{Form, Question};
use crate::output::{deliver, write, Ended, Stop, REFUSED};
use crate::refusals::{field, name_kind, refuse};
use counted::{count, work_times, Counted};
use progress::Progress;
use std::ffi::OsStr;
use std::io::{self, IsTerminal};
use timed_network::{simulate, Refused, MAX_RUNS, SEED};

/// The work times, the runs and the seed.
#[derive(Clone, Copy, Debug, PartialEq, Eq)]
pub struct Experiment {
    lo: u32,
    hi: u32,
    runs: u32,
    /// Nothing for the fixed one.
    seed: Option<u32>,
}

impl Experiment {
    /// What the generator starts from.
    fn start(&self) -> u32 {
        self.seed.unwrap_or(SEED)
    }

    /// Whether the library takes the table and all of these numbers: one run is made with
    /// them, as many as are asked for where that is what is refused.
    fn check(&self, table: &[u8]) -> Result<(), Refused> {
        let runs = match self.runs {
            1..=MAX_RUNS => 1,
            runs => runs,
        };
        simulate(table, self.lo..=self.hi, runs, self.seed).map(|_| ())
    }
}

pub fn answer(asked: &Question) -> Ended {
    let experiment = experiment(asked)?;
    let shown = asked.number("--show");
    match (shown, asked.text("-o")) {
        (None, Some(_)) => return Err(asked.misused("-o is for --show alone")),
        (Some(_), None) if io::stdout().is_terminal() => {
            let words = "--show writes bytes, and standard output is a terminal: add -o FILE";
            return Err(asked.misused(words));
        }
        _ => {}
    }
    let file = asked.files[0].as_os_str();
    let input = input::table_of(file)?;
    let table = input.table();
    if let Err(refused) = experiment.check(table) {
        name_kind(file, &input, refused.refusal.number())?;
        return tell_refusal(asked.form(), &experiment, &refused, file);
    }
    if let Some(number) = shown {
        return deliver(&choices(table, &experiment, number)?, asked.text("-o"));
    }
    let told = match asked.has("--sweep") {
        false => counts(table, &experiment, asked.form()),
        true => sweep(table, &experiment, asked.form()),
    };
    match told {
        Ok(words) => write(words.as_bytes()),
        Err(refused) => tell_refusal(asked.form(), &experiment, &refused, file),
    }
}

/// What the options ask for.
fn experiment(asked: &Question) -> Result<Experiment, Stop> {
    let (lo, hi) = asked.needed("--work", asked.range("--work"))?;
    Ok(Experiment {
        lo,
        hi,
        runs: asked.needed("--runs", asked.number("--runs"))?,
        seed: asked.number("--seed"),
    })
}

fn counts(table: &[u8], experiment: &Experiment, form: Form) -> Result<String, Refused> {
    let mut progress = Progress::new(experiment.runs);
    let counted = count(table, experiment, &mut progress)?;
    Ok(match form {
        Form::Words => words::counts(experiment, &counted),
        Form::Json => json::counts(experiment, &counted),
    })
}

/// All simulations start from the same seed.
fn sweep(table: &[u8], experiment: &Experiment, form: Form) -> Result<String, Refused> {
    let times = work_times(experiment.lo, experiment.hi);
    let mut progress = Progress::new(experiment.runs * times.len() as u32);
    let mut all: Vec<(Experiment, Counted)> = Vec::new();
    for hi in times {
        let experiment = Experiment { hi, ..*experiment };
        let counted = count(table, &experiment, &mut progress)?;
        all.push((experiment, counted));
    }
    let object = |(experiment, counted): &(Experiment, Counted)| json::counts(experiment, counted);
    Ok(match form {
        Form::Words => words::sweep(&all),
        Form::Json => all.iter().map(object).collect(),
    })
}

/// The choices of one of the runs.
fn choices(table: &[u8], experiment: &Experiment, number: u32) -> Result<Vec<u8>, Stop> {
    if number >= experiment.runs {
        let last = experiment.runs - 1;
        let words = format!("there is no run {number}: the runs are 0 to {last}");
        return Err(Stop::wrong(words));
    }
    chosen::choices(table, experiment, number).map_err(Stop::broken)
}

fn tell_refusal(form: Form, experiment: &Experiment, refused: &Refused, file: &OsStr) -> Ended {
    match form {
        Form::Words => refuse(refused, file),
        Form::Json => {
            let object = json::refused(experiment, &field(refused));
            write(object.as_bytes())?;
            Ok(REFUSED)
        }
    }
}
