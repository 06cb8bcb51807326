//! Counts in words, and the table of a sweep with its bars.

use super::counted::Counted;
use super::Experiment;

/// The marks of a bar that stands for all runs.
const BAR: u64 = 40;

/// A line for each count.
pub fn counts(experiment: &Experiment, counted: &Counted) -> String {
    let runs = experiment.runs;
    let mut words = format!("runs {runs}\nlate {}\n", with_share(counted.late, runs));
    for (node, late) in counted.nodes.iter().enumerate() {
        words += &format!("node {node}: {}\n", with_share(*late, runs));
    }
    words += &match counted.first_late {
        Some((number, node)) => format!("first late run: {number}, node {node}\n"),
        None => "first late run: none\n".to_string(),
    };
    words + &format!("generator {}\n", counted.generator)
}

/// A line for each work time, with a bar, and up to which no run was late.
pub fn sweep(all: &[(Experiment, Counted)]) -> String {
    let name = |experiment: &Experiment| format!("{}..{}", experiment.lo, experiment.hi);
    let width = all
        .iter()
        .map(|(experiment, _)| name(experiment).len())
        .max();
    let width = width.unwrap_or(0).max(4);
    let mut words = format!("{:<width$}   late    share\n", "work");
    for (experiment, Counted { late, .. }) in all {
        let share = share(*late, experiment.runs);
        let line = format!(
            "{:<width$}  {late:>5}  {share:>7}  {}",
            name(experiment),
            bar(*late, experiment.runs)
        );
        words += line.trim_end();
        words.push('\n');
    }
    let in_time = all.iter().take_while(|(_, counted)| counted.late == 0);
    words
        + &match in_time.last() {
            Some((experiment, _)) => format!("no late run up to {}\n", name(experiment)),
            None => "late runs at the least work time\n".to_string(),
        }
}

fn with_share(late: u32, runs: u32) -> String {
    format!("{late}, {}", share(late, runs))
}

/// The share of late runs in percent, with one decimal, rounded.
fn share(late: u32, runs: u32) -> String {
    let (late, runs) = (u64::from(late), u64::from(runs));
    let tenths = (late * 2000 + runs) / (2 * runs);
    format!("{}.{} %", tenths / 10, tenths % 10)
}

/// A bar for the share of late runs, not empty if there is one.
fn bar(late: u32, runs: u32) -> String {
    let marks = (u64::from(late) * BAR).div_ceil(u64::from(runs));
    "#".repeat(marks as usize)
}

#[cfg(test)]
mod tests {
    use super::*;

    fn counted(hi: u32, late: u32) -> (Experiment, Counted) {
        let experiment = Experiment {
            lo: 0,
            hi,
            runs: 200,
            seed: None,
        };
        let counted = Counted {
            late,
            nodes: vec![0, late],
            first_late: (late > 0).then_some((7, 1)),
            generator: 9,
        };
        (experiment, counted)
    }

    #[test]
    fn shares_are_rounded() {
        assert_eq!(share(0, 3), "0.0 %");
        assert_eq!(share(1, 3), "33.3 %");
        assert_eq!(share(2, 3), "66.7 %");
        assert_eq!(share(3, 3), "100.0 %");
        assert_eq!(share(1, 10_000), "0.0 %");
        assert_eq!(share(5, 10_000), "0.1 %");
        assert_eq!(share(9_999, 10_000), "100.0 %");
    }

    #[test]
    fn counts_a_line_each() {
        let (experiment, some) = counted(2, 71);
        let words = "runs 200\nlate 71, 35.5 %\nnode 0: 0, 0.0 %\nnode 1: 71, 35.5 %\n\
                     first late run: 7, node 1\ngenerator 9\n";
        assert_eq!(counts(&experiment, &some), words);
        let (experiment, none) = counted(2, 0);
        let words = counts(&experiment, &none);
        assert!(words.contains("\nfirst late run: none\n"));
    }

    #[test]
    fn a_sweep_has_bars() {
        let all = [
            counted(0, 0),
            counted(9, 0),
            counted(10, 1),
            counted(100, 200),
        ];
        let full = "#".repeat(40);
        let words = format!(
            "work     late    share\n\
             0..0        0    0.0 %\n\
             0..9        0    0.0 %\n\
             0..10       1    0.5 %  #\n\
             0..100    200  100.0 %  {full}\n\
             no late run up to 0..9\n"
        );
        assert_eq!(sweep(&all), words);
        let last = "late runs at the least work time";
        assert_eq!(sweep(&all[2..]).lines().last(), Some(last));
    }
}
