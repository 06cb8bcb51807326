//! Counts as a JSON object on a line of its own.

use super::counted::Counted;
use super::Experiment;
use crate::json::{array, object};

/// The object of a simulation.
pub fn counts(experiment: &Experiment, counted: &Counted) -> String {
    let first_late = match counted.first_late {
        Some((number, node)) => object(&[("run", number.to_string()), ("node", node.to_string())]),
        None => "null".to_string(),
    };
    line(
        experiment,
        [
            ("late", counted.late.to_string()),
            ("nodes", array(&counted.nodes)),
            ("first_late", first_late),
            ("generator", counted.generator.to_string()),
            ("refused", "null".to_string()),
        ],
    )
}

/// The object of one that is refused.
pub fn refused(experiment: &Experiment, refusal: &str) -> String {
    line(
        experiment,
        [
            ("late", "null".to_string()),
            ("nodes", "[]".to_string()),
            ("first_late", "null".to_string()),
            ("generator", "null".to_string()),
            ("refused", refusal.to_string()),
        ],
    )
}

fn line(experiment: &Experiment, answer: [(&str, String); 5]) -> String {
    let asked = [
        ("lo", experiment.lo.to_string()),
        ("hi", experiment.hi.to_string()),
        ("runs", experiment.runs.to_string()),
        ("seed", experiment.start().to_string()),
    ];
    let fields: Vec<(&str, String)> = asked.into_iter().chain(answer).collect();
    format!("{}\n", object(&fields))
}

#[cfg(test)]
mod tests {
    use super::*;

    #[test]
    fn a_simulation_and_a_refused_one() {
        let experiment = Experiment {
            lo: 0,
            hi: 2,
            runs: 100,
            seed: None,
        };
        let counted = Counted {
            late: 37,
            nodes: vec![0, 37],
            first_late: Some((0, 1)),
            generator: 3_108_015_255,
        };
        let asked = r#"{"lo":0,"hi":2,"runs":100,"seed":2463534242,"#;
        let answer = r#""late":37,"nodes":[0,37],"first_late":{"run":0,"node":1},"generator":3108015255,"refused":null}"#;
        assert_eq!(counts(&experiment, &counted), format!("{asked}{answer}\n"));
        let answer = r#""late":null,"nodes":[],"first_late":null,"generator":null,"refused":{}}"#;
        assert_eq!(refused(&experiment, "{}"), format!("{asked}{answer}\n"));
    }
}
