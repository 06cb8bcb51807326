//! The refusals of the library's calls.

use super::refuse_with;
use crate::json::{object, or_null};
use crate::output::Ended;
use std::ffi::OsStr;
use timed_network::{Refused, Verdict};

/// The lines of a refusal, as the verified programs write them.
pub fn words(refused: &Refused) -> String {
    let (verdict, question) = (Verdict::from(*refused), refused.refusal);
    let concerned = refused.component.map_or(String::new(), |component| {
        format!("Component {component} is concerned.\n")
    });
    format!("{verdict}\nThe answer is no: {question}\n{concerned}")
}

/// The same, and where no component is concerned that is said, as the programs do that write
/// bytes.
pub fn whole_words(refused: &Refused) -> String {
    let nobody = match refused.component {
        Some(_) => "",
        None => "No single component is concerned.\n",
    };
    words(refused) + nobody
}

/// Ends with a refusal by a call: what is told on standard error, and where the table is
/// refused what tells more of it.
pub fn refuse(refused: &Refused, file: &OsStr) -> Ended {
    refuse_with(words(refused).as_bytes(), refused.refusal.number(), file, 0)
}

/// A refusal as a field of an object.
pub fn field(refused: &Refused) -> String {
    object(&[
        ("number", refused.refusal.number().to_string()),
        ("component", or_null(refused.component)),
    ])
}

#[cfg(test)]
mod tests {
    use super::*;
    use timed_network::Refusal;

    #[test]
    fn refusals_in_words_and_as_fields() {
        let mut refused = Refused {
            refusal: Refusal::Seed,
            component: None,
        };
        let question = "The answer is no: Is the seed at least 1?\n";
        assert_eq!(words(&refused), format!("refused 22 255\n{question}"));
        assert_eq!(field(&refused), r#"{"number":22,"component":null}"#);
        refused = Refused {
            refusal: Refusal::ChannelTwice,
            component: Some(3),
        };
        let question = "The answer is no: Does no receive edge list a channel twice?\n";
        let concerned = "Component 3 is concerned.\n";
        assert_eq!(
            words(&refused),
            format!("refused 6 3\n{question}{concerned}")
        );
        assert_eq!(field(&refused), r#"{"number":6,"component":3}"#);
    }
}
