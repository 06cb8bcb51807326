//! A pair as a JSON object on a line of its own.

use super::{horizon_of, Answer};
use crate::json::{object, or_null, string};
use crate::refusals::field;
use std::ffi::OsStr;

/// The object of a table: both ticks are null where there is no pair.
pub fn object_of(file: &OsStr, table: &[u8], answer: &Answer) -> String {
    let pair = answer.as_ref().ok().copied().flatten();
    let horizon = answer.as_ref().ok().map(|_| horizon_of(table));
    let fields = [
        ("file", string(&file.to_string_lossy())),
        ("horizon", or_null(horizon)),
        ("from", or_null(pair.map(|pair| pair.from))),
        ("to", or_null(pair.map(|pair| pair.to))),
        ("refused", or_null(answer.as_ref().err().map(field))),
    ];
    format!("{}\n", object(&fields))
}

#[cfg(test)]
mod tests {
    use super::*;
    use timed_network::{Pair, Refusal, Refused};

    #[test]
    fn objects() {
        let (file, table) = (OsStr::new("a"), [1, 0, 24, 1, 0, 0, 20]);
        let told = |answer| object_of(file, &table, &answer);
        assert_eq!(
            told(Ok(Some(Pair { from: 3, to: 9 }))),
            "{\"file\":\"a\",\"horizon\":20,\"from\":3,\"to\":9,\"refused\":null}\n"
        );
        assert_eq!(
            told(Ok(None)),
            "{\"file\":\"a\",\"horizon\":20,\"from\":null,\"to\":null,\"refused\":null}\n"
        );
        let refused = Refused {
            refusal: Refusal::NoEdge,
            component: Some(1),
        };
        assert_eq!(
            told(Err(refused)),
            "{\"file\":\"a\",\"horizon\":null,\"from\":null,\"to\":null,\
             \"refused\":{\"number\":8,\"component\":1}}\n"
        );
    }
}
