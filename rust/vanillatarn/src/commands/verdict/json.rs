//! A verdict as a JSON object on a line of its own.

use super::stop::{stop_of, Stop};
use crate::input::Input;
use crate::json::{array, object, or_null, string, PASSAGE};
use std::ffi::OsStr;
use timed_network::{meetings_spread, Place, RefusedOpening, Verdict};
use timed_network::{FIELDS, MAX_PASSAGES, NO_MESSAGE};

/// The number of no component.
const NONE: u8 = 255;

/// The object of a table: the spread if there is one, whether the table is
/// accepted, the number of the refusal (0 for none), the component, where the
/// check stopped, and the windows that met, the one at fault first.
pub fn verdict(file: &OsStr, input: &Input, spread: u32) -> Vec<u8> {
    let mut list = vec![0; FIELDS * (MAX_PASSAGES + 1)];
    let answer = meetings_spread(input.table(), spread, &mut list);
    let windows: Vec<String> = list[..FIELDS * answer.size]
        .chunks_exact(FIELDS)
        .map(window)
        .collect();
    let (accepted, number, component) = match answer.table {
        Verdict::Accepted => (true, 0, NONE),
        Verdict::Refused { number, component } => (false, number, component),
    };
    let component = or_null(Some(component).filter(|component| *component != NONE));
    let file = string(&file.to_string_lossy());
    let spread = match spread {
        0 => String::new(),
        spread => format!("\"spread\":{spread},"),
    };
    let stop = stop_of(input.table(), answer.table);
    let place = stop.map_or("null".to_string(), |stop| place(&stop, input));
    format!(
        "{{\"file\":{file},{spread}\"accepted\":{accepted},\"number\":{number},\"component\":{component},\"place\":{place},\"windows\":[{}]}}\n",
        windows.join(",")
    )
    .into_bytes()
}

/// Where the check stopped, and in a text its lines.
fn place(stop: &Stop, input: &Input) -> String {
    let lines = match input {
        Input::Bytes(_) => Vec::new(),
        Input::Text { encoded, .. } => stop.place().lines(encoded),
    };
    let line = |index: usize| lines.get(index).map(|line| line.number);
    match stop {
        Stop::Place(place) => place_object(place, line(0)),
        Stop::Opening(opening) => opening_object(opening, line(0), line(1)),
    }
}

fn place_object(place: &Place, line: Option<usize>) -> String {
    object(&[
        ("part", string(&place.part.to_string())),
        ("edge", or_null(place.edge)),
        ("index", or_null(place.index)),
        ("byte", (place.start + place.offset).to_string()),
        ("start", place.start.to_string()),
        ("offset", place.offset.to_string()),
        ("width", place.width.to_string()),
        ("value", place.value.to_string()),
        ("least", place.least.to_string()),
        ("limit", place.limit.to_string()),
        ("unbounded", place.unbounded.to_string()),
        ("line", or_null(line)),
    ])
}

/// With 8 there are counts of edges, with 9 the edge and its update.
fn opening_object(
    opening: &RefusedOpening,
    line: Option<usize>,
    update_line: Option<usize>,
) -> String {
    let mut fields = vec![
        ("passage", opening.passage.to_string()),
        ("location", opening.entry.location.to_string()),
        ("tick", opening.tick.to_string()),
        ("clocks", array(&opening.entry.clocks)),
        ("values", array(&opening.entry.values)),
    ];
    if opening.number == 8 {
        fields.extend([
            ("leaving", opening.leaving.to_string()),
            ("blocked", opening.blocked.to_string()),
            ("windowless", opening.windowless.to_string()),
        ]);
    }
    if let Some((edge, update)) = opening.overflow {
        fields.extend([("edge", edge.to_string()), ("update", update.to_string())]);
    }
    fields.push(("line", or_null(line)));
    if opening.overflow.is_some() {
        fields.push(("update_line", or_null(update_line)));
    }
    object(&fields)
}

/// A passage.
fn window(numbers: &[u32]) -> String {
    let field = |(name, number): (&&'static str, &u32)| {
        let none = *name == "message" && *number == NO_MESSAGE;
        (*name, or_null((!none).then_some(number)))
    };
    let fields: Vec<(&str, String)> = PASSAGE.iter().zip(numbers).map(field).collect();
    object(&fields)
}

#[cfg(test)]
mod tests {
    use super::*;
    use timed_network::{Entry, Part};

    #[test]
    fn a_passage_with_and_without_a_message() {
        assert_eq!(
            window(&[0, 255, 2, 3, 4, 5, 255]),
            r#"{"component":0,"edge":255,"location":2,"entry":3,"ready":4,"end":5,"message":null}"#
        );
        assert!(window(&[0, 1, 2, 3, 4, 5, 6]).ends_with("\"message\":6}"));
    }

    #[test]
    fn nothing_at_all() {
        let input = Input::Bytes(Vec::new());
        assert_eq!(
            verdict(OsStr::new("x"), &input, 0),
            b"{\"file\":\"x\",\"accepted\":false,\"number\":1,\"component\":null,\"place\":null,\"windows\":[]}\n"
        );
        assert_eq!(
            verdict(OsStr::new("x"), &input, 7),
            b"{\"file\":\"x\",\"spread\":7,\"accepted\":false,\"number\":1,\"component\":null,\"place\":null,\"windows\":[]}\n"
        );
    }

    #[test]
    fn a_place_with_and_without_its_line() {
        let place = Place {
            number: 5,
            component: 0,
            part: Part::ClockBound,
            edge: Some(0),
            index: Some(1),
            start: 27,
            offset: 3,
            width: 2,
            value: 65534,
            least: 0,
            limit: 60001,
            unbounded: true,
        };
        let (edge, index) = (None, None);
        let range = r#""width":2,"value":65534,"least":0,"limit":60001,"unbounded":true"#;
        let part = string(&Part::ClockBound.to_string());
        assert_eq!(
            place_object(&place, Some(12)),
            format!(
                r#"{{"part":{part},"edge":0,"index":1,"byte":30,"start":27,"offset":3,{range},"line":12}}"#
            )
        );
        assert_eq!(
            place_object(
                &Place {
                    edge,
                    index,
                    ..place
                },
                None
            ),
            format!(
                r#"{{"part":{part},"edge":null,"index":null,"byte":30,"start":27,"offset":3,{range},"line":null}}"#
            )
        );
    }

    fn opening(number: u8, overflow: Option<(u8, u8)>) -> RefusedOpening {
        RefusedOpening {
            number,
            passage: 17,
            tick: 340,
            entry: Entry {
                component: 1,
                location: 2,
                clocks: [3, 0, 0, 0],
                values: [5, -1, 0, 0],
            },
            leaving: 3,
            blocked: 1,
            windowless: 2,
            overflow,
        }
    }

    #[test]
    fn openings_by_their_number() {
        let entry =
            r#"{"passage":17,"location":2,"tick":340,"clocks":[3,0,0,0],"values":[5,-1,0,0],"#;
        assert_eq!(
            opening_object(&opening(7, None), None, None),
            format!(r#"{entry}"line":null}}"#)
        );
        assert_eq!(
            opening_object(&opening(8, None), Some(9), None),
            format!(r#"{entry}"leaving":3,"blocked":1,"windowless":2,"line":9}}"#)
        );
        assert_eq!(
            opening_object(&opening(9, Some((4, 0))), Some(9), Some(20)),
            format!(r#"{entry}"edge":4,"update":0,"line":9,"update_line":20}}"#)
        );
    }
}
