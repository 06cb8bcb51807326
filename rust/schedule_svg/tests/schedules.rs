//! The windows drawn are those of the stored schedules, and of the kinds that
//! the verified chart shows; the messages are those of the sends.

use schedule_svg::{draw, Scene, Window, Work};
use std::fs;
use std::path::PathBuf;
use timed_network::{timing_chart, CHART_ROW};

/// Name, bytes and stored schedule of each accepted table of the corpus.
fn accepted() -> Vec<(String, Vec<u8>, String)> {
    let folder = PathBuf::from(env!("CARGO_MANIFEST_DIR")).join("../../corpus");
    let answers = fs::read_to_string(folder.join("answers.tsv")).unwrap();
    let names = answers
        .lines()
        .filter_map(|line| line.strip_suffix("\taccepted"));
    let read = |name: &str| {
        let bytes = fs::read(folder.join(format!("{name}.bin"))).unwrap();
        let schedule = fs::read_to_string(folder.join(format!("{name}.schedule"))).unwrap();
        (name.to_string(), bytes, schedule)
    };
    names.map(read).collect()
}

/// A line of a stored schedule as the title of its box tells it.
fn told(line: &str) -> String {
    let fields: Vec<&str> = line.split(' ').collect();
    let [component, edge, location, entry, ready, end, message] = fields[..] else {
        panic!("{line}");
    };
    let channel = match message {
        "-" => String::new(),
        channel => format!(", channel {channel}"),
    };
    format!("component {component}, edge {edge}, from location {location}{channel}, ticks {ready} to {end}, entered at {entry}")
}

/// The titles of a drawing, without the word for the work.
fn titles(drawing: &str) -> Vec<String> {
    let behind = drawing.split("<title>").skip(1);
    let title = |rest: &str| rest.split("</title>").next().unwrap().to_string();
    let plain = |title: String| {
        let words = [": send", ": receive", ": internal"];
        words
            .iter()
            .fold(title, |title, word| title.replace(word, ""))
    };
    behind.map(title).map(plain).collect()
}

#[test]
fn a_box_for_each_passage_of_the_stored_schedules() {
    for (name, table, schedule) in accepted() {
        let drawing = draw(&Scene::of(&table).unwrap(), Some(0), Some(1_000_000));
        let expected: Vec<String> = schedule.lines().skip(1).map(told).collect();
        assert_eq!(titles(&drawing), expected, "{name}");
    }
}

#[test]
fn what_is_not_in_the_range_is_not_drawn() {
    for (name, table, _) in accepted() {
        let scene = Scene::of(&table).unwrap();
        for (from, to) in [(0, 0), (5, 9), (60_000, 70_000)] {
            let inside = |window: &&Window| window.ready <= to && from <= window.end;
            let count = scene.windows.iter().filter(inside).count();
            let drawing = draw(&scene, Some(from), Some(to));
            assert_eq!(titles(&drawing).len(), count, "{name} {from} {to}");
        }
    }
}

/// What a cell of the chart shows for a component: the strongest work of the
/// windows that have a tick from the first to before the last.
fn shown(scene: &Scene, component: u32, first: u32, last: u32) -> u8 {
    let has = |work: Work| {
        let mut windows = scene.windows.iter();
        windows.any(|own| {
            own.component == component && own.work == work && own.ready < last && first <= own.end
        })
    };
    match () {
        () if first == last => b' ',
        () if has(Work::Send) => b'S',
        () if has(Work::Receive) => b'R',
        () if has(Work::Internal) => b'W',
        () => b'.',
    }
}

#[test]
fn sends_receives_and_internal_work_are_those_of_the_verified_chart() {
    for (name, table, _) in accepted() {
        let scene = Scene::of(&table).unwrap();
        let mut chart = [0; 8 * CHART_ROW];
        assert_eq!(
            timing_chart(&table, &mut chart).size,
            CHART_ROW * scene.components as usize
        );
        for component in 0..scene.components {
            for cell in 0..64 {
                let start = |cell: u32| cell * scene.horizon / 64;
                let letter = shown(&scene, component, start(cell), start(cell + 1));
                let place = component as usize * CHART_ROW + 4 + cell as usize;
                assert_eq!(
                    chart[place], letter,
                    "{name}, component {component}, cell {cell}"
                );
            }
        }
    }
}

#[test]
fn each_send_before_the_horizon_has_its_message() {
    let mut messages = 0;
    for (name, table, _) in accepted() {
        let scene = Scene::of(&table).unwrap();
        let found = scene.messages();
        for send in scene.windows.iter().filter(|own| own.work == Work::Send) {
            let count = found.iter().filter(|(sent, _)| *sent == send).count();
            assert!(
                count == 1 || (count == 0 && send.ready >= scene.horizon),
                "{name}"
            );
        }
        messages += found.len();
    }
    assert!(messages > 20, "{messages}");
}
