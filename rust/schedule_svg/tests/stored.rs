//! Stored drawings, each looked at as a picture: two components, eight, and the
//! windows that met after 10 to 12 and 15 to 17. `RENEW=1` writes them again.

use schedule_svg::{draw, Scene};
use std::env;
use std::fs;
use std::path::PathBuf;

fn folder() -> PathBuf {
    PathBuf::from(env!("CARGO_MANIFEST_DIR"))
}

fn corpus(name: &str) -> Vec<u8> {
    fs::read(folder().join(format!("../../corpus/{name}.bin"))).unwrap()
}

fn four_pairs() -> Vec<u8> {
    let text = fs::read(folder().join("tests/stored/four_pairs.txt")).unwrap();
    table_text::encode_file(&text).unwrap()
}

/// Holds a drawing to the stored one.
fn hold(name: &str, table: &[u8], from: Option<u32>, to: Option<u32>) {
    let file = folder().join(format!("tests/stored/{name}.svg"));
    let drawing = draw(&Scene::of(table).unwrap(), from, to);
    if env::var_os("RENEW").is_some() {
        fs::write(&file, &drawing).unwrap();
    }
    assert!(fs::read_to_string(&file).unwrap() == drawing, "{name}");
}

#[test]
fn two_components_and_eight() {
    hold("probe_and_hub", &corpus("probe_and_hub"), None, None);
    hold("four_pairs", &four_pairs(), None, None);
    hold("four_pairs_10_to_30", &four_pairs(), Some(10), Some(30));
}

#[test]
fn windows_that_met() {
    for name in [
        "check10_shared_tick",
        "check16_starts_together",
        "check11_nobody",
        "check12_two_probes",
    ] {
        hold(name, &corpus(name), None, None);
    }
}

#[test]
fn nothing_to_draw() {
    for name in [
        "check1_version_0",
        "check7_1025_passages",
        "check9_add_below",
    ] {
        assert!(Scene::of(&corpus(name)).is_err(), "{name}");
    }
}
