//! The lines that are printed.

use crate::clock::Time;

/// The library, the second implementation, the yardstick.
pub const SIDES: usize = 3;

/// Prints what the columns are.
pub fn heading() {
    let sides = ["library", "plain", "yardstick", "library/yardstick"];
    let [library, plain, yardstick, ratio] = sides;
    println!(
        "{:<27}{library:^22}{plain:^22}{yardstick:^22}{ratio:^17}",
        ""
    );
    let one = format!("{:>11}{:>11}", "least", "median");
    println!("{:<27}{one}{one}{one}{:>8}{:>8}", "", "least", "median");
}

/// Prints the times of one call.
pub fn line(call: &str, times: [Time; SIDES]) {
    let [library, _, yardstick] = times;
    print!("  {call:<25}");
    for Time { least, median } in times {
        print!("{}{}", number(least), number(median));
    }
    let ratios = [
        library.least / yardstick.least,
        library.median / yardstick.median,
    ];
    println!("{:>8.2}{:>8.2}", ratios[0], ratios[1]);
}

/// Nanoseconds, with as many places as there is sense in.
fn number(time: f64) -> String {
    let places = match time {
        ..10.0 => 2,
        ..1000.0 => 1,
        _ => 0,
    };
    format!("{time:>11.places$}")
}
