//! The drawing of a schedule.

use crate::input;
use crate::options::Question;
use crate::output::{deliver, Ended};
use crate::refusals;
use schedule_svg::{draw, Scene};
use timed_network::Verdict;

/// Draws the schedule. Of a refused table what met is drawn, and the refusal is told all the
/// same.
pub fn answer(asked: &Question) -> Ended {
    let (first, last) = (asked.number("--from"), asked.number("--to"));
    if first.unwrap_or(0) > last.unwrap_or(u32::MAX) {
        return Err(asked.misused("--from is behind --to"));
    }
    let file = asked.files[0].as_os_str();
    let input = input::table_of(file)?;
    let verdict = match Scene::of(input.table()) {
        Ok(scene) => {
            deliver(draw(&scene, first, last).as_bytes(), asked.text("--svg"))?;
            scene.verdict
        }
        Err(refused) => refused,
    };
    let Verdict::Refused { number, .. } = verdict else {
        return Ok(0);
    };
    refusals::name_kind(file, &input, number)?;
    refusals::refuse_with(format!("{verdict}\n").as_bytes(), number, file, 0)
}
