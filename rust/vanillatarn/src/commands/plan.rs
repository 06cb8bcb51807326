//! `vanillatarn plan`: a table in which each probe has a slot, from the library.

use crate::options::Question;
use crate::output::{deliver, tell, Ended, REFUSED};
use crate::refusals;
use timed_network::{plan, Slots};

/// Room for every plan.
const ROOM: usize = 8192;

pub fn answer(asked: &Question) -> Ended {
    let number = |option| asked.needed(option, asked.number(option));
    let slots = Slots {
        probes: number("--probes")?,
        slot: number("--slot")?,
        guard: number("--guard")?,
        period: number("--period")?,
    };
    let mut table = vec![0; ROOM];
    match plan(slots, &mut table).into_result() {
        Ok(size) => deliver(&table[..size], asked.text("-o")),
        Err(refused) => {
            tell(refusals::whole_words(&refused).as_bytes())?;
            Ok(REFUSED)
        }
    }
}
