//! Where components are at ticks: one walk through the schedule for all pairs.

use crate::schedule::Passage;
use crate::table::{Table, COMPONENTS};
use crate::{demand_room, Refusal, Yardstick};

/// The bytes of an answer: the place of the passage in the schedule, then 0 before
/// ready or 1 in the window.
pub const POSITION: usize = 3;

impl Yardstick {
    /// Writes where components are at ticks, [`POSITION`] bytes for each pair of component
    /// and tick, and gives the number of passages read. A number without a second one at
    /// the end is no pair.
    pub fn positions(
        &mut self,
        bytes: &[u8],
        numbers: &[u32],
        answers: &mut [u8],
    ) -> Result<usize, Refusal> {
        self.check(bytes)?;
        let pairs = numbers.as_chunks::<2>().0;
        check_pairs(&self.table, pairs)?;
        let answers = answers.as_chunks_mut::<POSITION>().0;
        demand_room(answers.len(), pairs.len())?;
        Ok(walk(self.schedule.passages(), pairs, answers))
    }
}

/// "The first bad pair decides": 21, then 24.
fn check_pairs(table: &Table, pairs: &[[u32; 2]]) -> Result<(), Refusal> {
    let mut before = 0;
    for [component, tick] in pairs {
        if *component as usize >= table.count || *tick >= table.horizon {
            return Err(Refusal::whole(21));
        }
        if *tick < before {
            return Err(Refusal::whole(24));
        }
        before = *tick;
    }
    Ok(())
}

/// Goes on to the passages entered by each tick in turn, keeping for each component the
/// place and the ready of the one that it entered last. How many are read.
fn walk(passages: &[Passage], pairs: &[[u32; 2]], answers: &mut [[u8; POSITION]]) -> usize {
    let mut latest = [(0u16, 0); COMPONENTS];
    let mut read = 0;
    for (answer, [component, tick]) in answers.iter_mut().zip(pairs) {
        while let Some(passage) = passages.get(read).filter(|next| next.entry <= *tick) {
            latest[usize::from(passage.component) % COMPONENTS] = (read as u16, passage.ready);
            read += 1;
        }
        let (row, ready) = latest[*component as usize % COMPONENTS];
        let [high, low] = row.to_be_bytes();
        *answer = [high, low, u8::from(*tick >= ready)];
    }
    read
}
