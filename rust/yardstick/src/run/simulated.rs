//! A run with drawn work times. From a tick at which no node moves any more it goes
//! straight to the next one at which one may: a sleep or a listen is due, work is over
//! or makes its node late.

use super::{Machine, Network};
use crate::simulation::Draws;
use crate::table::*;
use crate::translate::op;
use crate::{NONE, OBSERVATION};

/// For each node the tick at which its work is over, `u32::MAX` where it does none.
type Over = [u32; COMPONENTS];

impl Machine {
    /// The run from the nodes' start: its lowest late node, or [`NONE`] at the horizon.
    pub(crate) fn simulate(&mut self, network: &Network, draws: &mut Draws) -> u8 {
        let horizon = network.table.horizon;
        let mut over = [u32::MAX; COMPONENTS];
        let mut moving = (1 << network.table.count) - 1;
        loop {
            self.finish_all(network, moving, &mut over, draws);
            if self.stop == self.tick {
                return self.first_late();
            }
            let later = over.iter().filter(|over| **over > self.tick);
            let next = later.fold(self.stop, |least, over| least.min(*over));
            if next >= horizon {
                return NONE;
            }
            self.tick = next;
            moving = self.due(&over);
        }
    }

    /// The lowest node that the next tick makes late.
    fn first_late(&self) -> u8 {
        let late = self.stops.iter().position(|stop| *stop == self.tick);
        late.map_or(NONE, |number| number as u8)
    }

    /// The nodes that may move at the present tick, as bits.
    #[inline]
    fn due(&self, over: &Over) -> u32 {
        let mut due = 0;
        for (number, (stop, over)) in self.stops.iter().zip(over).enumerate() {
            due |= u32::from(*stop == self.tick || *over <= self.tick) << number;
        }
        due
    }

    /// "components in number order each finish all that is due and allowed [...]; this
    /// is repeated until no component moves". A node that has finished all goes on in
    /// this tick only if another one's send finishes its listen: in the same round
    /// where it has the higher number, else in the next.
    #[inline]
    fn finish_all(&mut self, network: &Network, due: u32, over: &mut Over, draws: &mut Draws) {
        let mut moving = due;
        let mut turn = 0;
        while moving != 0 {
            let ahead = moving >> turn << turn;
            if ahead == 0 {
                turn = 0;
                continue;
            }
            let number = ahead.trailing_zeros() as usize;
            moving &= !(1 << number);
            turn = number;
            let listening = self.listening & !(1 << number);
            self.finish_own(network, number, over, draws);
            moving |= listening & !self.listening;
        }
    }

    /// A node finishes all that is due and allowed: "drawn work with its last
    /// statement, everything else with no delay".
    #[inline]
    fn finish_own(&mut self, network: &Network, number: usize, over: &mut Over, draws: &mut Draws) {
        let mut nowhere: [[u8; OBSERVATION]; 0] = [];
        let mut nowhere = nowhere.iter_mut();
        let over = &mut over[number % COMPONENTS];
        loop {
            let op = self.op(number);
            let ends_work = op == op::SEND || op == op::DONE;
            if ends_work && self.tick < *over {
                return;
            }
            if self.finish(network, number as u8, &mut nowhere).is_none() {
                return;
            }
            if ends_work {
                *over = u32::MAX;
            } else if op == op::SLEEP && self.op(number) != op::LISTEN {
                *over = self.tick + draws.ticks();
            }
        }
    }

    /// The op of a node's statement.
    #[inline]
    fn op(&self, number: usize) -> u8 {
        self.blocks
            .statement(self.nodes[number % COMPONENTS].place)
            .op
    }
}
