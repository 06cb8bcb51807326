//! Lists of choices: allowed ones in several manners, and such lists spoilt.

use crate::random::Random;
use choices::List;
use demand::walk::{Refusal, Ticked};
use demand::{Demand, TICK};

/// The nodes that can be chosen, whether they are there or not.
const NODES: u8 = 8;

/// How a list is drawn.
#[derive(Clone, Copy, Debug, PartialEq, Eq)]
pub enum Manner {
    /// Each node finishes everything as early as it can.
    Early,
    /// Each node finishes everything as late as it may.
    Late,
    /// Any node at any time that is allowed, with few mistakes.
    Any,
    /// Some nodes stop at some time and the others go on.
    Stopped,
    /// Any bytes, mostly nodes and ticks.
    Hostile,
}

impl Manner {
    /// All manners.
    pub const ALL: [Manner; 5] = [
        Manner::Early,
        Manner::Late,
        Manner::Any,
        Manner::Stopped,
        Manner::Hostile,
    ];
}

/// A list of at most so many choices, about, drawn in this manner.
pub fn draw(random: &mut Random, demand: &Demand, manner: Manner, most: usize) -> Vec<u8> {
    draw_apart(random, demand, &[], manner, most)
}

/// The same for nodes that wake with these offsets.
pub fn draw_apart(
    random: &mut Random,
    demand: &Demand,
    offsets: &[u32],
    manner: Manner,
    most: usize,
) -> Vec<u8> {
    let mut draw = Draw {
        list: List::new(demand.walk_apart(offsets), most),
    };
    match manner {
        Manner::Early => draw.early(random),
        Manner::Late => draw.late(random),
        Manner::Any => draw.any(random),
        Manner::Stopped => draw.stopped(random),
        Manner::Hostile => return hostile(random, draw.nodes()),
    }
    draw.list.into_choices()
}

/// A list that is drawn.
struct Draw<'a> {
    list: List<'a>,
}

impl Draw<'_> {
    fn nodes(&self) -> usize {
        self.list.walk().nodes()
    }

    /// Lets nodes finish what they can at this tick, in this order. Whether
    /// the run goes on: a node that finds nothing to take may try all the
    /// same.
    fn finish_all(&mut self, random: &mut Random, order: &[u8]) -> bool {
        self.list
            .finish_all(order, |refusal| tries_again(random, refusal))
    }

    /// A tick passes after all that can be finished; whether the run goes on.
    fn pass_early(&mut self, random: &mut Random, order: &mut [u8]) -> bool {
        random.shuffle(order);
        self.list
            .pass_early(order, |refusal| tries_again(random, refusal))
    }

    fn early(&mut self, random: &mut Random) {
        let mut order: Vec<u8> = (0..self.nodes() as u8).collect();
        while self.pass_early(random, &mut order) {}
    }

    fn late(&mut self, random: &mut Random) {
        while self.list.pass_late(|nodes| any_bit(random, nodes)) {}
    }

    /// Ticks once in some times, is careless now and then, makes a mistake
    /// seldom.
    fn any(&mut self, random: &mut Random) {
        let nodes = self.nodes();
        let lazy = random.within(2..=20);
        let careful = random.pick(&[5, 50, 500, usize::MAX]);
        let right = random.pick(&[50, 1000, usize::MAX]);
        let mut failed = 0;
        while !self.list.is_full() {
            if failed < 3 * nodes && !random.once_in(lazy) {
                let node = random.below(nodes) as u8;
                let mistake = match self.list.try_finish(node) {
                    Ok(()) => {
                        failed = 0;
                        continue;
                    }
                    Err(Refusal::NothingKept) => random.once_in(9),
                    // Of an accepted table there is one; without it nothing goes on.
                    Err(Refusal::NoListener) => true,
                    Err(_) => random.once_in(right),
                };
                failed += 1;
                if mistake {
                    self.list.end_with(node);
                    return;
                }
                continue;
            }
            failed = 0;
            let (ticks, mistake) = match self.list.walk().look() {
                Ticked::Passed { .. } => (true, false),
                Ticked::Late { .. } => (random.once_in(careful), false),
                Ticked::Due(_) => (false, random.once_in(right)),
            };
            if mistake {
                self.list.end_with(TICK);
                return;
            }
            if ticks && !self.list.tick() {
                return;
            }
        }
    }

    /// From a tick on, some nodes finish only what is due, others only what
    /// comes before their work, until a tick makes one of them late.
    fn stopped(&mut self, random: &mut Random) {
        let nodes = self.nodes() as u8;
        let mut order: Vec<u8> = (0..nodes).collect();
        let calm = random.pick(&[1, 3, 10, 50]);
        while random.below(calm) > 0 {
            if !self.pass_early(random, &mut order) {
                return;
            }
        }
        for node in &order {
            for _ in 0..random.below(12) {
                self.list.finish(*node);
            }
        }
        let stopped = order.split_off(random.below(order.len()));
        let at_work = random.below(stopped.len() + 1);
        while self.finish_all(random, &order) {
            for &node in &stopped[..at_work] {
                while !self.list.walk().is_working(node) && self.list.finish(node) {}
            }
            match self.list.walk().look() {
                Ticked::Due(node) => {
                    self.list.finish(node);
                }
                _ if !self.list.tick() => return,
                _ => {}
            }
        }
    }
}

/// Whether a node goes on where it may not: now and then, where it finds
/// nothing to take.
fn tries_again(random: &mut Random, refusal: Refusal) -> bool {
    refusal == Refusal::NothingKept && random.once_in(9)
}

/// One of the bits that are set.
fn any_bit(random: &mut Random, bits: u8) -> u8 {
    let set: Vec<u8> = (0..NODES).filter(|bit| bits >> bit & 1 == 1).collect();
    random.pick(&set)
}

/// Bytes that are nodes or ticks, or anything.
fn hostile(random: &mut Random, nodes: usize) -> Vec<u8> {
    let ticks = random.within(1..=12);
    let strange = random.pick(&[5, 60, usize::MAX]);
    let one = |random: &mut Random| match random.below(12) {
        _ if random.once_in(strange) => random.byte(),
        place if place < ticks => random.below(nodes) as u8,
        _ => TICK,
    };
    (0..random.within(0..=40)).map(|_| one(random)).collect()
}

/// A byte that may be wrong anywhere.
fn wrong(random: &mut Random, nodes: usize) -> u8 {
    match random.below(6) {
        0 => random.count(&(NODES..=TICK - 1)),
        1 => TICK - 1,
        2 => random.count(&((nodes as u8).min(NODES - 1)..=NODES)),
        3 | 4 => TICK,
        _ => random.below(nodes) as u8,
    }
}

/// Spoils a list in one of several ways, or leaves it as it is.
pub fn spoil(random: &mut Random, nodes: usize, choices: &mut Vec<u8>) {
    let place = random.below(choices.len() + 1);
    match random.below(10) {
        0 | 1 => choices.truncate(place),
        2 | 3 => choices.insert(place, wrong(random, nodes)),
        4 => {
            let tail = random.within(1..=20);
            choices.extend((0..tail).map(|_| wrong(random, nodes)));
        }
        5 if place < choices.len() => {
            choices.remove(place);
        }
        6 if place + 1 < choices.len() => choices.swap(place, place + 1),
        _ => {}
    }
}

#[cfg(test)]
mod tests {
    use super::*;
    use crate::readers::second_run;
    use crate::runs::{Subject, AMPLE};
    use crate::tables::WORKED_EXAMPLE;

    fn ended(choices: &[u8]) -> (u8, usize) {
        let answer = second_run(&WORKED_EXAMPLE, choices, &mut vec![0; AMPLE]);
        (answer.end, answer.used as usize)
    }

    /// Early and late lists are allowed to the last choice and reach the
    /// horizon; other ones end in all ways.
    #[test]
    fn manners_end_as_they_should() {
        let subject = Subject::new(&WORKED_EXAMPLE).unwrap();
        let demand = subject.demand();
        let mut random = Random::new(7);
        let mut ends = [[0; 4]; Manner::ALL.len()];
        for _ in 0..200 {
            for (place, manner) in Manner::ALL.into_iter().enumerate() {
                let choices = draw(&mut random, &demand, manner, 1000);
                let (end, used) = ended(&choices);
                let goes_on = matches!(manner, Manner::Any | Manner::Hostile);
                assert!(goes_on || used == choices.len(), "{manner:?}");
                ends[place][usize::from(end)] += 1;
            }
        }
        let [early, late, any, stopped, hostile] = ends;
        assert_eq!((early, late), ([200, 0, 0, 0], [200, 0, 0, 0]));
        assert!(any[0] > 10 && any[2] > 10 && any[3] > 10, "{any:?}");
        assert!(stopped[2] > 120, "{stopped:?}");
        assert!(hostile[2] > 10 && hostile[3] > 10, "{hostile:?}");
    }

    #[test]
    fn spoilt_lists_end_otherwise() {
        let subject = Subject::new(&WORKED_EXAMPLE).unwrap();
        let demand = subject.demand();
        let mut random = Random::new(8);
        let mut ends = [0; 4];
        for _ in 0..400 {
            let manner = random.pick(&[Manner::Early, Manner::Late]);
            let mut choices = draw(&mut random, &demand, manner, 1000);
            spoil(&mut random, 2, &mut choices);
            ends[usize::from(ended(&choices).0)] += 1;
        }
        assert!(ends.iter().all(|count| *count > 5), "{ends:?}");
    }
}
