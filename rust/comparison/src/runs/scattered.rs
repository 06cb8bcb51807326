//! Lists of choices in which the statements of a work are finished at any ticks of its
//! window: a set at one, an add at a later one, the last statement at a still later one.

use crate::random::Random;
use choices::List;
use demand::walk::Ticked;
use demand::Demand;

/// A list of at most so many choices, about. What is no work is finished as early as it
/// can be; of a work each further statement once in some ticks, and what is left of it
/// when its window ends.
pub fn scattered(random: &mut Random, demand: &Demand, offsets: &[u32], most: usize) -> Vec<u8> {
    let mut list = List::new(demand.walk_apart(offsets), most);
    let mut order: Vec<u8> = (0..list.walk().nodes() as u8).collect();
    let seldom = random.pick(&[2, 3, 5, 9]);
    while pass(random, &mut list, &mut order, seldom) {}
    list.into_choices()
}

/// A tick passes, or something that is due is finished; whether the run goes on.
fn pass(random: &mut Random, list: &mut List, order: &mut [u8], seldom: usize) -> bool {
    random.shuffle(order);
    for &node in &*order {
        while !list.walk().is_working(node) && list.finish(node) {}
        while list.walk().is_working(node) && random.once_in(seldom) && list.finish(node) {}
    }
    let goes_on = match list.walk().look() {
        Ticked::Passed { .. } => list.tick(),
        Ticked::Due(node) => list.finish(node),
        Ticked::Late { work, sleep } => list.finish((work | sleep).trailing_zeros() as u8),
    };
    goes_on && !list.is_full()
}

#[cfg(test)]
mod tests {
    use super::*;
    use crate::readers::second_run;
    use crate::runs::{Subject, AMPLE};
    use crate::tables::finishes::workers;
    use demand::finishes::Noted;
    use demand::Claim;
    use reference::table::write_table;

    /// Such a list reaches the horizon, and has works of all kinds of ticks.
    #[test]
    fn works_are_scattered_over_their_windows() {
        let mut random = Random::new(11);
        let mut noted = Noted::default();
        for _ in 0..50 {
            let subject = Subject::new(&write_table(&workers(&mut random))).unwrap();
            let demand = subject.demand();
            let choices = scattered(&mut random, &demand, &[], 5000);
            let mut bytes = vec![0; AMPLE];
            let answer = second_run(&subject.bytes, &choices, &mut bytes);
            assert_eq!(
                (answer.end, answer.used as usize),
                (0, choices.len()),
                "{choices:?}"
            );
            let claim = Claim {
                end: answer.end,
                node: answer.node,
                tick: answer.tick,
                used: answer.used,
                observations: &bytes[..demand::OBSERVATION * answer.size as usize],
            };
            noted.add(&demand.hold(&choices, &claim).unwrap().noted);
        }
        println!("{noted:?}");
        assert!(noted.done.iter().all(|count| *count > 100), "{noted:?}");
        assert!(noted.spread > 200, "{noted:?}");
    }
}
