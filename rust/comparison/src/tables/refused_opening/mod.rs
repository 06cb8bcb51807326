//! Tables of which it is known at which opening one of checks 7 to 9 refuses them.
//!
//! One component goes along a chain of locations, each with one edge, whose bounds are
//! put around the clocks that it arrives with; all others wait. What it arrives with
//! at the last location is noted on the way, so the opening that is refused there
//! follows from how the table was made, not from a schedule.

mod way;

use super::{bands, waiting};
use crate::random::Random;
use crate::readers::{OpeningNumbers, NONE};
use reference::table::*;
use way::Way;

/// A table and the opening at which it is refused.
pub struct Refused {
    /// The table.
    pub table: Table,
    /// The opening.
    pub opening: OpeningNumbers,
}

impl Way {
    /// The table with this component among others that wait, and the opening at which
    /// it is refused after so many passages, with what is told of its edges.
    fn refused(self, random: &mut Random, number: u8, fault: [usize; 5]) -> Refused {
        let links = self.numbers.len() - 2;
        let others = random.below(8);
        let component = random.within(0..=others);
        let passage = match links {
            0 => component,
            _ => others + links,
        };
        let location = self.location(links).into();
        let head = [
            number.into(),
            component,
            passage,
            self.tick as usize,
            location,
        ];
        let opening = opening(head, self.values, self.data, fault);
        let horizon = self.tick as usize + random.pick(&[1, 1, 2, 30]);
        let table = self.table(random, others, component, horizon as u16);
        Refused { table, opening }
    }

    fn table(self, random: &mut Random, others: usize, component: usize, horizon: u16) -> Table {
        let mut components = vec![waiting(); others];
        let own = Component {
            initial: self.location(0),
            clocks: self.clocks as u8,
            variables: self.variables as u8,
            locations: self.locations,
            edges: self.edges,
        };
        components.insert(component, own);
        let channels = random.below(3) as u8;
        let (version, bands) = bands::drawn(random, channels);
        Table {
            version,
            bands,
            channels,
            horizon,
            components,
        }
    }
}

/// The numbers of an opening: those up to the location, the clocks, the variables, and
/// what is told of edges and updates.
fn opening(
    head: [usize; 5],
    clocks: [u32; MAX_CLOCKS],
    variables: [i16; MAX_VARIABLES],
    fault: [usize; 5],
) -> OpeningNumbers {
    let wide = |number: usize| number as i64;
    let numbers = head.into_iter().map(wide);
    let numbers = numbers.chain(clocks.map(i64::from));
    let numbers = numbers.chain(variables.map(i64::from));
    let numbers: Vec<i64> = numbers.chain(fault.map(wide)).collect();
    numbers.try_into().expect("an opening has so many numbers")
}

/// No edge is a candidate at the last location: none leaves it, or all that do are
/// blocked or have no window.
pub fn no_candidate(random: &mut Random, links: usize) -> Refused {
    let mut way = Way::of(random, links, 0);
    let end = random.below(4) as u16;
    way.put_location(random, links, end);
    if end == 0 && random.once_in(2) {
        way.break_location(random, links);
    }
    let most = random.pick(&[1, 3, 9]);
    let mut counts = [random.below(most + 1), random.below(most + 1)];
    if way.variables == 0 || random.once_in(3) {
        counts[0] = 0;
    }
    if random.once_in(3) {
        counts[1] = 0;
    }
    let [blocked, windowless] = counts;
    let mut more: Vec<Edge> = (0..blocked).map(|_| way.blocked(random)).collect();
    more.extend((0..windowless).map(|_| way.windowless(random, end)));
    more.extend((0..random.within(1..=2)).map(|_| way.leaving_beside(random)));
    way.mix_in(random, more);
    let none = NONE.into();
    let fault = [blocked + windowless, blocked, windowless, none, none];
    way.refused(random, 8, fault)
}

/// The edge taken at the last location has an update that leaves its range; at the
/// start it is not the first.
pub fn out_of_range(random: &mut Random, links: usize) -> Refused {
    let mut way = Way::of(random, links, 1);
    let end = random.within(2..=5) as u16;
    way.put_location(random, links, end);
    let (updates, update) = leaving_range(random, &way);
    let mut taken = way.leaving_last(random);
    taken.action = Action::Internal(updates);
    let mut more: Vec<Edge> = Vec::new();
    for _ in 0..random.below(3) {
        more.push(match random.below(3) {
            0 => way.blocked(random),
            1 => way.windowless(random, end),
            _ => way.leaving_beside(random),
        });
    }
    way.mix_in(random, more);
    let edge = random.within(0..=way.edges.len());
    way.edges.insert(edge, taken);
    for _ in 0..random.below(3) {
        let at = random.within(edge + 1..=way.edges.len());
        let later = way.leaving_last(random);
        way.edges.insert(at, later);
    }
    way.refused(random, 9, [0, 0, 0, edge, update])
}

/// Updates of which one leaves its range, and the number of the first that does.
fn leaving_range(random: &mut Random, way: &Way) -> (List<Update, 4>, usize) {
    let mut updates = List::new();
    let variable = random.below(way.variables);
    let mut value = way.data[variable];
    let mut add = |operation, number| {
        updates.push(Update {
            variable: variable as u8,
            operation,
            number,
        });
    };
    let mut first = 0;
    if random.once_in(2) {
        add(Operation::Add, 0);
        first += 1;
    }
    if value == 0 || random.once_in(2) {
        value = random.pick(&[1, -1, i16::MAX, i16::MIN, 77, -77]);
        add(Operation::Set, value);
        first += 1;
    }
    let past = match value {
        1.. => i16::MAX - value + 1,
        _ => i16::MIN - value - 1,
    };
    add(Operation::Add, past);
    if random.once_in(2) {
        add(Operation::Set, 0);
    }
    (updates, first)
}

/// A loop of one location whose 1,025th passage, counted with those of the components
/// that wait, would open; in some no edge would be a candidate there.
pub fn too_many(random: &mut Random) -> Refused {
    let mut way = Way::of(random, 0, 1);
    let (at, bound) = (way.location(0), random.within(1..=40) as u16);
    way.locations[usize::from(at)] = Location { clock: 0, bound };
    let others = random.below(8);
    let component = random.within(0..=others);
    let openings = 1024 - others;
    let step = random.within(0..=60) as i16 - 30;
    let value = openings as i16 * step;
    let most = (step > 0 && random.once_in(2)).then_some(value - 1);
    way.edges.push(turn(at, step, most));
    let tick = openings * usize::from(bound);
    let (head, none) = ([7, component, 1024, tick, at.into()], NONE.into());
    way.values[1..way.clocks].fill(tick as u32);
    way.data[0] = value;
    let opening = opening(head, way.values, way.data, [0, 0, 0, none, none]);
    let horizon = random.within(tick + 1..=MAX_TICKS.into()) as u16;
    let table = way.table(random, others, component, horizon);
    Refused { table, opening }
}

/// An edge of a loop: it resets clock 0 and adds a step to variable 0, where there is a
/// most of it only up to that.
fn turn(at: u8, step: i16, most: Option<i16>) -> Edge {
    let counting = Update {
        variable: 0,
        operation: Operation::Add,
        number: step,
    };
    let up_to = |high| DataBound {
        variable: 0,
        low: 0,
        high,
    };
    Edge {
        source: at,
        destination: at,
        mask: 1,
        data_bounds: most.map(up_to).into_iter().collect(),
        action: Action::Internal([counting].into_iter().collect()),
        ..Edge::default()
    }
}
