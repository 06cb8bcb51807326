//! A component from its lane.

use super::bounds::{Resets, Scene};
use super::decoys::{self, Own};
use super::lanes::{Lane, Target, Work};
use super::style::Style;
use crate::random::Random;
use reference::table::*;

/// The component whose windows are those of the lane.
pub fn component(random: &mut Random, lane: &Lane, channels: u8, style: &Style) -> Component {
    let places = Places::of(random, lane, style.shuffled);
    let variables = style.variables(lane.variables());
    let own = Own {
        locations: places.count,
        clocks: style.clocks,
        variables,
        still: (style.spare > 1).then(|| variables - 1),
        channels,
    };
    let mut writer = Writer {
        random,
        lane,
        style,
        locations: vec![UNBOUNDED; places.count.into()],
        places,
        own,
        taken: Vec::new(),
        losing: Vec::new(),
        ties: Vec::new(),
    };
    writer.steps();
    writer.finish()
}

/// The location that no edge leaves; also the place of those to come.
const UNBOUNDED: Location = Location {
    clock: 0,
    bound: MAX_TICKS,
};

/// The numbers of the locations.
struct Places {
    main: Vec<u8>,
    twin: Vec<Option<u8>>,
    dead: Option<u8>,
    count: u8,
}

impl Places {
    fn of(random: &mut Random, lane: &Lane, shuffled: bool) -> Places {
        let twins = lane.twins();
        let seconds = twins.iter().filter(|twin| **twin).count();
        let count = (twins.len() + seconds + usize::from(lane.has_dead())) as u8;
        let mut numbers: Vec<u8> = (0..count).collect();
        if shuffled {
            random.shuffle(&mut numbers);
        }
        let mut next = numbers.into_iter();
        Places {
            main: next.by_ref().take(twins.len()).collect(),
            twin: twins
                .iter()
                .map(|twin| twin.then(|| next.next()).flatten())
                .collect(),
            dead: next.next(),
            count,
        }
    }

    /// The locations of a step.
    fn of_step(&self, step: usize) -> Vec<u8> {
        [Some(self.main[step]), self.twin[step]]
            .into_iter()
            .flatten()
            .collect()
    }

    /// Where an outcome leads if this step is the next one.
    fn target(&self, next: usize, target: Target) -> u8 {
        let other = match target {
            Target::Next => None,
            Target::Twin => self.twin[next],
            Target::Dead => self.dead,
        };
        other.unwrap_or(self.main[next])
    }
}

/// One way in which a step is taken: which values it needs, what it does and
/// where it leads.
struct Variant {
    data: Vec<DataBound>,
    action: Action,
    destination: u8,
}

struct Writer<'a> {
    random: &'a mut Random,
    lane: &'a Lane,
    style: &'a Style,
    places: Places,
    own: Own,
    locations: Vec<Location>,
    /// The edges that are taken, at any place among the next ones.
    taken: Vec<Edge>,
    losing: Vec<Edge>,
    /// Edges that would be taken but for their numbers.
    ties: Vec<Edge>,
}

impl Writer<'_> {
    fn steps(&mut self) {
        let masks = self.masks();
        let at_start = match masks.last() {
            Some(mask) if !self.lane.once => *mask,
            _ => self.all_clocks(),
        };
        let mut resets = Resets::of_mask(at_start);
        for (number, mask) in masks.into_iter().enumerate() {
            let step = &self.lane.steps[number];
            let scene = Scene {
                resets,
                entry: self.lane.entry(number),
                ready: step.ready,
                end: step.end,
            };
            for place in self.places.of_step(number) {
                self.place(place, number, &scene, mask);
            }
            resets.reset(mask, step.end);
        }
    }

    fn all_clocks(&self) -> u8 {
        (1 << self.own.clocks) - 1
    }

    /// The reset masks of the steps. The last one resets one clock at least,
    /// so that something is known of the next round.
    fn masks(&mut self) -> Vec<u8> {
        let all = self.all_clocks();
        let several = self.own.clocks > 1;
        let steps = self.lane.steps.len();
        let mut masks = vec![0; steps];
        for mask in masks.iter_mut().filter(|_| several) {
            *mask = self.random.byte() & all;
        }
        let main = 1 << self.random.below(self.own.clocks.into());
        masks[steps - 1] |= if several { main } else { all };
        masks
    }

    /// The location of a step and all edges from there.
    fn place(&mut self, place: u8, number: usize, scene: &Scene, mask: u8) {
        let later = match self.style.loose && self.random.once_in(2) {
            true => self.random.within(1..=9) as u32,
            false => 0,
        };
        let (location, ends) = scene.location(self.random, later);
        self.locations[usize::from(place)] = location;
        for variant in self.variants(number) {
            let more = self.random.within(0..=self.style.more_bounds);
            let bounds = scene.taken(self.random, ends, more);
            self.taken.push(Edge {
                source: place,
                destination: variant.destination,
                mask,
                clock_bounds: bounds.shuffled(self.random),
                data_bounds: variant.data.into_iter().collect(),
                action: variant.action,
                ..Edge::default()
            });
        }
        for _ in 0..self.random.within(0..=self.style.decoys) {
            let losing = decoys::losing(self.random, &self.own, scene, place);
            self.losing.push(losing);
            if self.random.once_in(2) {
                let tie = decoys::tie(self.random, &self.own, scene, place);
                self.ties.push(tie);
            }
        }
    }

    /// How a step is taken. Exactly one of the variants suits any values.
    fn variants(&mut self, number: usize) -> Vec<Variant> {
        let step = &self.lane.steps[number];
        let next = self.lane.after(number);
        let every = self.lane.every;
        let last = number + 1 == self.lane.steps.len();
        match &step.work {
            Work::Internal(_) if every > 1 && last => self.counted(next),
            Work::Internal(updates) => vec![self.internal(next, &[], updates)],
            Work::Send(channel) if every > 1 => vec![
                self.send(next, &[from(0, 0)], *channel),
                self.internal(next, &[from(1, i16::MAX)], &[]),
            ],
            Work::Send(channel) => vec![self.send(next, &[], *channel)],
            Work::Listen(pairs, timeout) => vec![self.listen(next, pairs, *timeout)],
        }
    }

    /// The end of a round in which variable 0 counts the rounds.
    fn counted(&mut self, next: usize) -> Vec<Variant> {
        let most = self.lane.every - 1;
        vec![
            self.internal(
                next,
                &[from(i16::MIN, most - 1)],
                &[update(Operation::Add, 1)],
            ),
            self.internal(next, &[from(most, i16::MAX)], &[update(Operation::Set, 0)]),
        ]
    }

    fn internal(&mut self, next: usize, data: &[DataBound], updates: &[Update]) -> Variant {
        let mut updates = updates.to_vec();
        updates.extend(self.noise(4 - updates.len()));
        Variant {
            data: self.with_more(data),
            action: Action::Internal(updates.into_iter().collect()),
            destination: self.places.main[next],
        }
    }

    fn send(&mut self, next: usize, data: &[DataBound], channel: u8) -> Variant {
        Variant {
            data: self.with_more(data),
            action: Action::Send(channel),
            destination: self.places.main[next],
        }
    }

    fn listen(&mut self, next: usize, pairs: &[(u8, Target)], timeout: Target) -> Variant {
        let pair = |(channel, target): &(u8, Target)| Pair {
            channel: *channel,
            location: self.places.target(next, *target),
        };
        Variant {
            data: Vec::new(),
            action: Action::Receive(pairs.iter().map(pair).collect()),
            destination: self.places.target(next, timeout),
        }
    }

    /// Data bounds and others that always hold.
    fn with_more(&mut self, data: &[DataBound]) -> Vec<DataBound> {
        let mut data = data.to_vec();
        if self.own.variables > 0 {
            for _ in 0..self.random.within(0..=self.style.more_bounds) {
                data.push(decoys::holding(self.random, &self.own));
            }
        }
        data.truncate(4);
        self.random.shuffle(&mut data);
        data
    }

    /// Updates of the spare variables, all in range: each variable is set
    /// before anything is added to it.
    fn noise(&mut self, most: usize) -> Vec<Update> {
        let first = self.lane.variables();
        let end = self.own.still.unwrap_or(self.own.variables);
        let mut updates = Vec::new();
        if first < end {
            for _ in 0..self.random.within(0..=most / 2) {
                let variable = self.random.count(&(first..=end - 1));
                updates.extend(set_and_add(self.random, variable));
            }
        }
        updates
    }

    /// The component. Edges that are ready together stand behind the one that
    /// is taken; the others stand anywhere.
    fn finish(mut self) -> Component {
        let room = usize::from(MAX_EDGES) - self.taken.len();
        self.random.shuffle(&mut self.losing);
        self.random.shuffle(&mut self.ties);
        self.losing.truncate(room);
        self.ties.truncate(room - self.losing.len());
        let mut edges = self.taken;
        edges.append(&mut self.losing);
        if self.style.shuffled {
            self.random.shuffle(&mut edges);
        }
        edges.append(&mut self.ties);
        Component {
            initial: self.places.main[0],
            clocks: self.own.clocks,
            variables: self.own.variables,
            locations: self.locations,
            edges,
        }
    }
}

/// A bound of the variable that counts rounds.
fn from(low: i16, high: i16) -> DataBound {
    DataBound {
        variable: 0,
        low,
        high,
    }
}

/// An update of the variable that counts rounds.
fn update(operation: Operation, number: i16) -> Update {
    Update {
        variable: 0,
        operation,
        number,
    }
}

/// Sets a variable to any value, then adds to it up to the ends of its range.
fn set_and_add(random: &mut Random, variable: u8) -> [Update; 2] {
    let number = random.two() as i16;
    let up = i32::from(i16::MAX) - i32::from(number);
    let down = i32::from(i16::MIN) - i32::from(number);
    let within = |wide: i32| wide.clamp(i16::MIN.into(), i16::MAX.into()) as i16;
    let ends = [within(up), within(down), 0];
    let set = Update {
        variable,
        operation: Operation::Set,
        number,
    };
    let add = Update {
        variable,
        operation: Operation::Add,
        number: random.pick(&ends),
    };
    [set, add]
}
