//! Plans of time slots: in each slot one component sends and another one
//! listens from earlier until later.

use super::lanes::{Lane, Step, Target, Work};
use crate::random::Random;
use reference::table::{MAX_CHANNELS, MAX_TICKS};

/// How large a plan is.
#[derive(Clone, Copy, Debug, PartialEq, Eq)]
pub struct Size {
    /// The components.
    pub components: usize,
    /// The components that listen, fewer than there are.
    pub hubs: usize,
    /// The channels that are used, 1 or more.
    pub channels: u8,
    /// The slots, as far as they can be placed.
    pub slots: usize,
    /// Windows, guards and gaps have about so many ticks.
    pub unit: u32,
}

impl Size {
    /// Any size whose round fits the clocks.
    pub fn any(random: &mut Random) -> Size {
        let components = random.within(2..=8);
        let unit = random.pick(&[1, 2, 3, 5, 9, 20, 300, 2000, MAX_TICKS.into()]);
        let size = Size {
            components,
            hubs: random.within(1..=3.min(components - 1)),
            channels: random.count(&(1..=MAX_CHANNELS)),
            slots: random.within(1..=12),
            unit,
        };
        size.with_unit(unit)
    }

    /// The same size with this unit, or the greatest that it leaves room for.
    pub fn with_unit(self, unit: u32) -> Size {
        let most = (u32::from(MAX_TICKS) - 2) / (4 * self.slots as u32 + 4);
        Size {
            unit: unit.min(most),
            ..self
        }
    }

    /// A few components and slots, close together.
    pub fn small(random: &mut Random) -> Size {
        let components = random.within(2..=4);
        Size {
            components,
            hubs: random.within(1..=2.min(components - 1)),
            channels: random.count(&(1..=3)),
            slots: random.within(2..=4),
            unit: random.within(1..=3) as u32,
        }
    }
}

/// A send and the window around it in which it is heard.
#[derive(Clone, Debug, PartialEq, Eq)]
pub struct Slot {
    /// The component that sends.
    pub sender: usize,
    /// The component that listens.
    pub hub: usize,
    /// The channel of the send.
    pub channel: u8,
    /// The send window.
    pub send: [u32; 2],
    /// The window of the listener, if it has one of its own.
    pub listen: Option<[u32; 2]>,
    /// What the listener names; the channel of the send is the first.
    pub names: Vec<u8>,
}

impl Slot {
    /// What a component does in this slot.
    fn step(&self, component: usize) -> Option<Step> {
        let [ready, end] = self.send;
        if component == self.sender {
            return Some(Step::send(ready, end, self.channel));
        }
        let [ready, end] = self.listen?;
        (component == self.hub).then(|| Step::listen(ready, end, &self.names))
    }
}

/// Whether two windows share a tick.
pub(super) fn share(one: [u32; 2], other: [u32; 2]) -> bool {
    one[0] <= other[1] && other[0] <= one[1]
}

/// Slots for several components, repeated round after round.
#[derive(Clone, Debug, PartialEq, Eq)]
pub struct Plan {
    /// The components.
    pub components: usize,
    /// The channels used; the first ones.
    pub channels: u8,
    /// The slots, those that send earlier first.
    pub slots: Vec<Slot>,
    /// Components with steps beside their slots.
    pub beside: Vec<(usize, Step)>,
    /// The ticks of a round.
    pub round: u32,
}

/// The most slots that a component takes part in.
const MOST_SLOTS: usize = 6;
/// The most steps of a component, so that there is room for second locations.
const MOST_STEPS: usize = 11;

impl Plan {
    /// A plan of this size that is accepted, whatever the horizon.
    pub fn draw(random: &mut Random, size: &Size) -> Plan {
        let mut plan = Plan {
            components: size.components,
            channels: size.channels,
            slots: Vec::new(),
            beside: Vec::new(),
            round: 0,
        };
        let mut order: Vec<usize> = (0..size.components).collect();
        random.shuffle(&mut order);
        for _ in 0..size.slots {
            let slot = plan.drawn(random, size, &order);
            if plan.admits(&slot) {
                plan.slots.push(slot);
            }
        }
        let used = (0..size.components).map(|c| plan.busy_until(c)).max();
        plan.round = used.unwrap_or(0) + 1 + random.within(0..=size.unit as usize) as u32;
        plan.name_more(random);
        plan
    }

    /// One hub and so many probes, each with a slot of so many ticks between
    /// guards. The round is as short as it can be, or longer.
    pub fn regular(probes: usize, slot: u32, guard: u32, round: u32) -> Plan {
        let one = |probe: usize| {
            let start = probe as u32 * (slot + 2 * guard);
            let channel = probe as u8;
            Slot {
                sender: probe,
                hub: probes,
                channel,
                send: [start + guard, start + guard + slot],
                listen: Some([start, start + slot + 2 * guard]),
                names: vec![channel],
            }
        };
        Plan {
            components: probes + 1,
            channels: probes as u8,
            slots: (0..probes).map(one).collect(),
            beside: Vec::new(),
            round: round.max(probes as u32 * (slot + 2 * guard) + 1),
        }
    }

    /// The same plan with so many ticks for each one. What is a tick apart is so
    /// many apart then, so that the plan is accepted at every smaller spread.
    pub fn stretched(&self, times: u32) -> Plan {
        let wide = |window: [u32; 2]| window.map(|tick| tick * times);
        let mut plan = self.clone();
        for slot in &mut plan.slots {
            slot.send = wide(slot.send);
            slot.listen = slot.listen.map(wide);
        }
        for (_, step) in &mut plan.beside {
            [step.ready, step.end] = wide([step.ready, step.end]);
        }
        plan.round *= times;
        plan
    }

    /// A slot behind those that there are, as close as can be or with a gap.
    fn drawn(&self, random: &mut Random, size: &Size, order: &[usize]) -> Slot {
        let hub = order[random.below(size.hubs)];
        let others: Vec<usize> = order.iter().copied().filter(|c| *c != hub).collect();
        let sender = random.pick(&others);
        let channel = random.count(&(0..=size.channels - 1));
        let mut ticks = |least: u32| least + random.below(size.unit as usize) as u32;
        let [before, length, after, gap] = [ticks(1), ticks(1), ticks(1), ticks(0)];
        let gap = if random.once_in(2) { 0 } else { gap };
        let free = match self.slots.last() {
            Some(last) => last.send[1] + u32::from(last.sender != sender),
            None => 0,
        };
        let hub_free = self.busy_until(hub);
        let ready = free.max(self.busy_until(sender)).max(hub_free + before) + gap;
        let start = match random.once_in(2) {
            true => hub_free,
            false => ready - before,
        };
        Slot {
            sender,
            hub,
            channel,
            send: [ready, ready + length],
            listen: Some([start, ready + length + after]),
            names: vec![channel],
        }
    }

    /// Whether a slot can be added: its send is heard by its own listener
    /// only, and its listener hears nothing else.
    fn admits(&self, slot: &Slot) -> bool {
        let full = |component: usize| self.own(component).len() >= MOST_SLOTS;
        let listen = slot.listen.unwrap_or(slot.send);
        !full(slot.sender)
            && !full(slot.hub)
            && self.is_silent(listen, slot.channel, slot.hub)
            && !self.is_heard(slot.send, slot.channel, slot.sender)
    }

    /// Whether no other component sends on the channel in this window.
    pub fn is_silent(&self, window: [u32; 2], channel: u8, component: usize) -> bool {
        !self.slots.iter().any(|slot| {
            slot.channel == channel && slot.sender != component && share(slot.send, window)
        })
    }

    /// Whether another component listens to the channel in this window.
    pub fn is_heard(&self, window: [u32; 2], channel: u8, component: usize) -> bool {
        self.slots.iter().any(|slot| {
            let listens = slot.listen.is_some_and(|listen| share(listen, window));
            listens && slot.hub != component && slot.names.contains(&channel)
        })
    }

    /// The slots that a component takes part in.
    fn own(&self, component: usize) -> Vec<&Slot> {
        let own = |slot: &&Slot| slot.step(component).is_some();
        self.slots.iter().filter(own).collect()
    }

    /// When the last slot of a component ends.
    pub fn busy_until(&self, component: usize) -> u32 {
        let ends = self.slots.iter().filter_map(|slot| slot.step(component));
        ends.map(|step| step.end).max().unwrap_or(0)
    }

    /// Whether a component has nothing to do in the inside of a window.
    pub fn is_free(&self, component: usize, window: [u32; 2]) -> bool {
        let mut steps = self.slots.iter().filter_map(|slot| slot.step(component));
        steps.all(|step| step.end <= window[0] || window[1] <= step.ready)
    }

    /// Lets listeners name other channels on which nobody sends to them.
    fn name_more(&mut self, random: &mut Random) {
        for number in 0..self.slots.len() {
            let slot = self.slots[number].clone();
            let Some(listen) = slot.listen else {
                continue;
            };
            let mut names = slot.names;
            for _ in 0..random.below(8) {
                let channel = random.count(&(0..=self.channels - 1));
                if !names.contains(&channel) && self.is_silent(listen, channel, slot.hub) {
                    names.push(channel);
                }
            }
            random.shuffle(&mut names);
            self.slots[number].names = names;
        }
    }

    /// The slots and the rest of the round, without anything else.
    pub fn plain_lanes(&self) -> Vec<Lane> {
        let lane = |component| {
            let mut steps = self.steps(component);
            let entry = steps.last().map_or(0, |step| step.end);
            steps.push(Step::internal((self.round - 1).max(entry), self.round));
            Lane::new(steps)
        };
        (0..self.components).map(lane).collect()
    }

    /// The steps of a component's slots, in time order.
    fn steps(&self, component: usize) -> Vec<Step> {
        let in_slots = self.slots.iter().filter_map(|slot| slot.step(component));
        let beside = self.beside.iter().filter(|(own, _)| *own == component);
        let mut steps: Vec<Step> = in_slots
            .chain(beside.map(|(_, step)| step.clone()))
            .collect();
        steps.sort_by_key(|step| step.ready);
        steps
    }

    /// The slots with other steps between them: internal ones, and receives
    /// that nobody answers. Some send not in each round; after some receives
    /// it makes a difference whether a message came.
    pub fn lanes(&self, random: &mut Random) -> Vec<Lane> {
        (0..self.components)
            .map(|component| self.lane(random, component))
            .collect()
    }

    fn lane(&self, random: &mut Random, component: usize) -> Lane {
        let mut steps = Vec::new();
        let mut entry = 0;
        for step in self.steps(component) {
            if steps.len() + 1 < MOST_STEPS {
                steps.extend(self.filler(random, component, [entry, step.ready]));
            }
            entry = step.end;
            steps.push(step);
        }
        steps.extend(self.filler(random, component, [entry, self.round - 1]));
        let entry = steps.last().map_or(0, |step| step.end);
        let ready = random.within(entry as usize..=self.round as usize - 1) as u32;
        steps.push(Step::internal(ready, self.round));
        for step in &mut steps {
            part_ways(random, step);
        }
        Lane {
            every: random.pick(&[1, 1, 2, 3]),
            ..Lane::new(steps)
        }
    }

    /// Something to do in a gap, if it is long enough.
    fn filler(&self, random: &mut Random, component: usize, gap: [u32; 2]) -> Option<Step> {
        let [from, to] = gap;
        if to <= from || random.once_in(2) {
            return None;
        }
        let touching = random.once_in(2);
        let ready = match touching {
            true => from,
            false => random.within(from as usize..=to as usize - 1) as u32,
        };
        let end = match touching {
            true => to,
            false => random.within(ready as usize + 1..=to as usize) as u32,
        };
        let channel = random.count(&(0..=self.channels - 1));
        let silent = self.is_silent([ready, end], channel, component);
        Some(match silent && random.once_in(2) {
            true => Step::listen(ready, end, &[channel]),
            false => Step::internal(ready, end),
        })
    }
}

/// Lets the outcomes of a receive lead to different locations.
fn part_ways(random: &mut Random, step: &mut Step) {
    if let Work::Listen(pairs, timeout) = &mut step.work {
        let both = [Target::Next, Target::Twin];
        *timeout = random.pick(&both);
        for (_, target) in pairs {
            *target = random.pick(&both);
        }
    }
}
