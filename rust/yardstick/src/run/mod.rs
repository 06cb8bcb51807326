//! The run: choices carried out on the statements of all nodes.
//!
//! For each node it is known at which tick a further tick is not plain: the
//! node's sleep or listen is due then, so that the tick is not allowed, or
//! the tick makes the node late. Before the least of these ticks and before
//! the horizon ticks pass without a look at the nodes. These are common ticks; a
//! node's own ticks and its offset add up to them.

mod code;
mod node;
mod simulated;

use crate::schedule::{Schedule, NOWHERE};
use crate::table::*;
use crate::translate::op;
use crate::{End, Run, NONE, OBSERVATION};
use code::{Blocks, Statement};
use node::Node;

/// "Choice 255: a tick passes."
const TICK: u8 = 255;

/// What a run is about: an accepted table, its bytes and its schedule.
pub(crate) struct Network<'a> {
    pub(crate) table: &'a Table,
    pub(crate) bytes: &'a [u8],
    pub(crate) schedule: &'a Schedule,
}

/// How the rows come again beyond the table's own horizon: behind the last row before
/// `behind` a node goes on with its own of those from `first` on, where all components
/// enter, a period later. With a period of 0 they do not.
#[derive(Clone, Copy, Default)]
pub(crate) struct Round {
    pub(crate) first: u16,
    pub(crate) behind: u16,
    /// The tick of the first row.
    pub(crate) from: u32,
    pub(crate) period: u32,
}

/// The nodes of a network at a tick.
#[derive(Default)]
pub(crate) struct Machine {
    nodes: [Node; COMPONENTS],
    /// The tick at which each node wakes.
    offsets: [u32; COMPONENTS],
    blocks: Blocks,
    /// For each node the tick at which the next one is not plain.
    stops: [u32; COMPONENTS],
    /// The least of these.
    stop: u32,
    /// The nodes whose stop forbids a tick, as bits; the others are made late.
    waiting: u32,
    /// The nodes that stand at a listen, as bits.
    listening: u32,
    tick: u32,
    /// The observations written.
    size: usize,
    round: Round,
}

/// The places of the observations that are still to come.
type Places<'a> = std::slice::IterMut<'a, [u8; OBSERVATION]>;

impl Machine {
    /// "It starts at tick 0, no observation yet, each node at its program's
    /// start". Missing offsets are 0.
    pub(crate) fn start(&mut self, network: &Network, offsets: &[u32]) {
        self.blocks.clear();
        self.round = Round::default();
        self.offsets = [0; COMPONENTS];
        for (own, offset) in self.offsets.iter_mut().zip(offsets) {
            *own = *offset;
        }
        self.start_again(network);
    }

    /// The same network with the same offsets from the start.
    pub(crate) fn start_again(&mut self, network: &Network) {
        self.stops = [u32::MAX; COMPONENTS];
        self.waiting = 0;
        self.listening = 0;
        self.tick = 0;
        self.size = 0;
        for (number, component) in network.table.present().iter().enumerate() {
            let initial = component.initial;
            let place = self.blocks.of_location(network, number, initial);
            self.nodes[number] = Node::new(place, initial);
            // The components open in their order.
            self.expect(network, number, number as u16);
            self.stops[number] = self.common(number, self.nodes[number].ready);
        }
        self.find_stop();
    }

    /// The common tick of a tick of a node's own; `u32::MAX` stays what it is.
    #[inline]
    fn common(&self, number: usize, own: u32) -> u32 {
        own.saturating_add(self.offsets[number % COMPONENTS])
    }

    /// Carries out choices until the run ends: "Not allowed comes before
    /// late, late before horizon, horizon before used up."
    pub(crate) fn run(&mut self, network: &Network, choices: &[u8], bytes: &mut [u8]) -> Run {
        let round = Round::default();
        self.run_to(network, choices, bytes, network.table.horizon, round)
    }

    /// The same to a horizon that is handed in.
    pub(crate) fn run_to(
        &mut self,
        network: &Network,
        choices: &[u8],
        bytes: &mut [u8],
        horizon: u32,
        round: Round,
    ) -> Run {
        self.round = round;
        let mut places = bytes.as_chunks_mut().0.iter_mut();
        let mut used = 0;
        while let Some(&choice) = choices.get(used) {
            if choice != TICK {
                if self.finish(network, choice, &mut places).is_none() {
                    return self.ended(End::NotAllowed, NONE, used);
                }
                used += 1;
                continue;
            }
            if self.tick == self.stop {
                return self.stopped(used);
            }
            let most = self.stop.min(horizon) - self.tick;
            let ticks = ticks(&choices[used..], most as usize);
            self.tick += ticks as u32;
            used += ticks;
            if self.tick == horizon {
                return self.ended(End::Horizon, NONE, used);
            }
        }
        self.ended(End::UsedUp, NONE, used)
    }

    /// A tick at the stop: it is not allowed where a sleep or a listen is
    /// due, and makes the lowest node late otherwise.
    fn stopped(&mut self, used: usize) -> Run {
        let due = |number: &usize| self.stops[*number] == self.tick;
        if Bits(self.waiting).any(|number| due(&number)) {
            return self.ended(End::NotAllowed, NONE, used);
        }
        let late = (0..COMPONENTS).find(due);
        self.tick += 1;
        self.ended(
            End::Late,
            late.map_or(NONE, |number| number as u8),
            used + 1,
        )
    }

    fn ended(&self, end: End, node: u8, used: usize) -> Run {
        Run {
            end,
            node,
            tick: self.tick,
            used: used as u64,
            size: self.size,
        }
    }

    /// A node finishes its statement; nothing, and nothing changed, where
    /// that is not allowed.
    #[inline]
    fn finish(&mut self, network: &Network, choice: u8, places: &mut Places) -> Option<()> {
        let number = usize::from(choice);
        if number >= network.table.count || self.tick < self.offsets[number % COMPONENTS] {
            return None;
        }
        let node = &mut self.nodes[number % COMPONENTS];
        let statement = self.blocks.statement(node.place);
        let Statement { op, a, k } = statement;
        match op {
            op::TRIAL => node.start_trial(),
            op::LOW => node.raise(statement),
            op::HIGH => node.lower(statement),
            op::DATA_LOW => {
                let holds = *node.variable(a) >= k as i16;
                node.demand(holds);
            }
            op::DATA_HIGH => {
                let holds = *node.variable(a) <= k as i16;
                node.demand(holds);
            }
            op::BUDGET => node.demand_length(k),
            op::KEEP => node.keep(k as u8),
            op::AGE => node.age(a),
            op::ZERO => node.zero(a),
            op::ENTER => node.enter(k as u8),
            op::SET => *node.variable(a) = k as i16,
            // Check 9 keeps the sum in range.
            op::ADD => *node.variable(a) = node.variable(a).wrapping_add(k as i16),
            op::SLEEP => return self.sleep(network, number, places),
            op::SEND => return self.send(network, number),
            op::LISTEN => return self.time_out(number, a),
            op::TAKE => return self.take(network, number),
            op::CHOOSE => return self.choose(network, number),
            _ => return self.done(number),
        }
        node.place += 1;
        Some(())
    }

    /// Goes to the block of the present location.
    #[inline]
    fn choose(&mut self, network: &Network, number: usize) -> Option<()> {
        let node = &mut self.nodes[number % COMPONENTS];
        let place = self.blocks.of_location(network, number, node.location);
        node.choose(place);
        Some(())
    }

    /// Internal work is done.
    #[inline]
    fn done(&mut self, number: usize) -> Option<()> {
        self.nodes[number % COMPONENTS].place += 1;
        self.end_work(number);
        Some(())
    }

    /// Not allowed: "a take with nothing kept". Behind it stands a sleep.
    #[inline]
    fn take(&mut self, network: &Network, number: usize) -> Option<()> {
        let node = &mut self.nodes[number % COMPONENTS];
        if !node.has_kept() {
            return None;
        }
        let edge = node.take();
        node.place = self.blocks.of_edge(network, number, edge);
        let stop = node.t;
        self.waiting |= 1 << number;
        self.set_stop(number, stop);
        Some(())
    }

    /// Not allowed: "sleep unless the tick is t".
    #[inline]
    fn sleep(&mut self, network: &Network, number: usize, places: &mut Places) -> Option<()> {
        let offset = self.offsets[number % COMPONENTS];
        let node = &mut self.nodes[number % COMPONENTS];
        if node.t + offset != self.tick {
            return None;
        }
        if let Some(place) = places.next() {
            let clocks = network.table.component(number).clocks;
            node.observe(number as u8, clocks, node.t, place);
            self.size += 1;
        }
        node.place += 1;
        let stop = node.window_end();
        let listens = self.blocks.statement(node.place).op == op::LISTEN;
        let next = match network.schedule.passages().get(usize::from(node.passage)) {
            Some(passage) => passage.next,
            None => NOWHERE,
        };
        self.expect(network, number, next);
        if self.round.period > 0 && next >= self.round.behind {
            self.go_round(network, number);
        }
        self.waiting &= !(1 << number);
        self.waiting |= u32::from(listens) << number;
        self.listening |= u32::from(listens) << number;
        self.set_stop(number, stop);
        Some(())
    }

    /// A node's next passage is its own of the round's first rows, a period later. Where
    /// that lies past all numbers of a tick no tick reaches it.
    fn go_round(&mut self, network: &Network, number: usize) {
        let period = self.round.period;
        let node = &mut self.nodes[number % COMPONENTS];
        node.moved = node.moved.saturating_add(period);
        self.expect(network, number, self.round.first + number as u16);
    }

    /// Notes a node's next passage in the schedule.
    #[inline]
    fn expect(&mut self, network: &Network, number: usize, passage: u16) {
        let coming = network.schedule.passages().get(usize::from(passage));
        let node = &mut self.nodes[number % COMPONENTS];
        node.passage = passage;
        let moved = node.moved;
        node.ready = coming.map_or(u32::MAX, |passage| passage.ready.saturating_add(moved));
    }

    /// Not allowed: "a listen unless its window ends now".
    #[inline]
    fn time_out(&mut self, number: usize, pairs: u8) -> Option<()> {
        let offset = self.offsets[number % COMPONENTS];
        let node = &mut self.nodes[number % COMPONENTS];
        if node.window_end() + offset != self.tick {
            return None;
        }
        node.place += 1 + usize::from(pairs);
        self.end_work(number);
        Some(())
    }

    /// Not allowed: "a send without a listener that names its channel, has
    /// taken nothing and has listened at least as long".
    #[inline]
    fn send(&mut self, network: &Network, sender: usize) -> Option<()> {
        let component = network.table.component(sender);
        let node = &self.nodes[sender % COMPONENTS];
        let edge = component.edge(node.edge);
        let (since, channels) = (self.common(sender, node.t), edge.channels);
        let receiver = Bits(self.listening).find(|number| {
            let node = &self.nodes[number % COMPONENTS];
            let listens = network.table.component(*number).edge(node.edge).channels;
            listens & channels != 0 && self.common(*number, node.t) <= since
        })?;
        self.nodes[sender % COMPONENTS].place += 1;
        self.end_work(sender);
        let node = &mut self.nodes[receiver % COMPONENTS];
        let listen = network.table.component(receiver).edge(node.edge);
        node.paired = listen.target(network.bytes, edge.channel());
        node.place += 1 + usize::from(listen.items);
        self.end_work(receiver);
        Some(())
    }

    /// A node's work is finished now: it has to be at its next sleep in time.
    #[inline]
    fn end_work(&mut self, number: usize) {
        self.waiting &= !(1 << number);
        self.listening &= !(1 << number);
        let node = &mut self.nodes[number % COMPONENTS];
        node.finished = self.tick - self.offsets[number % COMPONENTS];
        let ready = node.ready;
        self.set_stop(number, ready);
    }

    /// A node's stop, by its own clock.
    #[inline]
    fn set_stop(&mut self, number: usize, stop: u32) {
        self.stops[number % COMPONENTS] = self.common(number, stop);
        self.find_stop();
    }

    #[inline]
    fn find_stop(&mut self) {
        self.stop = self
            .stops
            .iter()
            .fold(u32::MAX, |least, stop| least.min(*stop));
    }
}

/// How many ticks stand at the front of the choices, so many at most.
#[inline]
fn ticks(choices: &[u8], most: usize) -> usize {
    let choices = &choices[..choices.len().min(most)];
    let other = |choice: &u8| *choice != TICK;
    let (eights, _) = choices.as_chunks::<8>();
    let all = |eight: &&[u8; 8]| **eight == [TICK; 8];
    let start = 8 * eights.iter().take_while(all).count();
    let rest = &choices[start..];
    start + rest.iter().position(other).unwrap_or(rest.len())
}
