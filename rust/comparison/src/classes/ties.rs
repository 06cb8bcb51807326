//! All cases of two windows that meet in a certain way, their answers known.

use super::Extent;
use crate::difference::Outcome;
use crate::random::Random;
use crate::readers::refused;
use crate::tables::bands;
use crate::tables::planned::{table, Lane, Step, Style, Target, Work};
use crate::trial::Trial;
use reference::table::write_table;
use timed_network::Verdict;

/// A horizon behind all windows, and what the last steps wait for.
const HORIZON: u16 = 40;
const LATER: u32 = 60;

/// A component that does one thing: it enters at this tick, after a step that
/// ends then, and waits when the window is over.
fn lane(entry: u32, window: [u32; 2], work: Work) -> Lane {
    let [ready, end] = window;
    let mut steps = Vec::new();
    if entry > 0 {
        steps.push(Step::internal(entry - 1, entry));
    }
    steps.push(Step { ready, end, work });
    steps.push(Step::internal(end, LATER));
    Lane::once(steps)
}

fn listen(names: &[u8]) -> Work {
    Step::listen(0, 1, names).work
}

/// The bytes of a table of these lanes, plainly written or not, all channels
/// on one band.
fn written(random: &mut Random, lanes: &[Lane], horizon: u16) -> Vec<u8> {
    let style = match random.once_in(2) {
        true => Style::sparse(random),
        false => Style::PLAIN,
    };
    let mut table = table(random, lanes, 2, horizon, &style);
    bands::on_one_band(random, &mut table);
    write_table(&table)
}

/// A send that one of two components makes to a third one.
#[derive(Clone, Copy)]
struct Sender {
    component: usize,
    channel: u8,
    entry: u32,
    window: [u32; 2],
}

impl Sender {
    fn lane(&self) -> Lane {
        lane(self.entry, self.window, Work::Send(self.channel))
    }

    /// Whether the listener can take its message.
    fn fits(&self) -> bool {
        LISTENER[0] < self.window[0] && self.window[1] < LISTENER[1]
    }
}

/// The window of the listener.
const LISTENER: [u32; 2] = [1, 7];

/// Two sends to one listener that end together or nearly, each opened earlier
/// or later than the other. Which message is taken shows by the outcome that
/// leads nowhere: 8 if it is that one, else 10, since the two collide.
pub(super) fn messages(trial: &mut Trial, random: &mut Random, extent: &Extent) -> Outcome {
    for senders in pairs_of_senders().step_by(extent.step) {
        for dead in [Some(0), Some(1), None] {
            message(trial, random, senders, dead)?;
        }
    }
    Ok(())
}

/// All pairs of senders, the lower component first. The listener is the third
/// component.
fn pairs_of_senders() -> impl Iterator<Item = [Sender; 2]> {
    let numbers = [[0, 1], [0, 2], [1, 2]];
    let numbers = numbers.into_iter().flat_map(|own| [(own, 0), (own, 1)]);
    numbers.flat_map(|([low, high], channel)| {
        senders(low, channel)
            .flat_map(move |low| senders(high, 1 - channel).map(move |high| [low, high]))
    })
}

/// Entered at 0 to 3, ready at 1 to 4, ending at 5 to 7: all of them share
/// a tick, some start or end with the listener.
fn senders(component: usize, channel: u8) -> impl Iterator<Item = Sender> {
    (0..=3).flat_map(move |entry: u32| {
        (entry.max(LISTENER[0])..=4).flat_map(move |ready| {
            (5..=LISTENER[1]).map(move |end| Sender {
                component,
                channel,
                entry,
                window: [ready, end],
            })
        })
    })
}

/// One listener, and what follows from the rule: the send that ends first, the
/// lower component on a tie. `dead` is the channel of the outcome that leads
/// nowhere, none for the timeout.
fn message(
    trial: &mut Trial,
    random: &mut Random,
    senders: [Sender; 2],
    dead: Option<u8>,
) -> Outcome {
    let [low, high] = senders;
    let hub = 3 - low.component - high.component;
    let target = |outcome| match outcome == dead {
        true => Target::Dead,
        false => Target::Next,
    };
    let pairs = [0, 1].map(|channel| (channel, target(Some(channel))));
    let work = Work::Listen(pairs.to_vec(), target(None));
    let mut lanes = vec![Lane::once(Vec::new()); 3];
    lanes[low.component] = low.lane();
    lanes[high.component] = high.lane();
    lanes[hub] = lane(0, LISTENER, work);
    let fitting = senders.into_iter().filter(Sender::fits);
    let taken = fitting.min_by_key(|sender| (sender.window[1], sender.component));
    let first = if high.entry < low.entry { high } else { low };
    let answer = match taken.map(|sender| sender.channel) == dead {
        true => refused(8, hub as u8),
        false => refused(10, first.component as u8),
    };
    trial.expect(&written(random, &lanes, HORIZON), answer)
}

/// Two windows of which the later one is entered about when the earlier one
/// ends. They share a tick exactly if the later one is ready by then; if it is
/// entered and ready at that tick, they share only the tick of the entry. The
/// horizon lies about there too, or far behind.
pub(super) fn entries(trial: &mut Trial, random: &mut Random, extent: &Extent) -> Outcome {
    let cases = orders().flat_map(|order| meetings().map(move |meeting| (order, meeting)));
    for _ in 0..extent.rounds.div_ceil(400) {
        for (order, meeting) in cases.clone().step_by(extent.step.min(7)) {
            meeting.try_all(trial, random, order)?;
        }
    }
    Ok(())
}

/// All orders of four components.
fn orders() -> impl Iterator<Item = [usize; 4]> + Clone {
    let all = (0..256).map(|code| [0, 2, 4, 6].map(|shift| code >> shift & 3));
    all.filter(|order| (0..4).all(|number| order.contains(&number)))
}

/// The earlier window.
const EARLIER: [u32; 2] = [5, 8];
/// A window in which a listener meets nobody.
const LONG_PAST: [u32; 2] = [30, 32];

/// When the later window's passage is entered, when it is ready, and the
/// horizon.
#[derive(Clone, Copy)]
struct Meeting {
    entry: u32,
    ready: u32,
    horizon: u16,
}

/// All meetings: entered when the earlier window ends, or a tick before or
/// after that; ready at once or a tick later.
fn meetings() -> impl Iterator<Item = Meeting> + Clone {
    (7..=9).flat_map(|entry| {
        [entry, entry + 1].into_iter().flat_map(move |ready| {
            (5..=10).chain([HORIZON]).map(move |horizon| Meeting {
                entry,
                ready,
                horizon,
            })
        })
    })
}

impl Meeting {
    fn later(&self) -> [u32; 2] {
        [self.ready, self.ready + 3]
    }

    /// Refused if the windows share a tick and both count, else accepted.
    fn answer(&self, both_count: bool, number: u8, component: usize) -> Verdict {
        match self.ready <= EARLIER[1] && both_count {
            true => refused(number, component as u8),
            false => Verdict::Accepted,
        }
    }

    /// Two senders; a sender and a second listener; a second listener and a
    /// sender. A send counts if it is ready before the horizon, a receive if
    /// it is opened.
    fn try_all(&self, trial: &mut Trial, random: &mut Random, order: [usize; 4]) -> Outcome {
        let [earlier, later, ..] = order;
        let before = |tick: u32| tick < u32::from(self.horizon);
        let lanes = self.lanes([Work::Send(0), Work::Send(1)], [EARLIER, self.later()]);
        let collide = self.answer(before(self.ready), 10, earlier);
        trial.expect(&self.bytes(random, order, lanes), collide)?;
        let lanes = self.lanes([Work::Send(0), listen(&[0])], [EARLIER, LONG_PAST]);
        let counts = before(EARLIER[0]) && before(self.entry);
        let heard_after = self.answer(counts, 15, earlier);
        trial.expect(&self.bytes(random, order, lanes), heard_after)?;
        let lanes = self.lanes([listen(&[1]), Work::Send(1)], [LONG_PAST, self.later()]);
        let heard_before = self.answer(before(self.ready), 15, later);
        trial.expect(&self.bytes(random, order, lanes), heard_before)
    }

    /// The earlier and the later one, and a proper listener around each of
    /// two sends.
    fn lanes(&self, [earlier, later]: [Work; 2], sends: [[u32; 2]; 2]) -> [Lane; 4] {
        let around = |send: [u32; 2], channel| {
            let window = [send[0] - 1, send[1] + 1];
            lane(0, window, listen(&[channel]))
        };
        [
            lane(0, EARLIER, earlier),
            lane(self.entry, self.later(), later),
            around(sends[0], 0),
            around(sends[1], 1),
        ]
    }

    fn bytes(&self, random: &mut Random, order: [usize; 4], lanes: [Lane; 4]) -> Vec<u8> {
        let mut placed = vec![Lane::once(Vec::new()); 4];
        for (component, lane) in order.into_iter().zip(lanes) {
            placed[component] = lane;
        }
        written(random, &placed, self.horizon)
    }
}
