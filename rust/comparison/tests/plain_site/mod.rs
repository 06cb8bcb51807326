//! A site written plainly, place by place, that may be wrong in one point.

use comparison::sites::Asked;
use reference::checks::verdict_within;
use reference::schedule::Passage;
use reference::table::{Action, Refusal, Table};
use timed_network::{Network, SiteNumbers, Verdict};

/// What is wrong.
#[derive(Clone, Copy, Debug, PartialEq, Eq)]
pub enum Fault {
    None,
    /// A send that is ready at the horizon counts.
    ReadyAtHorizon,
    /// The last tick of a window does not count.
    LastTickLeftOut,
    /// A window is cut at the horizon.
    CutAtHorizon,
    /// Receives count as well.
    ReceivesCount,
    /// Ticks of windows that touch are counted once.
    TouchingOnce,
    /// An airtime has 16 bits.
    SixteenBits,
    /// The table has to be accepted at a spread of 1.
    AtSpread1,
    /// A sum that is equal to the limit is refused.
    FullAtLimit,
    /// A sum above the limit by one is not.
    OneAbove,
    /// The horizon of an emptied site stays.
    HorizonStays,
    /// A network without airtime may have any horizon.
    SilentHasNoHorizon,
    /// 26 before the table's own refusal.
    PlaceBeforeTable,
    /// 27 before 26.
    HorizonBeforePlace,
    /// 28 before 27.
    AirtimeBeforeHorizon,
    /// The airtime in use is that before the call.
    InUseBefore,
    /// After a refusal nothing is in use.
    NothingInUse,
    /// A network that is refused with 28 is put in.
    RefusedIsPutIn,
    /// A network that is taken out is still in use.
    TakenInUse,
    /// An emptied place keeps its airtime.
    AirtimeKept,
    /// Place 4 is place 0.
    PlaceModulo4,
    /// The place behind is filled.
    NextPlace,
    /// Each network lowers the limit.
    LimitLowered,
    /// An empty place may be taken from.
    EmptyIsTaken,
    /// A filled place is filled anew.
    FilledIsReplaced,
    /// Taking empties all places behind as well.
    TakesAllBehind,
    /// The number of the last refusal stays.
    NumberStays,
    /// A refusal names component 0.
    NamesComponent0,
    /// 27 is 28.
    TwentyEightForBoth,
}

/// The airtime of a table.
pub fn airtime(table: &[u8], fault: Fault) -> Result<Network, Verdict> {
    network(table, fault)
        .map_err(|Refusal { number, component }| Verdict::Refused { number, component })
}

fn network(table: &[u8], fault: Fault) -> Result<Network, Refusal> {
    let spread = u32::from(fault == Fault::AtSpread1);
    let (table, passages) = verdict_within(table, spread)?;
    let mut sum = 0;
    let mut last = None;
    for passage in &passages {
        if counts(&table, passage, fault) {
            sum += ticks(&table, passage, last, fault);
            last = Some(passage.end);
        }
    }
    if fault == Fault::SixteenBits {
        sum &= 0xffff;
    }
    Ok(Network {
        horizon: table.horizon,
        airtime: sum,
    })
}

fn counts(table: &Table, passage: &Passage, fault: Fault) -> bool {
    let before = passage.ready < u32::from(table.horizon);
    let at = passage.ready == u32::from(table.horizon) && fault == Fault::ReadyAtHorizon;
    let kind = match passage.edge_in(table).action {
        Action::Send(_) => true,
        Action::Receive(_) => fault == Fault::ReceivesCount,
        Action::Internal(_) => false,
    };
    kind && (before || at)
}

fn ticks(table: &Table, passage: &Passage, last: Option<u32>, fault: Fault) -> u32 {
    let end = match fault {
        Fault::CutAtHorizon => passage.end.min(u32::from(table.horizon) - 1),
        _ => passage.end,
    };
    let less = match fault {
        Fault::LastTickLeftOut => 1,
        Fault::TouchingOnce => u32::from(last == Some(passage.ready)),
        _ => 0,
    };
    end - passage.ready + 1 - less
}

/// The empty site, and the site after each call.
pub fn sites(limit: u32, calls: &[Asked], fault: Fault) -> Vec<SiteNumbers> {
    let mut site = Plain {
        numbers: SiteNumbers {
            limit,
            horizons: [0; 4],
            airtimes: [0; 4],
            in_use: 0,
            number: 0,
            component: 255,
        },
        horizon: 0,
        ghosts: 0,
        fault,
    };
    let mut sites = vec![site.numbers];
    for call in calls {
        site.call(call);
        sites.push(site.numbers);
    }
    sites
}

struct Plain {
    numbers: SiteNumbers,
    /// The horizon of the last network put in.
    horizon: u16,
    /// The airtime that was taken out and is in use nevertheless.
    ghosts: u64,
    fault: Fault,
}

impl Plain {
    fn call(&mut self, call: &Asked) {
        let before = self.sum();
        let answer = match *call {
            Asked::Put(table, place) => self.put(table, place),
            Asked::Take(place) => self.take(place),
        };
        let kept = self.fault == Fault::NumberStays;
        let numbers = &mut self.numbers;
        match answer {
            Ok(()) if kept => {}
            Ok(()) => (numbers.number, numbers.component) = (0, 255),
            Err(refusal) => {
                let named = self.fault == Fault::NamesComponent0 && refusal.number >= 26;
                (numbers.number, numbers.component) = match named {
                    true => (refusal.number, 0),
                    false => (refusal.number, refusal.component),
                };
            }
        }
        self.numbers.in_use = match self.fault {
            Fault::InUseBefore => before,
            Fault::NothingInUse if answer.is_err() => 0,
            _ => self.sum(),
        };
    }

    fn sum(&self) -> u64 {
        let SiteNumbers {
            horizons, airtimes, ..
        } = self.numbers;
        let own = horizons.iter().zip(airtimes);
        let own = own.filter(|(horizon, _)| **horizon != 0);
        own.map(|(_, airtime)| u64::from(airtime)).sum::<u64>() + self.ghosts
    }

    fn place(&self, place: u8) -> Option<usize> {
        let place = match self.fault {
            Fault::PlaceModulo4 => place % 4,
            _ => place,
        };
        (place < 4).then_some(place.into())
    }

    fn put(&mut self, table: &[u8], place: u8) -> Result<(), Refusal> {
        let place = self.place(place);
        let filled = place.is_none_or(|place| self.numbers.horizons[place] != 0);
        let wrong = match self.fault {
            Fault::FilledIsReplaced => place.is_none(),
            _ => filled,
        };
        if wrong && self.fault == Fault::PlaceBeforeTable {
            return Err(Refusal::whole(26));
        }
        let network = network(table, self.fault)?;
        let above = self.is_above(network.airtime);
        let order = match self.fault {
            Fault::HorizonBeforePlace => [27, 26, 28],
            Fault::AirtimeBeforeHorizon => [26, 28, 27],
            _ => [26, 27, 28],
        };
        let holds = |number: &u8| match number {
            26 => wrong,
            27 => self.is_other(&network),
            _ => above,
        };
        if let Some(number) = order.into_iter().find(holds) {
            if (number, self.fault) == (28, Fault::RefusedIsPutIn) {
                self.fill(place.unwrap_or(0), network);
            }
            let both = self.fault == Fault::TwentyEightForBoth && number == 27;
            return Err(Refusal::whole(if both { 28 } else { number }));
        }
        self.fill(place.expect("a place that there is"), network);
        Ok(())
    }

    fn is_other(&self, network: &Network) -> bool {
        if self.fault == Fault::SilentHasNoHorizon && network.airtime == 0 {
            return false;
        }
        let horizons = self.numbers.horizons;
        let kept = self.fault == Fault::HorizonStays && self.horizon != 0;
        let present = horizons.into_iter().filter(|horizon| *horizon != 0);
        let mut present = present.chain(kept.then_some(self.horizon));
        present.any(|horizon| horizon != network.horizon)
    }

    fn is_above(&self, airtime: u32) -> bool {
        let sum = self.sum() + u64::from(airtime);
        let limit = u64::from(self.numbers.limit);
        match self.fault {
            Fault::FullAtLimit => sum >= limit && airtime > 0,
            Fault::OneAbove => sum > limit + 1,
            _ => sum > limit,
        }
    }

    fn fill(&mut self, place: usize, network: Network) {
        let place = match self.fault {
            Fault::NextPlace => (place + 1) % 4,
            _ => place,
        };
        self.numbers.horizons[place] = network.horizon;
        self.numbers.airtimes[place] = network.airtime;
        self.horizon = network.horizon;
        if self.fault == Fault::LimitLowered {
            let limit = &mut self.numbers.limit;
            *limit = limit.saturating_sub(network.airtime);
        }
    }

    fn take(&mut self, place: u8) -> Result<(), Refusal> {
        let own = self.place(place).ok_or(Refusal::whole(26))?;
        if self.numbers.horizons[own] == 0 && self.fault != Fault::EmptyIsTaken {
            return Err(Refusal::whole(26));
        }
        if self.fault == Fault::TakenInUse {
            self.ghosts += u64::from(self.numbers.airtimes[own]);
        }
        let last = match self.fault {
            Fault::TakesAllBehind => 4,
            _ => own + 1,
        };
        self.numbers.horizons[own..last].fill(0);
        if self.fault != Fault::AirtimeKept {
            self.numbers.airtimes[own..last].fill(0);
        }
        Ok(())
    }
}
