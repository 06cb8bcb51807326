//! Edges made at random: first the form, which decides the length, then the
//! numbers.

use super::Values;
use crate::random::Random;
use reference::table::*;

/// The bytes of an edge without bounds and items.
pub(super) const SHORTEST: usize = 7;
/// The most clock bounds, data bounds or updates of an edge.
const MOST: u8 = 4;
/// The most pairs of a receive edge.
const MOST_PAIRS: u8 = 8;

/// What the edges of a component may refer to.
pub(super) struct Own {
    pub(super) locations: u8,
    pub(super) clocks: u8,
    pub(super) variables: u8,
    pub(super) channels: u8,
    pub(super) values: Values,
}

/// The kind of an edge.
#[derive(Clone, Copy, Debug, PartialEq, Eq)]
pub(super) enum Kind {
    Internal,
    Send,
    Receive,
}

/// The kind and the counts of an edge.
#[derive(Clone, Copy, Debug, PartialEq, Eq)]
pub(super) struct Form {
    kind: Kind,
    clock_bounds: u8,
    data_bounds: u8,
    items: u8,
}

impl Form {
    /// The form of an edge of [`SHORTEST`] bytes.
    const PLAIN: Form = Form {
        kind: Kind::Internal,
        clock_bounds: 0,
        data_bounds: 0,
        items: 0,
    };

    /// The bytes of an edge of this form.
    pub(super) fn length(&self) -> usize {
        let item = match self.kind {
            Kind::Internal => 4,
            Kind::Send => 1,
            Kind::Receive => 2,
        };
        let bounds = usize::from(self.clock_bounds) + usize::from(self.data_bounds);
        SHORTEST + 5 * bounds + item * usize::from(self.items)
    }

    /// Whether there is something for each bound and item to refer to.
    fn suits(&self, own: &Own) -> bool {
        let needs_variable =
            self.data_bounds > 0 || (self.kind == Kind::Internal && self.items > 0);
        let channels = match self.kind {
            Kind::Internal => 0,
            Kind::Send | Kind::Receive => self.items,
        };
        (!needs_variable || own.variables > 0) && channels <= own.channels
    }
}

/// Any form that suits the component and takes no more bytes than this.
pub(super) fn form_within(random: &mut Random, own: &Own, bytes: usize) -> Form {
    let kind = random.pick(&[Kind::Internal, Kind::Send, Kind::Receive]);
    let form = Form {
        kind,
        clock_bounds: random.count(&(0..=MOST)),
        data_bounds: match kind {
            Kind::Receive => 0,
            _ => random.count(&(0..=MOST)),
        },
        items: match kind {
            Kind::Internal => random.count(&(0..=MOST)),
            Kind::Send => 1,
            Kind::Receive => random.count(&(1..=own.channels.clamp(1, MOST_PAIRS))),
        },
    };
    if form.suits(own) && form.length() <= bytes {
        form
    } else {
        Form::PLAIN
    }
}

/// Any form that suits the component and takes exactly so many bytes.
pub(super) fn form_of_length(random: &mut Random, own: &Own, bytes: usize) -> Form {
    let fits = |form: &Form| form.length() == bytes && form.suits(own);
    let fitting: Vec<Form> = all_forms().filter(fits).collect();
    random.pick(&fitting)
}

/// All forms that document 01 allows.
fn all_forms() -> impl Iterator<Item = Form> {
    let kinds = [
        (Kind::Internal, MOST, 0..=MOST),
        (Kind::Send, MOST, 1..=1),
        (Kind::Receive, 0, 1..=MOST_PAIRS),
    ];
    kinds.into_iter().flat_map(|(kind, most_data, items)| {
        items.flat_map(move |items| {
            (0..=MOST).flat_map(move |clock_bounds| {
                (0..=most_data).map(move |data_bounds| Form {
                    kind,
                    clock_bounds,
                    data_bounds,
                    items,
                })
            })
        })
    })
}

/// An edge of this form.
pub(super) fn edge(random: &mut Random, own: &Own, form: Form) -> Edge {
    let values = own.values;
    Edge {
        source: values.reference(random, own.locations),
        destination: values.reference(random, own.locations),
        mask: values.mask(random, own.clocks),
        clock_bounds: (0..form.clock_bounds)
            .map(|_| clock_bound(random, own))
            .collect(),
        data_bounds: (0..form.data_bounds)
            .map(|_| data_bound(random, own))
            .collect(),
        action: action(random, own, form),
        ..Edge::default()
    }
}

fn clock_bound(random: &mut Random, own: &Own) -> ClockBound {
    ClockBound {
        clock: own.values.reference(random, own.clocks),
        low: own.values.ticks(random),
        high: own.values.high(random),
    }
}

fn data_bound(random: &mut Random, own: &Own) -> DataBound {
    DataBound {
        variable: own.values.reference(random, own.variables),
        low: own.values.data(random),
        high: own.values.data(random),
    }
}

fn action(random: &mut Random, own: &Own, form: Form) -> Action {
    match form.kind {
        Kind::Internal => Action::Internal((0..form.items).map(|_| update(random, own)).collect()),
        Kind::Send => Action::Send(own.values.reference(random, own.channels)),
        Kind::Receive => Action::Receive(pairs(random, own, form.items)),
    }
}

fn update(random: &mut Random, own: &Own) -> Update {
    Update {
        variable: own.values.reference(random, own.variables),
        operation: own.values.operation(random),
        number: own.values.data(random),
    }
}

/// Pairs of different channels, in any order.
fn pairs(random: &mut Random, own: &Own, count: u8) -> List<Pair, 8> {
    let mut channels: Vec<u8> = (0..own.channels).collect();
    random.shuffle(&mut channels);
    let pair = |channel: &u8| Pair {
        channel: *channel,
        location: own.values.reference(random, own.locations),
    };
    channels.iter().take(count.into()).map(pair).collect()
}
