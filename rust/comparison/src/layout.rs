//! Where the numbers and the parts of a table stand in its bytes.

use reference::table::*;
use std::ops::Range;

/// A number in the bytes of a table.
#[derive(Clone, Copy, Debug, PartialEq, Eq)]
pub struct Field {
    /// Its first byte.
    pub at: usize,
    /// Its bytes, 1 or 2.
    pub width: usize,
    /// The greatest value that document 01 allows here; for a high bound the
    /// greatest one below the 65,535 that stands for none.
    pub greatest: u16,
}

impl Field {
    /// The values at the ends of its range and of other ranges, and next to
    /// them, each once.
    pub fn bounds(&self) -> Vec<u16> {
        let own = self.greatest;
        let mut values = vec![0, 1, 2, 4, 5, 127, 128, 254, 255];
        values.extend([own.saturating_sub(1), own, own.saturating_add(1)]);
        if self.width == 2 {
            values.extend([256, 32_767, 32_768, 65_534, 65_535]);
            values.extend([MAX_TICKS - 1, MAX_TICKS, MAX_TICKS + 1]);
        }
        values.sort();
        values.dedup();
        values
    }
}

/// A part that is counted: a component, a location, an edge, a bound or an
/// item.
#[derive(Clone, Debug, PartialEq, Eq)]
pub struct Part {
    /// The byte that counts parts like this one.
    pub count_at: usize,
    /// Its own bytes.
    pub bytes: Range<usize>,
    /// The first byte of the component that it stands in; none for a
    /// component itself.
    pub component: Option<usize>,
}

/// Where everything stands.
#[derive(Clone, Debug, Default, PartialEq, Eq)]
pub struct Layout {
    /// All numbers, front to back, without gaps.
    pub fields: Vec<Field>,
    /// All parts, each after those that stand in it.
    pub parts: Vec<Part>,
    /// The bytes of each component.
    pub components: Vec<Range<usize>>,
}

impl Layout {
    /// The layout of the bytes that `write_table` gives for a table.
    pub fn of(table: &Table) -> Layout {
        let mut walk = Walk::default();
        walk.ones(&[*VERSIONS.end()]);
        walk.two(*LENGTHS.end() as u16);
        walk.ones(&[MAX_COMPONENTS as u8, MAX_CHANNELS]);
        walk.two(MAX_TICKS);
        if Table::has_bands(table.version) {
            walk.ones(&vec![MAX_BAND; table.bands.len()]);
        }
        for component in &table.components {
            walk.component(component, table);
        }
        walk.layout
    }
}

/// A walk along the bytes that are written.
#[derive(Default)]
struct Walk {
    at: usize,
    component: Option<usize>,
    layout: Layout,
}

impl Walk {
    /// Numbers of one byte with their greatest values.
    fn ones(&mut self, greatest: &[u8]) {
        for &greatest in greatest {
            self.field(1, greatest.into());
        }
    }

    /// A number of two bytes with its greatest value.
    fn two(&mut self, greatest: u16) {
        self.field(2, greatest);
    }

    fn field(&mut self, width: usize, greatest: u16) {
        let at = self.at;
        self.layout.fields.push(Field {
            at,
            width,
            greatest,
        });
        self.at += width;
    }

    /// A part that ends here and is counted there.
    fn part(&mut self, count_at: usize, start: usize) {
        self.layout.parts.push(Part {
            count_at,
            bytes: start..self.at,
            component: self.component,
        });
    }

    fn component(&mut self, component: &Component, table: &Table) {
        let start = self.at;
        self.component = Some(start);
        self.two(*LENGTHS.end() as u16);
        let last = last(component.locations.len());
        self.ones(&[MAX_LOCATIONS, last, MAX_CLOCKS as u8]);
        self.ones(&[MAX_VARIABLES as u8, MAX_EDGES]);
        for _ in &component.locations {
            self.location(component, start + 2);
        }
        for edge in &component.edges {
            self.edge(component, edge, table, start + 6);
        }
        self.component = None;
        self.part(3, start);
        self.layout.components.push(start..self.at);
    }

    fn location(&mut self, component: &Component, count_at: usize) {
        let start = self.at;
        self.ones(&[last(component.clocks.into())]);
        self.two(MAX_TICKS);
        self.part(count_at, start);
    }

    fn edge(&mut self, component: &Component, edge: &Edge, table: &Table, count_at: usize) {
        let start = self.at;
        let location = last(component.locations.len());
        let (data_bounds, items) = match edge.action {
            Action::Internal(_) => (4, 4),
            Action::Send(_) => (4, 1),
            Action::Receive(_) => (0, 8),
        };
        let mask = (1 << component.clocks) - 1;
        self.ones(&[2, location, location, mask, 4, data_bounds, items]);
        if Table::has_budgets(table.version) {
            self.two(MAX_TICKS);
        }
        for _ in edge.clock_bounds.iter() {
            self.clock_bound(component, start + 4);
        }
        for _ in edge.data_bounds.iter() {
            self.data_bound(component, start + 5);
        }
        self.items(component, &edge.action, table.channels, start + 6);
        self.part(count_at, start);
    }

    fn clock_bound(&mut self, component: &Component, count_at: usize) {
        let start = self.at;
        self.ones(&[last(component.clocks.into())]);
        self.two(MAX_TICKS);
        self.two(MAX_TICKS);
        self.part(count_at, start);
    }

    fn data_bound(&mut self, component: &Component, count_at: usize) {
        let start = self.at;
        self.ones(&[last(component.variables.into())]);
        self.two(u16::MAX);
        self.two(u16::MAX);
        self.part(count_at, start);
    }

    fn items(&mut self, component: &Component, action: &Action, channels: u8, count_at: usize) {
        match action {
            Action::Internal(updates) => {
                for _ in updates.iter() {
                    self.update(component, count_at);
                }
            }
            Action::Send(_) => {
                self.ones(&[last(channels.into())]);
                self.part(count_at, self.at - 1);
            }
            Action::Receive(pairs) => {
                for _ in pairs.iter() {
                    self.ones(&[last(channels.into()), last(component.locations.len())]);
                    self.part(count_at, self.at - 2);
                }
            }
        }
    }

    fn update(&mut self, component: &Component, count_at: usize) {
        let start = self.at;
        self.ones(&[last(component.variables.into()), 1]);
        self.two(u16::MAX);
        self.part(count_at, start);
    }
}

/// The number of the last of so many things, which are numbered from 0.
fn last(count: usize) -> u8 {
    count.saturating_sub(1) as u8
}
