//! The valid tables that other classes change place by place.

use crate::random::Random;
use crate::tables::{of_length, table, Shape, Values, WORKED_EXAMPLE};
use reference::table::{read_table, write_table, Table, MAX_CHANNELS};

/// A valid table and its bytes.
pub(super) struct Base {
    pub(super) table: Table,
    pub(super) bytes: Vec<u8>,
}

impl Base {
    fn new(table: Table) -> Base {
        let bytes = write_table(&table);
        Base { table, bytes }
    }
}

/// The worked example.
pub(super) fn worked_example() -> Base {
    let table = read_table(&WORKED_EXAMPLE);
    Base::new(table.expect("the worked example is accepted"))
}

/// The worked example in version 2, with 16 channels and all four bands.
pub(super) fn worked_example_on_bands() -> Base {
    let mut table = worked_example().table;
    table.version = 2;
    table.channels = MAX_CHANNELS;
    table.bands = (0..MAX_CHANNELS).map(|channel| channel % 4).collect();
    Base::new(table)
}

/// The worked example in version 3, each budget as long as the window of its edge.
pub(super) fn worked_example_with_budgets() -> Base {
    let mut table = worked_example().table;
    (table.version, table.bands) = (3, vec![2]);
    let edges = table.components.iter_mut().flat_map(|own| &mut own.edges);
    for (edge, budget) in edges.zip([2, 2, 4, 1, 1]) {
        edge.budget = budget;
    }
    Base::new(table)
}

/// The worked example, also with bands and with budgets, and some generated tables of
/// up to about 1,000 bytes.
pub(super) fn a_few(random: &mut Random) -> Vec<Base> {
    let mut bases = vec![
        worked_example(),
        worked_example_on_bands(),
        worked_example_with_budgets(),
    ];
    bases.push(Base::new(table(random, &Shape::small())));
    bases.push(Base::new(of_length(random, 300, Values::Any)));
    bases.push(Base::new(of_length(random, 600, Values::Ends)));
    bases.push(Base::new(of_length(random, 1000, Values::Small)));
    bases
}

/// A table of the greatest length.
pub(super) fn longest(random: &mut Random) -> Base {
    Base::new(of_length(random, 8192, Values::Any))
}

/// A table of any shape, mostly a small one.
pub(super) fn any(random: &mut Random) -> Base {
    let values = random.pick(&[Values::Small, Values::Any, Values::Ends]);
    let shape = if random.once_in(8) {
        Shape::any()
    } else {
        Shape::small()
    };
    Base::new(table(random, &shape.with_values(values)))
}
