//! Counts of each kind, for the tests of what is told of them.

use comparison::exports::Exports;
use comparison::periods::Periods;
use comparison::simulations::Simulated;
use comparison::sites::Sites;

/// A pair and a run to a horizon of each kind.
pub fn all_periods() -> Periods {
    Periods {
        from_start: 6,
        later: 5,
        none: 4,
        refused: 3,
        ran: [7, 8, 9],
        held: 6,
        ends: [10, 5, 6, 3],
        late_beyond: 2,
        unreachable: [1, 2],
        short: 3,
        kept: 4,
        carried: [500, 40],
    }
}

/// A call of a site of each kind.
pub fn all_sites() -> Sites {
    Sites {
        sequences: 2,
        put: 9,
        silent: 3,
        taken: 8,
        absent: 7,
        filled: 6,
        empty: 5,
        horizons: 4,
        above: 3,
        refused: 2,
        full: 2,
        at_limit: 4,
        renewed: 1,
        airtimes: 11,
    }
}

/// A simulation of each kind.
pub fn all_simulated() -> Simulated {
    Simulated {
        in_time: 6,
        sometimes_late: 5,
        always_late: 4,
        several_nodes: 3,
        undrawn: 2,
        seedless: 1,
        out_of_range: 2,
        refused: 3,
        runs: 90,
        handed: 80,
        handed_late: 30,
    }
}

/// A text of each kind.
pub fn all_exports() -> Exports {
    Exports {
        written: 9,
        short: 3,
        budgeted: 2,
        refused: 1,
        same: 4,
        read: 5,
        states: 60,
        moves: [40, 10],
        broken: 2,
    }
}
