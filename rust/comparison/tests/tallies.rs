//! What was counted is told, and so is what was not tried.

mod counted;

use comparison::exports::Exports;
use comparison::periods::Periods;
use comparison::places::Places;
use comparison::positions::Located;
use comparison::reasons::Asked;
use comparison::runs::apart::RunsApart;
use comparison::runs::paths::Paths;
use comparison::runs::Runs;
use comparison::simulations::Simulated;
use comparison::sites::Sites;
use comparison::spreads::Spreads;
use comparison::tally::{EdgeChoices, Lists, Tally};
use comparison::{cases, gaps, Least};
use counted::{all_exports, all_periods, all_simulated, all_sites};
use demand::finishes::Noted;

/// A class with these answers, and lists, programs, charts, plans, edge choices,
/// questions, parts, runs, simulations and sites of all kinds, also of nodes that wake
/// apart, and refusals at all places.
fn tally(class: &'static str, answers: [u64; 16]) -> Tally {
    let lists = Lists {
        written: 3,
        short: 2,
        kept: 1,
    };
    Tally {
        class,
        answers,
        lists,
        programs: lists,
        charts: lists,
        plans: lists,
        edge_choices: EdgeChoices {
            at_once: 4,
            later: 3,
            none: 2,
            refused: 1,
        },
        asked: Asked {
            edges: [9, 8, 7, 6, 5],
            later_bound: 4,
            written: 3,
            short: 2,
            absent: 1,
            refused: 1,
        },
        located: Located {
            written: 9,
            without: 2,
            left_over: 1,
            short: 3,
            absent: 4,
            unsorted: 5,
            refused: 6,
            pairs: [70, 80],
            above_255: 7,
        },
        parts: [5, 4],
        runs: all_kinds(),
        simulated: all_simulated(),
        exports: all_exports(),
        sites: all_sites(),
        periods: all_periods(),
        spreads: all_spreads(),
        apart: all_apart(),
        places: all_places(),
        paths: all_paths(),
    }
}

/// A path of each kind.
fn all_paths() -> Paths {
    Paths {
        below: 3,
        to_horizon: 2,
        within_a_tick: 2,
        ready_while_waiting: 1,
        again: 1,
        against_numbers: 1,
        works: 9,
        messages: 4,
        observations: 11,
        choices: 90,
    }
}

/// A table for each way in which checks 4 to 9 stop, and one that they accept.
fn all_places() -> Places {
    Places {
        places: [[1; 3]; 38],
        on_bands: 1,
        with_budgets: 1,
        openings: [1; 12],
        none: 1,
    }
}

/// A call of each kind at a spread.
fn all_spreads() -> Spreads {
    Spreads {
        answers: [1; 17],
        at_0: 2,
        largest: [1; 4],
        met: [3, 2, 1],
    }
}

/// The same runs of nodes that wake apart.
fn all_apart() -> RunsApart {
    RunsApart {
        runs: Runs {
            reasons: [1, 0, 0, 0, 0, 6],
            ..all_kinds()
        },
        above: 2,
        together: 1,
        messages: [8, 9],
        filled: 3,
    }
}

/// 7 runs of each end, and all that there is.
fn all_kinds() -> Runs {
    Runs {
        ends: [7; 4],
        late_at_work: 5,
        late_for_sleep: 4,
        several_late: 2,
        reasons: [1, 1, 1, 2, 2, 0],
        short: 6,
        many: 1,
        kept: 3,
        choices: 100,
        observations: 30,
        messages: 20,
        timeouts: 10,
        noted: all_finishes(),
    }
}

/// A finish tick of each kind.
fn all_finishes() -> Noted {
    Noted {
        firsts: 10,
        done: [4, 3, 2],
        sent: [3, 2, 1],
        taken: 6,
        timed_out: 5,
        spread: 1,
    }
}

const FULL: [u64; 16] = [1, 2, 3, 4, 5, 6, 7, 8, 9, 10, 11, 12, 13, 14, 15, 16];

/// At least so many cases and runs.
fn least(cases: u64, runs: u64) -> Least {
    Least {
        cases,
        runs,
        of_each_kind: 1,
        of_each_hearing: 12,
        of_each_apart: 1,
        of_each_place: 1,
        of_each_path: 1,
        of_each_finish: 1,
        of_each_simulation: 1,
        of_each_export: 1,
        of_each_site: 1,
        of_each_period: 1,
    }
}

#[test]
fn what_was_not_tried_is_told() {
    let full = tally("full", FULL);
    let empty = Tally::new("empty");
    let some = tally("some", [0, 1, 1, 0, 1, 1, 1, 1, 1, 1, 1, 12, 0, 12, 0, 11]);
    assert_eq!(cases(&[full.clone(), some.clone()]), [180, 38, 76 + 80, 10]);
    let one = std::slice::from_ref(&full);
    assert_eq!(gaps(one, &least(136, 28)), Vec::<String>::new());
    assert_eq!(gaps(one, &least(137, 28)), ["136 cases are fewer than 137"]);
    assert_eq!(gaps(one, &least(136, 29)), ["28 runs are fewer than 29"]);
    let told = ["nothing was tried in the class: empty"];
    assert_eq!(gaps(&[full.clone(), empty], &least(0, 0)), told);
    let told = [
        "no table was accepted",
        "no table was refused with 3",
        "no table was refused with 12",
        "no table was refused with 16",
        "11 tables refused with 17 are fewer than 12",
    ];
    assert_eq!(gaps(&[some], &least(0, 0)), told);
    let bare = Tally {
        answers: FULL,
        runs: all_kinds(),
        simulated: all_simulated(),
        exports: all_exports(),
        sites: all_sites(),
        periods: all_periods(),
        spreads: all_spreads(),
        apart: all_apart(),
        places: all_places(),
        paths: all_paths(),
        ..Tally::new("bare")
    };
    let told = [
        "no list was written",
        "no list was too short",
        "no list was lent for a refused table",
        "no program was written",
        "no program was too long",
        "no refused table was translated",
        "no chart was written",
        "no chart was too long",
        "no refused table was drawn",
        "no plan was written",
        "no plan was too long",
        "no plan was refused with 18",
        "no edge was taken at once",
        "no edge was taken with a delay",
        "nowhere was there no candidate",
        "no refused table was asked for an edge",
        "no part was found",
        "no part was empty",
        "no edge had the reason: taken",
        "no edge had the reason: data bound",
        "no edge had the reason: no window",
        "no edge had the reason: ready later",
        "no edge had the reason: numbered higher",
        "no data bound failed behind another",
        "no reasons were too long",
        "no question was refused with 21",
        "no refused table was asked for reasons",
        "no list of no pairs was answered",
        "no list had a number left over",
        "no answers to pairs were too long",
        "no pair was refused with 21",
        "no pair was refused with 24",
        "no refused table was asked for positions",
        "no pair was before ready",
        "no pair was in the window",
        "no pair was in a passage above 255",
    ];
    assert_eq!(gaps(&[bare], &least(0, 0)), told);
    let no_runs = Tally {
        runs: Runs::default(),
        ..full.clone()
    };
    assert_eq!(gaps(&[no_runs], &least(0, 0)).len(), 17 + 10);
    let not_apart = Tally {
        spreads: Spreads::default(),
        apart: RunsApart::default(),
        ..full.clone()
    };
    assert_eq!(gaps(&[not_apart], &least(0, 0)).len(), 16 + 16 + 10);
    let nowhere = Tally {
        places: Places::default(),
        ..full.clone()
    };
    assert_eq!(gaps(&[nowhere], &least(0, 0)).len(), 25 + 52 + 2 + 12 + 3);
    let no_paths = Tally {
        paths: Paths::default(),
        ..full.clone()
    };
    assert_eq!(gaps(&[no_paths], &least(0, 0)).len(), 7);
    let unwritten = Tally {
        exports: Exports::default(),
        ..full.clone()
    };
    assert_eq!(gaps(&[unwritten], &least(0, 0)).len(), 10);
    let siteless = Tally {
        sites: Sites::default(),
        ..full.clone()
    };
    let told = gaps(&[siteless], &least(0, 0));
    assert_eq!(told.len(), 14);
    assert!(told.contains(&"0 networks refused with 28 are fewer than 1".to_string()));
    let unrepeated = Tally {
        periods: Periods::default(),
        ..full.clone()
    };
    let told = gaps(&[unrepeated], &least(0, 0));
    assert_eq!(told.len(), 14);
    assert!(told.contains(&"0 runs beyond it held to demand 3 are fewer than 1".to_string()));
    let unsimulated = Tally {
        simulated: Simulated::default(),
        ..full
    };
    let told = [
        "0 simulations without a late run are fewer than 1",
        "0 simulations with some late runs are fewer than 1",
        "0 simulations with late runs alone are fewer than 1",
        "0 simulations with several late nodes are fewer than 1",
        "0 simulations in which nothing was drawn are fewer than 1",
        "0 simulations refused with 22 are fewer than 1",
        "0 simulations refused with 23 are fewer than 1",
        "0 simulations of refused tables are fewer than 1",
        "0 simulated runs in time are fewer than 1",
        "0 simulated runs that were late are fewer than 1",
    ];
    assert_eq!(gaps(&[unsimulated], &least(0, 0)), told);
}

#[test]
fn a_line_tells_all_answers_that_were_given() {
    let some = tally("name", [1, 2, 0, 0, 0, 0, 0, 0, 3, 0, 0, 0, 4, 0, 5, 0]);
    let line = "name: 15 cases: accepted 1, refused 1: 2, refused 8: 3, refused 12: 4, \
                refused 16: 5; \
                6 lists: written 3, too short 2, refused before 1; \
                6 programs: written 3, too short 2, refused before 1; \
                6 charts: written 3, too short 2, refused before 1; \
                6 plans: written 3, too short 2, refused before 1; \
                10 edge choices: at once 4, later 3, no candidate 2, table refused 1; \
                7 questions: written 3, too short 2, refused 21: 1, table refused 1; \
                edges: taken 9, data bound 8, no window 7, ready later 6, numbered higher 5 \
                (4 data bounds behind another); \
                27 lists of pairs: written 9 (2 without a pair, 1 with a number left over), \
                too short 3, refused 21: 4, refused 24: 5, table refused 6; \
                pairs: before ready 70, in the window 80 (7 above passage 255); \
                9 parts: found 5, empty 4; 38 runs: 7 horizon, 7 used up, 7 late \
                (5 at work, 4 for a sleep, 2 several nodes), 7 not allowed \
                (1 no such node, 1 nothing kept, 1 early sleep, 2 early listen, \
                2 tick while due), 6 too few bytes, 1 too many choices, 3 table refused; \
                100 choices, 30 observations, 20 messages, 10 timeouts; \
                finish ticks: 10 none yet, 4 done at ready, 3 done between, 2 done at the end, \
                3 sent at ready, 2 sent between, 1 sent at the end, 6 taken, 5 timed out, \
                1 of work spread over ticks; \
                21 simulations: in time 6, some late 5, all late 4 (3 of several nodes), \
                refused 22: 1, refused 23: 2, table refused 3, nothing drawn 2; \
                90 simulated runs, 80 of them handed on as choices, 30 late; \
                15 texts: written 9, too short 3, refused 25: 2, table refused 1; \
                4 equal those of another version, 5 read back: 60 states, 40 moves of one, \
                10 of two, 2 broken entries; \
                11 airtimes; 44 calls of 2 sites: put in 9 (3 without airtime), taken out 8, \
                refused 26: 7 no such place, 6 filled, 5 empty, refused 27: 4, \
                refused 28: 3, table refused 2; 2 times full, 4 at the limit, \
                1 emptied for another horizon; \
                18 pairs: from tick 0 6, later 5, none 4, table refused 3; \
                34 runs to a horizon: 7 below the table's own, 8 to it, \
                9 beyond it (6 held to demand 3), 10 horizon, 5 used up, 6 late (2 beyond), \
                3 not allowed, refused 29: 1 for 0, 2 without a pair, 3 too few bytes, \
                4 table refused; 500 choices, 40 observations; \
                17 verdicts at a spread: accepted 1, refused 1: 1, refused 2: 1, refused 3: 1, \
                refused 4: 1, refused 5: 1, refused 6: 1, refused 7: 1, refused 8: 1, \
                refused 9: 1, refused 10: 1, refused 11: 1, refused 12: 1, refused 15: 1, \
                refused 16: 1, refused 17: 1, refused 19: 1; 2 at spread 0; \
                4 largest spreads: 0 1, between 1, 1,000 1, refused 1; \
                6 lists of windows that met: written 3, nothing 2, too short 1; \
                apart 38 runs: 7 horizon, 7 used up, 7 late \
                (5 at work, 4 for a sleep, 2 several nodes), 7 not allowed \
                (1 no such node, 6 yet to wake), 6 too few bytes, 1 too many choices, \
                3 table refused; 100 choices, 30 observations, 20 messages, 10 timeouts; \
                finish ticks: 10 none yet, 4 done at ready, 3 done between, 2 done at the end, \
                3 sent at ready, 2 sent between, 1 sent at the end, 6 taken, 5 timed out, \
                1 of work spread over ticks; \
                2 with an offset above the spread, 1 together, 3 with something filled in, \
                8 messages of a sender ahead, 9 behind; \
                114 places: 4: 39, 5: 72, 6: 3; 12 refused openings: 7: 1, 8: 4 at the start, \
                4 later, 9: 1 at the start, 2 later; 1 with neither; \
                5 paths: 3 below the horizon, 2 to the horizon, 2 to the middle of a tick, \
                1 with a window ready while waiting, 1 out and in again in one tick, \
                1 against the order of the numbers; \
                9 works, 4 messages, 11 observations, 90 choices";
    assert_eq!(some.to_string(), line);
    let sum = Tally::sum(&[some.clone(), some]);
    assert!(sum
        .to_string()
        .starts_with("all classes: 30 cases: accepted 2, "));
    assert_eq!(sum.lists.all(), 12);
    assert_eq!(sum.edge_choices.all(), 20);
    assert_eq!(sum.runs.all(), 76);
    assert_eq!((sum.spreads.all(), sum.apart.all()), (58, 80));
    assert_eq!(Tally::new("none").to_string(), "none: 0 cases");
}
