//! Reasons and programs that are wrong about budgets are found out.

mod finding;
mod retelling;

use comparison::readers::{refused, second_translate, Reader, Reasons, Writes, TOO_SHORT};
use finding::finder;
use reference::program::{part_bytes, Op, Statement, HEADER, PART_HEAD, STATEMENT};
use retelling::{retold, ToldEdge};
use timed_network::{Call, Told, Verdict, MAX_PROGRAM};

/// The classes that draw budgets.
fn drawn(class: &str) -> bool {
    class.starts_with("budgets ")
}

/// The class that draws tables of versions 1 and 2.
fn without_budgets(class: &str) -> bool {
    class == "planned tables"
}

/// The class of stored requests.
fn stored(class: &str) -> bool {
    class == "programs, parts and runs of the vectors"
}

// ## Reasons

/// Whether a class finds reasons that are wrong.
fn finds_reasons(classes: fn(&str) -> bool, reasons: Reasons) -> bool {
    let second = Reader::second();
    let library = Reader { reasons, ..second };
    finder(classes, library, second).is_some()
}

/// The window of an edge that is not taken and has no data bound that fails, if it has a
/// tick's length.
fn window(edge: &ToldEdge) -> Option<(u32, u32)> {
    let open = !edge.taken() && edge.failing().is_none();
    let window = edge.window().filter(|_| open);
    window.filter(|(ready, end)| ready < end)
}

/// The reason of an edge by its ready alone, if there is time enough for it, else that it
/// has no window.
fn by_time(edge: &ToldEdge, ready: u32, enough: bool) -> Option<[u8; 2]> {
    let reason = match enough {
        false => 2,
        true if ready > edge.passage.ready => 3,
        true => 4,
    };
    Some([reason, 255])
}

fn budgets_ignored(table: &[u8], component: u32, tick: u32, told: &mut [u8]) -> Told {
    retold((table, component, tick), told, |edge| {
        let (ready, _) = window(edge)?;
        by_time(edge, ready, true)
    })
}

/// The ticks of a window are counted, one more than its length.
fn ticks_for_length(table: &[u8], component: u32, tick: u32, told: &mut [u8]) -> Told {
    retold((table, component, tick), told, |edge| {
        let (ready, end) = window(edge)?;
        by_time(edge, ready, end - ready + 1 >= edge.edge.budget.into())
    })
}

fn one_tick_more(table: &[u8], component: u32, tick: u32, told: &mut [u8]) -> Told {
    retold((table, component, tick), told, |edge| {
        let (ready, end) = window(edge)?;
        by_time(edge, ready, end - ready > edge.edge.budget.into())
    })
}

fn length_from_the_entry(table: &[u8], component: u32, tick: u32, told: &mut [u8]) -> Told {
    retold((table, component, tick), told, |edge| {
        let (ready, end) = window(edge)?;
        let length = end - edge.passage.entry;
        by_time(edge, ready, length >= edge.edge.budget.into())
    })
}

fn budget_of_the_edge_taken(table: &[u8], component: u32, tick: u32, told: &mut [u8]) -> Told {
    retold((table, component, tick), told, |edge| {
        let (ready, end) = window(edge)?;
        let taken = &edge.component.edges[usize::from(edge.passage.edge)];
        by_time(edge, ready, end - ready >= taken.budget.into())
    })
}

/// The budget is asked before the data bounds.
fn budget_before_data(table: &[u8], component: u32, tick: u32, told: &mut [u8]) -> Told {
    retold((table, component, tick), told, |edge| {
        let (ready, end) = edge.window()?;
        let short = end - ready < edge.edge.budget.into();
        short.then_some([2, 255])
    })
}

/// A window that is shorter than the budget has a reason of its own.
fn reason_of_its_own(table: &[u8], component: u32, tick: u32, told: &mut [u8]) -> Told {
    retold((table, component, tick), told, |edge| {
        let (ready, end) = window(edge)?;
        let short = end - ready < edge.edge.budget.into();
        short.then_some([5, 255])
    })
}

const WRONG_REASONS: [(&str, Reasons); 7] = [
    ("budgets_ignored", budgets_ignored),
    ("ticks_for_length", ticks_for_length),
    ("one_tick_more", one_tick_more),
    ("length_from_the_entry", length_from_the_entry),
    ("budget_of_the_edge_taken", budget_of_the_edge_taken),
    ("budget_before_data", budget_before_data),
    ("reason_of_its_own", reason_of_its_own),
];

/// Told anew by the rule as it is, they are not found.
#[test]
fn the_right_reasons_are_not_found() {
    let right: Reasons = |table, component, tick, told| {
        retold((table, component, tick), told, |edge| {
            let (ready, end) = window(edge)?;
            by_time(edge, ready, end - ready >= edge.edge.budget.into())
        })
    };
    for classes in [drawn, stored] {
        assert!(!finds_reasons(classes, right));
    }
}

#[test]
fn wrong_reasons_are_found_by_budgets_drawn() {
    for (name, reasons) in WRONG_REASONS {
        assert!(finds_reasons(drawn, reasons), "{name}");
    }
}

#[test]
fn wrong_reasons_are_found_by_the_vectors() {
    for (name, reasons) in WRONG_REASONS {
        assert!(finds_reasons(stored, reasons), "{name}");
    }
}

// ## Programs

/// Whether a class finds a translator that is wrong.
fn finds_program(classes: fn(&str) -> bool, translate: Writes) -> bool {
    let second = Reader::second();
    let library = Reader {
        translate,
        ..second
    };
    finder(classes, library, second).is_some()
}

/// A part with the statements of each location's block made anew.
fn rewritten_part(part: &[u8], block: impl Fn(Vec<Statement>) -> Vec<Statement>) -> Vec<u8> {
    let locations = usize::from(part[2]);
    let blocks = locations + usize::from(part[3]);
    let (head, code) = part.split_at(PART_HEAD + 2 * blocks);
    let code = code.chunks_exact(STATEMENT);
    let code = code.map(|bytes| Statement::from_bytes(bytes.try_into().unwrap()).unwrap());
    let code: Vec<Statement> = code.collect();
    let starts = head[PART_HEAD..].chunks_exact(2);
    let starts = starts.map(|two| usize::from(u16::from_be_bytes([two[0], two[1]])));
    let starts: Vec<usize> = starts.chain([code.len()]).collect();
    let mut written = head[..PART_HEAD].to_vec();
    let mut statements: Vec<Statement> = Vec::new();
    for (number, ends) in starts.windows(2).enumerate() {
        written.extend((statements.len() as u16).to_be_bytes());
        let own = code[ends[0]..ends[1]].to_vec();
        statements.extend(if number < locations { block(own) } else { own });
    }
    written.extend(statements.iter().flat_map(|statement| statement.to_bytes()));
    let length = written.len() as u16;
    written[..2].copy_from_slice(&length.to_be_bytes());
    written
}

/// The second implementation's program with the statements of each location's block made
/// anew, from its version and the block.
fn rewritten(
    table: &[u8],
    bytes: &mut [u8],
    block: fn(u8, Vec<Statement>) -> Vec<Statement>,
) -> Call {
    let mut right = vec![0; MAX_PROGRAM];
    let call = second_translate(table, &mut right);
    if call.verdict != Verdict::Accepted {
        return call;
    }
    let right = &right[..call.size];
    let mut program = right[..HEADER].to_vec();
    for node in 0..usize::from(right[3]) {
        let part = part_bytes(right, node);
        program.extend(rewritten_part(part, |own| block(right[0], own)));
    }
    let length = program.len() as u16;
    program[1..3].copy_from_slice(&length.to_be_bytes());
    if bytes.len() < program.len() {
        return Call {
            verdict: refused(TOO_SHORT, 255),
            size: 0,
        };
    }
    bytes[..program.len()].copy_from_slice(&program);
    Call {
        size: program.len(),
        ..call
    }
}

/// Each statement of a budget changed, or left out.
fn changed(block: Vec<Statement>, change: fn(Statement) -> Option<Statement>) -> Vec<Statement> {
    let changed = |statement: Statement| match statement.op {
        Op::Budget => change(statement),
        _ => Some(statement),
    };
    block.into_iter().filter_map(changed).collect()
}

fn left_out(table: &[u8], bytes: &mut [u8]) -> Call {
    rewritten(table, bytes, |_, block| changed(block, |_| None))
}

fn left_out_for_0(table: &[u8], bytes: &mut [u8]) -> Call {
    rewritten(table, bytes, |_, block| {
        changed(block, |budget| Some(budget).filter(|budget| budget.k > 0))
    })
}

fn one_less(table: &[u8], bytes: &mut [u8]) -> Call {
    rewritten(table, bytes, |_, block| {
        changed(block, |Statement { k, .. }| {
            Some(Statement::new(Op::Budget, 0, k.saturating_sub(1)))
        })
    })
}

fn low_byte_first(table: &[u8], bytes: &mut [u8]) -> Call {
    rewritten(table, bytes, |_, block| {
        changed(block, |Statement { k, .. }| {
            Some(Statement::new(Op::Budget, 0, k.swap_bytes()))
        })
    })
}

fn written_as_a(table: &[u8], bytes: &mut [u8]) -> Call {
    rewritten(table, bytes, |_, block| {
        changed(block, |Statement { k, .. }| {
            Some(Statement::new(Op::Budget, k as u8, 0))
        })
    })
}

/// A budget stands before its keep: the two exchanged.
fn behind_keep(table: &[u8], bytes: &mut [u8]) -> Call {
    rewritten(table, bytes, |_, mut block| {
        let budgets = (0..block.len()).filter(|at| block[*at].op == Op::Budget);
        for at in budgets.collect::<Vec<usize>>() {
            block.swap(at, at + 1);
        }
        block
    })
}

/// Right behind the trial, before all bounds.
fn before_the_bounds(table: &[u8], bytes: &mut [u8]) -> Call {
    rewritten(table, bytes, |_, mut block| {
        let mut trial = 0;
        for at in 0..block.len() {
            match block[at].op {
                Op::Trial => trial = at,
                Op::Budget => block[trial + 1..=at].rotate_right(1),
                _ => {}
            }
        }
        block
    })
}

/// The edge's number for its budget.
fn number_of_the_edge(table: &[u8], bytes: &mut [u8]) -> Call {
    rewritten(table, bytes, |_, mut block| {
        for at in 1..block.len() {
            if block[at - 1].op == Op::Budget {
                block[at - 1].k = block[at].k;
            }
        }
        block
    })
}

/// In versions 1 and 2 too.
fn in_every_version(table: &[u8], bytes: &mut [u8]) -> Call {
    rewritten(table, bytes, |version, block| {
        let asked = |statement: Statement| match statement.op {
            Op::Keep if version < 3 => vec![Statement::plain(Op::Budget), statement],
            _ => vec![statement],
        };
        block.into_iter().flat_map(asked).collect()
    })
}

/// The program of a version 3 table says that it is one of version 2.
fn version_2(table: &[u8], bytes: &mut [u8]) -> Call {
    let call = second_translate(table, bytes);
    if call.size > 0 {
        bytes[0] = bytes[0].min(2);
    }
    call
}

/// The starts of the blocks are those without budgets.
fn starts_without_budgets(table: &[u8], bytes: &mut [u8]) -> Call {
    let call = second_translate(table, bytes);
    let mut without = vec![0; MAX_PROGRAM];
    let short = left_out(table, &mut without);
    for node in 0..call.size.min(1) * usize::from(without[3]) {
        let (from, _) = reference::program::part(&bytes[..call.size], node);
        let short = part_bytes(&without[..short.size], node);
        let blocks = usize::from(short[2]) + usize::from(short[3]);
        let starts = PART_HEAD..PART_HEAD + 2 * blocks;
        bytes[from..][starts.clone()].copy_from_slice(&short[starts]);
    }
    call
}

const WRONG_PROGRAMS: [(&str, Writes); 10] = [
    ("left_out", left_out),
    ("left_out_for_0", left_out_for_0),
    ("one_less", one_less),
    ("low_byte_first", low_byte_first),
    ("written_as_a", written_as_a),
    ("behind_keep", behind_keep),
    ("before_the_bounds", before_the_bounds),
    ("number_of_the_edge", number_of_the_edge),
    ("version_2", version_2),
    ("starts_without_budgets", starts_without_budgets),
];

#[test]
fn wrong_programs_are_found_by_budgets_drawn() {
    for (name, translate) in WRONG_PROGRAMS {
        assert!(finds_program(drawn, translate), "{name}");
    }
}

#[test]
fn wrong_programs_are_found_by_the_vectors() {
    for (name, translate) in WRONG_PROGRAMS {
        assert!(finds_program(stored, translate), "{name}");
    }
}

#[test]
fn a_budget_in_versions_1_and_2_is_found() {
    assert!(finds_program(without_budgets, in_every_version));
    assert!(finds_program(stored, in_every_version));
    assert!(!finds_program(drawn, in_every_version));
}

/// The statements of the right program, written anew as they are, are not found.
#[test]
fn the_right_program_is_not_found() {
    let same: Writes = |table, bytes| rewritten(table, bytes, |_, block| block);
    for classes in [drawn, without_budgets, stored] {
        assert!(!finds_program(classes, same));
    }
}
