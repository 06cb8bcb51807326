//! The step of one node: held against the second implementation, and where
//! it changes nothing.

use std::fs;
use std::path::Path;

use reference::program::{part_bytes, program, NodeProgram, Op, Statement};
use reference::run::{Node as Second, Registers};
use reference::table::{read_table, Component, Table};
use timed_network::node::Node;

/// The tables of the corpus that can be read.
fn tables() -> Vec<Table> {
    let folder = Path::new(env!("CARGO_MANIFEST_DIR")).join("../../corpus");
    let files = fs::read_dir(folder).expect("the corpus is there");
    let paths = files.map(|file| file.expect("a file of the corpus").path());
    let bytes = paths.filter(|path| path.extension().is_some_and(|end| end == "bin"));
    let read = bytes.map(|path| read_table(&fs::read(path).expect("a table of the corpus")));
    read.flatten().collect()
}

/// The registers that both implementations have, in one form.
fn seen(node: &Node, head: usize, clocks: usize, variables: usize) -> String {
    let place = (node.pc - head) / 4;
    let paired = node.taken.then_some(node.goes);
    let (clocks, values) = (&node.clocks[..clocks], &node.values[..variables]);
    let (location, edge, t, n, d) = (node.location, node.edge, node.t, node.n, node.d);
    format!("{place} {location} {edge} {t} {n} {d} {clocks:?} {values:?} {paired:?}")
}

fn expected(second: &Registers, clocks: usize, variables: usize) -> String {
    let (place, paired) = (second.place, second.paired);
    let (clocks, values) = (&second.clocks[..clocks], &second.variables[..variables]);
    let (location, edge, t, n, d) = (second.location, second.edge, second.t, second.n, second.d);
    format!("{place} {location} {edge} {t} {n} {d} {clocks:?} {values:?} {paired:?}")
}

/// Whether the statement is an addition out of range, as in the program of a
/// table that check 9 refuses.
fn leaves_range(registers: &Registers, statement: Statement) -> bool {
    let Statement { op, a, .. } = statement;
    let value = || registers.variables[usize::from(a)];
    op == Op::Add && value().checked_add(statement.signed()).is_none()
}

/// One node alone, each of its statements finished as early as it may be;
/// every other listen takes a message. Gives how many steps were compared.
fn compare(part: &[u8], component: &Component) -> usize {
    let (clocks, variables) = (component.clocks, component.variables);
    let counts = (usize::from(clocks), usize::from(variables));
    let opened = NodeProgram::new(part).expect("a part");
    let head = 6 + 2 * (usize::from(opened.locations) + usize::from(opened.edges));
    let mut second = Second::new(opened).expect("a start");
    let mut node = Node::start(part);
    for steps in 0..600 {
        let registers = &second.registers;
        assert_eq!(
            seen(&node, head, counts.0, counts.1),
            expected(registers, counts.0, counts.1)
        );
        let Some(statement) = second.statement() else {
            return steps;
        };
        if leaves_range(registers, statement) {
            let before = node;
            node.step(part, clocks, variables);
            assert_eq!(node, before);
            return steps;
        }
        if statement.op == Op::Listen && steps % 2 == 1 {
            let heard = |channel| Some((channel, second.listens_to(channel)?));
            let (channel, (pairs, location)) = (0..=255).find_map(heard).expect("a pair");
            second.received(pairs, location);
            node.take_message(part, channel);
            continue;
        }
        node.step(part, clocks, variables);
        match statement.op {
            Op::Send => second.sent(),
            Op::Listen => {
                let tick = second.window_end();
                second.finish(0, statement, tick).expect("it is allowed");
            }
            _ => {
                let tick = second.registers.t;
                if second.finish(0, statement, tick).is_none() {
                    return steps;
                }
            }
        }
    }
    600
}

#[test]
fn each_node_of_the_corpus_goes_as_the_second_implementation_goes() {
    let mut steps = 0;
    for table in tables() {
        let program = program(&table);
        for (number, component) in table.components.iter().enumerate() {
            steps += compare(part_bytes(&program, number), component);
        }
    }
    assert!(10_000 < steps, "only {steps} steps were compared");
}

/// A part of one location whose block is one statement.
fn one_statement(statement: [u8; 4]) -> Vec<u8> {
    let head = [0, 12, 1, 0, 0, 0, 0, 0];
    [&head[..], &statement].concat()
}

#[test]
fn an_addition_is_carried_out_or_left() {
    let part = one_statement([2, 0, 0, 1]);
    let mut node = Node::start(&part);
    node.values[0] = 32_766;
    node.step(&part, 0, 1);
    assert_eq!((node.values[0], node.pc), (32_767, 12));
    node.pc = 8;
    let before = node;
    node.step(&part, 0, 1);
    assert_eq!(node, before);
}

#[test]
fn a_sleep_is_counted_unless_a_register_is_too_high() {
    let part = one_statement([0, 0, 0, 0]);
    let start = Node::start(&part);
    let highest = 4_000_000_000_000_000_000;
    let stepped = |change: fn(&mut Node, u64), to: u64, clocks: u8, variables: u8| {
        let mut node = start;
        change(&mut node, to);
        let before = node;
        node.step(&part, clocks, variables);
        (node != before, node.sleeps - before.sleeps)
    };
    let changes: [fn(&mut Node, u64); 4] = [
        |node, to| node.t = to,
        |node, to| node.sleeps = to,
        |node, to| node.clocks[0] = to,
        |node, to| node.clocks[3] = to,
    ];
    for change in changes {
        assert_eq!(stepped(change, highest, 4, 4), (true, 1));
        assert_eq!(stepped(change, highest + 1, 4, 4), (false, 0));
        assert_eq!(stepped(change, 0, 5, 4), (false, 0));
        assert_eq!(stepped(change, 0, 4, 5), (false, 0));
    }
}

#[test]
fn a_part_of_65_536_bytes_is_left() {
    let mut part = one_statement([0, 0, 0, 0]);
    part.resize(65_535, 0);
    let mut node = Node::start(&part);
    node.step(&part, 0, 0);
    assert_eq!(node.sleeps, 1);
    part.push(0);
    let before = node;
    node.step(&part, 0, 0);
    assert_eq!(node, before);
}

#[test]
fn without_a_statement_nothing_changes() {
    let part = one_statement([19, 0, 0, 0]);
    for pc in [0, 8, 9, 12, usize::MAX] {
        let mut node = Node::start(&part);
        node.pc = pc;
        let before = node;
        node.step(if pc == 0 { &[] } else { &part }, 4, 4);
        assert_eq!(node, before, "at {pc}");
    }
}

/// Statement 12, hexadecimal: a trial whose end is not lowered yet meets any budget.
#[test]
fn a_budget_outside_a_trial_goes_on() {
    let part = one_statement([18, 0, 0xff, 0xff]);
    let mut node = Node::start(&part);
    let before = node;
    node.step(&part, 0, 0);
    assert_eq!(node.pc, before.pc + 4);
    assert_eq!(node.tried, before.tried);
}

#[test]
fn a_take_with_nothing_kept_changes_nothing() {
    let part = one_statement([16, 0, 0, 0]);
    let mut node = Node::start(&part);
    (node.t, node.d, node.goes) = (7, 3, 5);
    (node.kept.edge, node.kept.ready, node.kept.end) = (1, 2, 9);
    let before = node;
    node.step(&part, 4, 4);
    assert_eq!(node, before);
    node.kept.some = true;
    node.step(&part, 4, 4);
    assert_eq!((node.t, node.n, node.d, node.edge), (12, 2, 7, 1));
    assert!(!node.kept.some);
}

/// A listen on two channels: 3 leads to location 4, 5 to location 6.
const LISTEN: [u8; 20] = [0, 20, 1, 0, 0, 0, 0, 0, 5, 2, 0, 0, 6, 3, 0, 4, 6, 5, 0, 6];

#[test]
fn a_message_is_taken_and_its_location_entered() {
    let part = [&LISTEN[..], &[9, 0, 0, 2]].concat();
    for (channel, location) in [(3, 4), (5, 6)] {
        let mut node = Node::start(&part);
        (node.t, node.n, node.d, node.edge) = (9, 2, 3, 1);
        let expected = Node {
            pc: 20,
            taken: true,
            goes: location,
            ..node
        };
        node.take_message(&part, channel);
        assert_eq!(node, expected);
        node.take_message(&part, channel);
        assert_eq!(node, expected);
        node.step(&part, 1, 0);
        let entered = Node {
            pc: 24,
            location,
            taken: false,
            ..expected
        };
        assert_eq!(node, entered);
    }
    let mut node = Node::start(&part);
    node.step(&part, 1, 0);
    node.step(&part, 1, 0);
    assert_eq!((node.location, node.pc), (2, 24));
}

#[test]
fn a_message_that_no_listen_names_changes_nothing() {
    let mut part = LISTEN.to_vec();
    let start = Node::start(&part);
    let left = |node: Node, part: &[u8], channel: u8| {
        let mut after = node;
        after.take_message(part, channel);
        after == node
    };
    assert!(left(start, &part, 4));
    assert!(left(start, &[], 3));
    assert!(left(Node { pc: 12, ..start }, &part, 3));
    let taken = Node {
        taken: true,
        goes: 9,
        ..start
    };
    assert!(left(taken, &part, 3));
    part.resize(65_535, 0);
    assert!(!left(start, &part, 3));
    part.push(0);
    assert!(left(start, &part, 3));
}
