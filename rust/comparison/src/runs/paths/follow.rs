//! The choices of a path, step by step: before a tick each node goes on as far as it
//! can without finishing a work; a step in is the node's statements up to its work; a
//! step out is nothing; at the end the nodes go on once more, so that every
//! observation is there. The sleep of a node whose component still waits is left, as
//! its passage is not on the path yet.

use crate::random::Random;
use crate::runs::Subject;
use demand::TICK;
use reference::network::Step;
use reference::program::{program, Op};
use reference::run::Machine;

/// The choices of a path of an accepted table. Before each step the nodes may have
/// gone on already, any of them as far as they please: choices need not know what
/// comes.
pub fn choices(random: &mut Random, subject: &Subject, steps: &[Step]) -> Result<Vec<u8>, String> {
    let program = program(&subject.table);
    let machine = Machine::new(&subject.table, &subject.passages, &program);
    let mut follow = Follow {
        machine: machine.ok_or("the program has not as many nodes as the table")?,
        waits: vec![false; subject.table.components.len()],
        choices: Vec::new(),
    };
    let idle = random.pick(&[2, 10, usize::MAX]);
    for step in steps {
        if random.once_in(idle) {
            let node = random.below(follow.waits.len()) as u8;
            follow.go_on(node, random.within(1..=6));
        }
        follow.step(*step)?;
    }
    if follow.machine.tick() < follow.machine.horizon() {
        follow.settle();
    }
    Ok(follow.choices)
}

/// The nodes on their way along a path.
struct Follow<'a> {
    machine: Machine<'a>,
    /// Whether each component waits on the path.
    waits: Vec<bool>,
    choices: Vec<u8>,
}

impl Follow<'_> {
    fn step(&mut self, step: Step) -> Result<(), String> {
        match step {
            Step::Tick => {
                self.settle();
                self.choose(TICK)
            }
            Step::Alone { component, .. } => self.work(component, &[component]),
            Step::Joint {
                sender, receiver, ..
            } => self.work(sender, &[sender, receiver]),
            Step::Out { component } => {
                self.waits[usize::from(component)] = false;
                Ok(())
            }
        }
    }

    /// Carries out a choice, which has to be allowed.
    fn choose(&mut self, choice: u8) -> Result<(), String> {
        let tick = self.machine.tick();
        let refused = || format!("choice {choice} is not allowed at tick {tick}");
        self.machine.choose(choice).ok_or_else(refused)?;
        self.choices.push(choice);
        Ok(())
    }

    /// What a node stands at.
    fn op(&self, node: u8) -> Option<Op> {
        let statement = self.machine.nodes()[usize::from(node)].statement();
        statement.map(|statement| statement.op)
    }

    /// A node finishes its statements up to its work, and these components wait.
    fn work(&mut self, node: u8, wait: &[u8]) -> Result<(), String> {
        loop {
            let works = is_work(self.op(node));
            self.choose(node)?;
            if works {
                break;
            }
        }
        for component in wait {
            self.waits[usize::from(*component)] = true;
        }
        Ok(())
    }

    /// A node goes on by at most so many statements, as far as it can without
    /// finishing a work.
    fn go_on(&mut self, node: u8, most: usize) {
        for _ in 0..most {
            let op = self.op(node);
            let stays = op == Some(Op::Sleep) && self.waits[usize::from(node)];
            if is_work(op) || stays || self.choose(node).is_err() {
                return;
            }
        }
    }

    /// All nodes go on.
    fn settle(&mut self) {
        for node in 0..self.waits.len() as u8 {
            self.go_on(node, usize::MAX);
        }
    }
}

/// Whether a statement finishes a work.
fn is_work(op: Option<Op>) -> bool {
    matches!(op, Some(Op::Done | Op::Send | Op::Listen))
}
