//! Expressions by what they are: a number, a condition, an assignment.

use super::names::{Meaning, Names};
use crate::expression::{Expression, Form};
use crate::parse::{self, Name};
use crate::system::*;
use crate::Wrong;

/// The names that a process knows: its own, then those outside.
pub(super) struct Kinds<'a> {
    pub(super) own: &'a Names,
    pub(super) outer: &'a Names,
}

/// What a condition says of clocks.
#[derive(Clone, Copy, PartialEq, Eq, PartialOrd, Ord)]
enum Clocks {
    /// Nothing.
    None,
    /// Upper bounds, which an invariant may have.
    Bounded,
    /// Anything that a guard may say.
    Compared,
}

impl Kinds<'_> {
    fn meaning(&self, name: &Name) -> Result<Meaning, Wrong> {
        let inside = self.own.meaning(&name.name);
        let found = inside.or_else(|| self.outer.meaning(&name.name));
        found.ok_or((name.at, format!("{} is not declared", name.name)))
    }

    /// The number of a location.
    pub(super) fn location(&self, name: &Name) -> Result<usize, Wrong> {
        match self.meaning(name)? {
            Meaning::Location(number) => Ok(number),
            _ => Err((name.at, format!("{} is no location", name.name))),
        }
    }

    /// A location with its invariant, which bounds clocks from above alone.
    pub(super) fn state(&self, state: &parse::State) -> Result<Location, Wrong> {
        let invariant = match &state.invariant {
            None => Condition::Always(true),
            Some(written) => match self.condition(written)? {
                (_, Clocks::Compared) => return wrong(written, "no upper bound of a clock"),
                (condition, _) => condition,
            },
        };
        let name = state.name.name.clone();
        Ok(Location { name, invariant })
    }

    /// A transition.
    pub(super) fn transition(&self, own: &parse::Transition) -> Result<Transition, Wrong> {
        let guard = match &own.guard {
            None => Condition::Always(true),
            Some(written) => self.condition(written)?.0,
        };
        let sync = match &own.sync {
            None => None,
            Some((name, sends)) => match self.meaning(name)? {
                Meaning::Channel(channel) => Some(Sync {
                    channel,
                    sends: *sends,
                }),
                _ => return Err((name.at, format!("{} is no channel", name.name))),
            },
        };
        let assignments = own.assign.iter().map(|written| self.assignment(written));
        Ok(Transition {
            source: self.location(&own.source)?,
            target: self.location(&own.target)?,
            guard,
            sync,
            assignments: assignments.collect::<Result<_, Wrong>>()?,
        })
    }

    /// A clock or a variable that becomes a number.
    fn assignment(&self, written: &Expression) -> Result<Assignment, Wrong> {
        let Form::Pair(left, ":=", right) = &written.form else {
            return wrong(written, "no assignment");
        };
        let sum = self.sum(right)?;
        match self.named(left)? {
            Some(Meaning::Clock(clock)) => Ok(Assignment::Clock(clock, sum)),
            Some(Meaning::Variable(variable)) => Ok(Assignment::Variable(variable, sum)),
            _ => wrong(left, "nothing that can be changed"),
        }
    }

    /// What an expression stands for, if it is a name.
    fn named(&self, written: &Expression) -> Result<Option<Meaning>, Wrong> {
        match &written.form {
            Form::Name(name) => {
                let (at, name) = (written.at, name.clone());
                self.meaning(&Name { at, name }).map(Some)
            }
            _ => Ok(None),
        }
    }

    /// A condition, and what it says of clocks. An "or" and a "not" say nothing of them.
    fn condition(&self, written: &Expression) -> Result<(Condition, Clocks), Wrong> {
        match &written.form {
            Form::Truth(truth) => Ok((Condition::Always(*truth), Clocks::None)),
            Form::Not(inside) => {
                let inside = self.without_clocks(inside)?;
                Ok((Condition::Not(inside), Clocks::None))
            }
            Form::Pair(left, "&&", right) => {
                let (left, first) = self.condition(left)?;
                let (right, second) = self.condition(right)?;
                let both = Condition::And(Box::new(left), Box::new(right));
                Ok((both, first.max(second)))
            }
            Form::Pair(left, sign @ ("||" | "imply"), right) => {
                let (mut left, right) = (self.without_clocks(left)?, self.without_clocks(right)?);
                if *sign == "imply" {
                    left = Box::new(Condition::Not(left));
                }
                Ok((Condition::Or(left, right), Clocks::None))
            }
            Form::Pair(left, sign, right) => match relation(sign) {
                Some(relation) => self.compared(left, relation, right),
                None => wrong(written, "no condition"),
            },
            _ => wrong(written, "no condition"),
        }
    }

    fn without_clocks(&self, written: &Expression) -> Result<Box<Condition>, Wrong> {
        match self.condition(written)? {
            (condition, Clocks::None) => Ok(Box::new(condition)),
            _ => wrong(written, "clocks in an or or a not"),
        }
    }

    /// Two numbers compared, or a clock with a number; a clock on the right changes
    /// sides.
    fn compared(
        &self,
        left: &Expression,
        relation: Relation,
        right: &Expression,
    ) -> Result<(Condition, Clocks), Wrong> {
        if let Some(Meaning::Clock(clock)) = self.named(left)? {
            return self.bounded(left, clock, relation, right);
        }
        if let Some(Meaning::Clock(clock)) = self.named(right)? {
            return self.bounded(left, clock, relation.turned(), left);
        }
        let numbers = Condition::Numbers(self.sum(left)?, relation, self.sum(right)?);
        Ok((numbers, Clocks::None))
    }

    fn bounded(
        &self,
        at: &Expression,
        clock: usize,
        relation: Relation,
        bound: &Expression,
    ) -> Result<(Condition, Clocks), Wrong> {
        let clocks = match relation {
            Relation::Less | Relation::AtMost => Clocks::Bounded,
            Relation::Other => return wrong(at, "a clock compared with !="),
            _ => Clocks::Compared,
        };
        Ok((Condition::Clock(clock, relation, self.sum(bound)?), clocks))
    }

    /// A number, in which no clock stands.
    fn sum(&self, written: &Expression) -> Result<Sum, Wrong> {
        match &written.form {
            Form::Number(number) => Ok(Sum::Number(*number)),
            Form::Name(_) => match self.named(written)? {
                Some(Meaning::Variable(variable)) => Ok(Sum::Variable(variable)),
                _ => wrong(written, "no number"),
            },
            Form::Minus(inside) => Ok(Sum::Minus(Box::new(self.sum(inside)?))),
            Form::Pair(left, sign, right) => match arithmetic(sign) {
                Some(sign) => {
                    let (left, right) = (self.sum(left)?, self.sum(right)?);
                    Ok(Sum::Pair(Box::new(left), sign, Box::new(right)))
                }
                None => wrong(written, "no number"),
            },
            Form::Truth(_) | Form::Not(_) => wrong(written, "no number"),
        }
    }
}

/// A number in which no name stands.
pub(super) fn constant(written: &Expression) -> Result<i32, Wrong> {
    let (own, outer) = (&Names::default(), &Names::default());
    let sum = Kinds { own, outer }.sum(written)?;
    let value = crate::network::value(&sum, &[]);
    value.map_err(|_| (written.at, "a number of more than 32 bits".into()))
}

fn wrong<T>(written: &Expression, what: &str) -> Result<T, Wrong> {
    Err((written.at, what.into()))
}

fn relation(sign: &str) -> Option<Relation> {
    Some(match sign {
        "<" => Relation::Less,
        "<=" => Relation::AtMost,
        "==" => Relation::Equal,
        "!=" => Relation::Other,
        ">=" => Relation::AtLeast,
        ">" => Relation::Greater,
        _ => return None,
    })
}

fn arithmetic(sign: &str) -> Option<Arithmetic> {
    Some(match sign {
        "+" => Arithmetic::Add,
        "-" => Arithmetic::Subtract,
        "*" => Arithmetic::Multiply,
        "/" => Arithmetic::Divide,
        "%" => Arithmetic::Rest,
        _ => return None,
    })
}
