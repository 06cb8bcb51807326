//! Expressions as they are written, by the tool's order of precedence.

use crate::parse::Parser;
use crate::token::{is_reserved, Word};
use crate::Wrong;

/// An expression and where it begins.
#[derive(Clone, Debug, PartialEq, Eq)]
pub(crate) struct Expression {
    pub(crate) at: usize,
    pub(crate) form: Form,
}

/// The forms of an expression.
#[derive(Clone, Debug, PartialEq, Eq)]
pub(crate) enum Form {
    Name(String),
    Number(i32),
    Truth(bool),
    /// `-`
    Minus(Box<Expression>),
    /// `!`, `not`
    Not(Box<Expression>),
    /// Two expressions with a sign between them.
    Pair(Box<Expression>, &'static str, Box<Expression>),
}

/// How strongly `not` binds: weaker than `||`, stronger than `and`.
const NOT: u8 = 4;
/// How strongly `-` and `!` bind.
const STRONGEST: u8 = 10;

/// How strongly a sign between two expressions binds, and its one spelling.
fn sign(word: &Word) -> Option<(u8, &'static str)> {
    let spelled = match word {
        Word::Sign(sign) => sign,
        Word::Name(name) => name.as_str(),
        Word::Number(_) => return None,
    };
    Some(match spelled {
        ":=" | "=" => (1, ":="),
        "or" => (2, "||"),
        "imply" => (2, "imply"),
        "and" => (3, "&&"),
        "||" => (5, "||"),
        "&&" => (6, "&&"),
        "==" => (7, "=="),
        "!=" => (7, "!="),
        "<" => (8, "<"),
        "<=" => (8, "<="),
        ">=" => (8, ">="),
        ">" => (8, ">"),
        "+" => (9, "+"),
        "-" => (9, "-"),
        "*" => (STRONGEST, "*"),
        "/" => (STRONGEST, "/"),
        "%" => (STRONGEST, "%"),
        _ => return None,
    })
}

impl Parser<'_> {
    /// `Expression`
    pub(crate) fn expression(&mut self) -> Result<Expression, Wrong> {
        self.bound_by(1)
    }

    /// An expression whose signs bind at least so strongly. Signs of one strength are
    /// read from the left; an assignment is not read twice.
    fn bound_by(&mut self, least: u8) -> Result<Expression, Wrong> {
        let mut left = self.single()?;
        while let Some((strength, sign)) = self.word().and_then(sign) {
            if strength < least {
                break;
            }
            self.step();
            let right = self.bound_by(strength + 1)?;
            left = Expression {
                at: left.at,
                form: Form::Pair(Box::new(left), sign, Box::new(right)),
            };
        }
        Ok(left)
    }

    /// A name, a number, a truth, one in parentheses, or one with a sign before it.
    fn single(&mut self) -> Result<Expression, Wrong> {
        let at = self.at();
        let form = match self.word().cloned() {
            Some(Word::Number(number)) => self.stepped(Form::Number(number)),
            Some(Word::Name(name)) if name == "true" => self.stepped(Form::Truth(true)),
            Some(Word::Name(name)) if name == "false" => self.stepped(Form::Truth(false)),
            Some(Word::Name(name)) if name == "not" => {
                self.step();
                Form::Not(Box::new(self.bound_by(NOT)?))
            }
            Some(Word::Name(name)) if !is_reserved(&name) => self.stepped(Form::Name(name)),
            Some(Word::Sign("-")) => {
                self.step();
                Form::Minus(Box::new(self.single()?))
            }
            Some(Word::Sign("!")) => {
                self.step();
                Form::Not(Box::new(self.single()?))
            }
            Some(Word::Sign("(")) => {
                self.step();
                let inside = self.expression()?;
                self.sign(")")?;
                return Ok(inside);
            }
            _ => return self.wrong("an expression"),
        };
        Ok(Expression { at, form })
    }

    fn stepped(&mut self, form: Form) -> Form {
        self.step();
        form
    }
}
