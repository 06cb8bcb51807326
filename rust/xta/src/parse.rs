//! The productions of the grammar, one function each.

use crate::expression::Expression;
use crate::token::{is_reserved, Token, Word};
use crate::Wrong;

/// A name and where it stands.
#[derive(Clone, Debug, PartialEq, Eq)]
pub(crate) struct Name {
    pub(crate) at: usize,
    pub(crate) name: String,
}

/// What is declared.
#[derive(Clone, Debug, PartialEq, Eq)]
pub(crate) enum Type {
    Channel,
    Clock,
    /// With its range, if one is written.
    Int(Option<(Expression, Expression)>),
}

/// `VariableDecl`
#[derive(Clone, Debug, PartialEq, Eq)]
pub(crate) struct Declared {
    pub(crate) kind: Type,
    pub(crate) names: Vec<Name>,
}

/// `StateDecl`
#[derive(Clone, Debug, PartialEq, Eq)]
pub(crate) struct State {
    pub(crate) name: Name,
    pub(crate) invariant: Option<Expression>,
}

/// `Transition`
#[derive(Clone, Debug, PartialEq, Eq)]
pub(crate) struct Transition {
    pub(crate) source: Name,
    pub(crate) target: Name,
    pub(crate) guard: Option<Expression>,
    /// The channel, and whether it is sent on.
    pub(crate) sync: Option<(Name, bool)>,
    pub(crate) assign: Vec<Expression>,
}

/// `ProcDecl`
#[derive(Clone, Debug, PartialEq, Eq)]
pub(crate) struct Process {
    pub(crate) name: Name,
    pub(crate) declared: Vec<Declared>,
    pub(crate) states: Vec<State>,
    pub(crate) init: Name,
    pub(crate) transitions: Vec<Transition>,
}

/// `XTA`
#[derive(Clone, Debug, PartialEq, Eq)]
pub(crate) struct Text {
    pub(crate) declared: Vec<Declared>,
    pub(crate) processes: Vec<Process>,
    pub(crate) system: Vec<Name>,
}

/// The words that are left to be read.
pub(crate) struct Parser<'a> {
    tokens: &'a [Token],
    end: usize,
}

/// Reads all words of a text that ends at a place.
pub(crate) fn parse(tokens: &[Token], end: usize) -> Result<Text, Wrong> {
    let mut parser = Parser { tokens, end };
    let text = parser.text()?;
    match parser.tokens {
        [] => Ok(text),
        _ => parser.wrong("the end of the text"),
    }
}

impl Parser<'_> {
    /// The next word.
    pub(crate) fn word(&self) -> Option<&Word> {
        self.tokens.first().map(|token| &token.word)
    }

    /// Where it stands.
    pub(crate) fn at(&self) -> usize {
        self.tokens.first().map_or(self.end, |token| token.at)
    }

    /// Goes on to the word behind it.
    pub(crate) fn step(&mut self) {
        self.tokens = &self.tokens[1..];
    }

    /// Another word is expected here.
    pub(crate) fn wrong<T>(&self, expected: &str) -> Result<T, Wrong> {
        Err((self.at(), format!("{expected} is expected")))
    }

    /// Takes a sign.
    pub(crate) fn sign(&mut self, sign: &'static str) -> Result<(), Wrong> {
        match self.is_sign(sign) {
            true => Ok(()),
            false => self.wrong(sign),
        }
    }

    /// Takes a sign if it is there.
    fn is_sign(&mut self, sign: &'static str) -> bool {
        let there = self.word() == Some(&Word::Sign(sign));
        if there {
            self.step();
        }
        there
    }

    /// Takes a word of the tool if it is there.
    fn is_keyword(&mut self, keyword: &str) -> bool {
        let there = matches!(self.word(), Some(Word::Name(name)) if name == keyword);
        if there {
            self.step();
        }
        there
    }

    /// Takes a word of the tool.
    fn keyword(&mut self, keyword: &str) -> Result<(), Wrong> {
        match self.is_keyword(keyword) {
            true => Ok(()),
            false => self.wrong(keyword),
        }
    }

    /// `ID`
    fn name(&mut self) -> Result<Name, Wrong> {
        let at = self.at();
        match self.word().cloned() {
            Some(Word::Name(name)) if !is_reserved(&name) => {
                self.step();
                Ok(Name { at, name })
            }
            _ => self.wrong("a name"),
        }
    }

    /// One, then more behind commas, then a semicolon.
    fn list<T>(
        &mut self,
        mut one: impl FnMut(&mut Self, &[T]) -> Result<T, Wrong>,
    ) -> Result<Vec<T>, Wrong> {
        let mut all = vec![one(self, &[])?];
        while self.is_sign(",") {
            all.push(one(self, &all)?);
        }
        self.sign(";")?;
        Ok(all)
    }

    /// `XTA ::= Declaration* System`
    fn text(&mut self) -> Result<Text, Wrong> {
        let mut declared = Vec::new();
        let mut processes = Vec::new();
        loop {
            if self.is_keyword("system") {
                let system = self.list(|parser, _| parser.name())?;
                return Ok(Text {
                    declared,
                    processes,
                    system,
                });
            } else if self.is_keyword("process") {
                processes.push(self.process()?);
            } else {
                match self.declared()? {
                    Some(names) => declared.push(names),
                    None => return self.wrong("a declaration or system"),
                }
            }
        }
    }

    /// `VariableDecl ::= Type ID (',' ID)* ';'`, if a type is there.
    fn declared(&mut self) -> Result<Option<Declared>, Wrong> {
        let kind = if self.is_keyword("chan") {
            Type::Channel
        } else if self.is_keyword("clock") {
            Type::Clock
        } else if self.is_keyword("int") {
            Type::Int(self.range()?)
        } else {
            return Ok(None);
        };
        let names = self.list(|parser, _| parser.name())?;
        Ok(Some(Declared { kind, names }))
    }

    /// `[ '[' Expression ',' Expression ']' ]`
    fn range(&mut self) -> Result<Option<(Expression, Expression)>, Wrong> {
        if !self.is_sign("[") {
            return Ok(None);
        }
        let least = self.expression()?;
        self.sign(",")?;
        let greatest = self.expression()?;
        self.sign("]")?;
        Ok(Some((least, greatest)))
    }

    /// `ID '(' ')' '{' VariableDecl* States Init [Transitions] '}'`
    fn process(&mut self) -> Result<Process, Wrong> {
        let name = self.name()?;
        self.sign("(")?;
        self.sign(")")?;
        self.sign("{")?;
        let mut declared = Vec::new();
        while let Some(names) = self.declared()? {
            declared.push(names);
        }
        self.keyword("state")?;
        let states = self.list(|parser, _| parser.state())?;
        self.keyword("init")?;
        let init = self.name()?;
        self.sign(";")?;
        let transitions = match self.is_keyword("trans") {
            true => self.list(Parser::transition)?,
            false => Vec::new(),
        };
        self.sign("}")?;
        Ok(Process {
            name,
            declared,
            states,
            init,
            transitions,
        })
    }

    /// `StateDecl ::= ID [ '{' Expression '}' ]`
    fn state(&mut self) -> Result<State, Wrong> {
        let name = self.name()?;
        let mut invariant = None;
        if self.is_sign("{") {
            invariant = Some(self.expression()?);
            self.sign("}")?;
        }
        Ok(State { name, invariant })
    }

    /// `Transition`, or `TransitionOpt` behind another one: without a source it has the
    /// source of that one.
    fn transition(&mut self, before: &[Transition]) -> Result<Transition, Wrong> {
        let source = match (before.last(), self.word()) {
            (Some(last), Some(Word::Sign("->"))) => last.source.clone(),
            _ => self.name()?,
        };
        self.sign("->")?;
        let target = self.name()?;
        self.sign("{")?;
        let mut guard = None;
        if self.is_keyword("guard") {
            guard = Some(self.expression()?);
            self.sign(";")?;
        }
        let sync = self.sync()?;
        let assign = match self.is_keyword("assign") {
            true => self.list(|parser, _| parser.expression())?,
            false => Vec::new(),
        };
        self.sign("}")?;
        Ok(Transition {
            source,
            target,
            guard,
            sync,
            assign,
        })
    }

    /// `[ 'sync' ID ('!' | '?') ';' ]`
    fn sync(&mut self) -> Result<Option<(Name, bool)>, Wrong> {
        if !self.is_keyword("sync") {
            return Ok(None);
        }
        let channel = self.name()?;
        let sends = self.is_sign("!");
        if !sends && !self.is_sign("?") {
            return self.wrong("! or ?");
        }
        self.sign(";")?;
        Ok(Some((channel, sends)))
    }
}
