//! A network of timed automata: what a text says, each name replaced by its number.

/// A network: its channels, and the processes in the order of the system line.
#[derive(Clone, Debug, PartialEq, Eq)]
pub struct System {
    /// The names of the channels.
    pub channels: Vec<String>,
    /// The processes.
    pub processes: Vec<Process>,
}

/// A process.
#[derive(Clone, Debug, PartialEq, Eq)]
pub struct Process {
    /// Its name.
    pub name: String,
    /// The names of its clocks.
    pub clocks: Vec<String>,
    /// Its variables.
    pub variables: Vec<Variable>,
    /// Its locations.
    pub locations: Vec<Location>,
    /// The location that it starts in.
    pub initial: usize,
    /// Its transitions.
    pub transitions: Vec<Transition>,
}

/// A variable, which starts with 0.
#[derive(Clone, Debug, PartialEq, Eq)]
pub struct Variable {
    /// Its name.
    pub name: String,
    /// The least value that it may have.
    pub least: i32,
    /// The greatest value that it may have.
    pub greatest: i32,
}

/// A location.
#[derive(Clone, Debug, PartialEq, Eq)]
pub struct Location {
    /// Its name.
    pub name: String,
    /// What holds as long as the process stands there.
    pub invariant: Condition,
}

/// A transition from one location to another.
#[derive(Clone, Debug, PartialEq, Eq)]
pub struct Transition {
    /// The location that it leaves.
    pub source: usize,
    /// The location that it enters.
    pub target: usize,
    /// What holds where it is taken.
    pub guard: Condition,
    /// The channel that it is taken on together with one of another process.
    pub sync: Option<Sync>,
    /// What it changes, in this order.
    pub assignments: Vec<Assignment>,
}

/// One side of two transitions that are taken together.
#[derive(Clone, Copy, Debug, PartialEq, Eq)]
pub struct Sync {
    /// The number of the channel.
    pub channel: usize,
    /// Whether this side sends: `!` and not `?`.
    pub sends: bool,
}

/// What is true or false of a process's clocks and variables.
#[derive(Clone, Debug, PartialEq, Eq)]
pub enum Condition {
    /// `true` or `false`
    Always(bool),
    /// A clock compared with a number.
    Clock(usize, Relation, Sum),
    /// Two numbers compared.
    Numbers(Sum, Relation, Sum),
    /// `!`
    Not(Box<Condition>),
    /// `&&`
    And(Box<Condition>, Box<Condition>),
    /// `||`
    Or(Box<Condition>, Box<Condition>),
}

/// How two numbers are compared.
#[derive(Clone, Copy, Debug, PartialEq, Eq)]
pub enum Relation {
    /// `<`
    Less,
    /// `<=`
    AtMost,
    /// `==`
    Equal,
    /// `!=`
    Other,
    /// `>=`
    AtLeast,
    /// `>`
    Greater,
}

impl Relation {
    /// Whether it holds of two numbers.
    pub fn holds(self, left: i64, right: i64) -> bool {
        match self {
            Relation::Less => left < right,
            Relation::AtMost => left <= right,
            Relation::Equal => left == right,
            Relation::Other => left != right,
            Relation::AtLeast => left >= right,
            Relation::Greater => left > right,
        }
    }

    /// The same with its sides changed.
    pub(crate) fn turned(self) -> Relation {
        match self {
            Relation::Less => Relation::Greater,
            Relation::AtMost => Relation::AtLeast,
            Relation::AtLeast => Relation::AtMost,
            Relation::Greater => Relation::Less,
            Relation::Equal | Relation::Other => self,
        }
    }
}

/// A whole number.
#[derive(Clone, Debug, PartialEq, Eq)]
pub enum Sum {
    /// This one.
    Number(i32),
    /// What a variable is worth.
    Variable(usize),
    /// Its negative.
    Minus(Box<Sum>),
    /// Two numbers with a sign between them.
    Pair(Box<Sum>, Arithmetic, Box<Sum>),
}

/// What is done with two numbers.
#[derive(Clone, Copy, Debug, PartialEq, Eq)]
pub enum Arithmetic {
    /// `+`
    Add,
    /// `-`
    Subtract,
    /// `*`
    Multiply,
    /// `/`
    Divide,
    /// `%`
    Rest,
}

/// What a transition changes.
#[derive(Clone, Debug, PartialEq, Eq)]
pub enum Assignment {
    /// A clock becomes a number.
    Clock(usize, Sum),
    /// A variable becomes a number.
    Variable(usize, Sum),
}
