//! The network of a table as a text in UPPAAL's textual form, XTA: document 02's wish
//! 12, "Export for UPPAAL".
//!
//! "one process a component, one waiting location for each edge and outcome, left
//! exactly at the window's end, so that each of our edges becomes two steps": the step
//! in leads from a location to a waiting one, the step out from there to the
//! destination. The text has no entry ticks. It needs none: all clocks of a component
//! grow together, so that a tick lies in the window exactly if each low and each upper
//! bound holds of the clocks as they are at that tick.
//!
//! "Bands and H aren't exported", nor are budgets, which the network does not know.

use crate::table::*;

/// "Tables with budgets are exported without them only if all are 0".
pub fn has_budgets(table: &Table) -> bool {
    let mut edges = table.components.iter().flat_map(|own| &own.edges);
    edges.any(|edge| edge.budget != 0)
}

/// The text of a table that was read, its budgets left out.
pub fn text(table: &Table) -> String {
    let channels = declaration("chan", 'c', table.channels);
    let processes: String = (0..).zip(&table.components).map(process).collect();
    let system = names('P', table.components.len() as u8);
    format!("{channels}{processes}\nsystem {system};\n")
}

/// A line that declares so many names, if there are any.
fn declaration(kind: &str, letter: char, count: u8) -> String {
    match count {
        0 => String::new(),
        _ => format!("{kind} {};\n", names(letter, count)),
    }
}

/// The names that begin with a letter, numbered from 0.
fn names(letter: char, count: u8) -> String {
    let names = (0..count).map(|number| format!("{letter}{number}"));
    names.collect::<Vec<_>>().join(", ")
}

/// "one process a component".
fn process((number, component): (usize, &Component)) -> String {
    let clocks = declaration("clock", 'x', component.clocks);
    let variables = declaration("int[-32768,32767]", 'v', component.variables);
    let locations = locations(component).join(",\n  ");
    let initial = component.initial;
    let transitions = transitions(component).join(",\n  ");
    format!(
        "\nprocess P{number}() {{\n{clocks}{variables}state\n  {locations};\n\
         init L{initial};\ntrans\n  {transitions};\n}}\n"
    )
}

/// The component's own locations, then a waiting one "for each edge and outcome".
fn locations(component: &Component) -> Vec<String> {
    let mut locations = Vec::new();
    for (number, location) in component.locations.iter().enumerate() {
        let invariant = Upper::of(location).with("<=");
        locations.push(format!("L{number} {{ {invariant} }}"));
    }
    for (number, edge) in component.edges.iter().enumerate() {
        let invariant = all_at_most(&uppers(component, edge)).join(" && ");
        for outcome in outcomes(edge) {
            let name = outcome.waiting(number);
            locations.push(format!("{name} {{ {invariant} }}"));
        }
    }
    locations
}

/// The two steps of each edge and outcome: "so that each of our edges becomes two
/// steps".
fn transitions(component: &Component) -> Vec<String> {
    let edges = component.edges.iter().enumerate();
    let steps = edges.flat_map(|(number, edge)| {
        outcomes(edge).into_iter().flat_map(move |outcome| {
            let mut steps = steps_in(component, number, edge, &outcome);
            steps.extend(steps_out(component, number, edge, &outcome));
            steps
        })
    });
    steps.collect()
}

/// What comes of an edge: with which message, and where it leads.
struct Outcome {
    /// "internal alone, a send together with one receive naming its channel": the
    /// channel of the message, if there is one.
    message: Option<u8>,
    /// The location that is entered at the window's end.
    target: u8,
    /// How the step in meets that of another process: ` sync c0!;`, or nothing.
    sync: String,
}

impl Outcome {
    fn new(edge: &Edge, message: Option<u8>, mark: &str) -> Outcome {
        let sync = message.map(|channel| format!(" sync c{channel}{mark};"));
        Outcome {
            message,
            target: edge.target(message),
            sync: sync.unwrap_or_default(),
        }
    }

    /// The name of the waiting location of an edge with this outcome.
    fn waiting(&self, edge: usize) -> String {
        match self.message {
            Some(channel) => format!("W{edge}_c{channel}"),
            None => format!("W{edge}"),
        }
    }
}

/// One outcome of an internal edge and of a send; of a receive one for each pair, and
/// the timeout.
fn outcomes(edge: &Edge) -> Vec<Outcome> {
    match &edge.action {
        Action::Internal(_) => vec![Outcome::new(edge, None, "")],
        Action::Send(channel) => vec![Outcome::new(edge, Some(*channel), "!")],
        Action::Receive(pairs) => {
            let heard = pairs.iter().map(|pair| Some(pair.channel));
            let all = heard.chain([None]);
            all.map(|message| Outcome::new(edge, message, "?"))
                .collect()
        }
    }
}

/// "A component not waiting steps in on an edge from its location whose data bounds
/// hold and updates stay in range, from its ready to its end: [...] a receive alone
/// (timeout) only at its end."
fn steps_in(component: &Component, number: usize, edge: &Edge, outcome: &Outcome) -> Vec<String> {
    let uppers = uppers(component, edge);
    let timeout = matches!(edge.action, Action::Receive(_)) && outcome.message.is_none();
    let ticks = match timeout {
        true => ends(&uppers),
        false => vec![all_at_most(&uppers)],
    };
    let (source, waiting, sync) = (edge.source, outcome.waiting(number), &outcome.sync);
    let step = |mut guard: Vec<String>| {
        guard.extend(lows(edge));
        guard.extend(data(edge));
        guard.extend(ranges(edge));
        let guard = guard.join(" && ");
        format!("L{source} -> {waiting} {{ guard {guard};{sync} }}")
    };
    ticks.into_iter().map(step).collect()
}

/// "It steps out exactly at that end, with updates and resets."
fn steps_out(component: &Component, number: usize, edge: &Edge, outcome: &Outcome) -> Vec<String> {
    let (waiting, target) = (outcome.waiting(number), outcome.target);
    let changes = assignments(component, edge).join(", ");
    let assign = match changes.is_empty() {
        true => String::new(),
        false => format!(" assign {changes};"),
    };
    let step = |guard: Vec<String>| {
        let guard = guard.join(" && ");
        format!("{waiting} -> L{target} {{ guard {guard};{assign} }}")
    };
    let ends = ends(&uppers(component, edge));
    ends.into_iter().map(step).collect()
}

/// A clock and the greatest value that it may have.
struct Upper {
    clock: u8,
    bound: u16,
}

impl Upper {
    /// The invariant of a location.
    fn of(location: &Location) -> Upper {
        Upper {
            clock: location.clock,
            bound: location.bound,
        }
    }

    /// The clock compared with the bound.
    fn with(&self, relation: &str) -> String {
        format!("x{} {relation} {}", self.clock, self.bound)
    }
}

/// The upper bounds of an edge's window: the invariant of the location that it leaves,
/// then each high that there is.
fn uppers(component: &Component, edge: &Edge) -> Vec<Upper> {
    let location = &component.locations[usize::from(edge.source)];
    let high = |bound: &ClockBound| {
        let clock = bound.clock;
        bound.high.map(|bound| Upper { clock, bound })
    };
    let highs = edge.clock_bounds.iter().filter_map(high);
    [Upper::of(location)].into_iter().chain(highs).collect()
}

/// No bound is passed: the tick is at most the window's end.
fn all_at_most(uppers: &[Upper]) -> Vec<String> {
    uppers.iter().map(|upper| upper.with("<=")).collect()
}

/// The tick is the window's end: no bound is passed and one is reached. A guard has no
/// "or" over clocks, so there is a guard for each bound: that this one is the first in
/// order that is reached. Of these guards exactly one holds at the end, none before it.
fn ends(uppers: &[Upper]) -> Vec<Vec<String>> {
    let reached_first = |first: usize| {
        let relation = |place: usize| match place.cmp(&first) {
            std::cmp::Ordering::Less => "<",
            std::cmp::Ordering::Equal => "==",
            std::cmp::Ordering::Greater => "<=",
        };
        let places = uppers.iter().enumerate();
        places.map(|(at, upper)| upper.with(relation(at))).collect()
    };
    (0..uppers.len()).map(reached_first).collect()
}

/// The tick is not before ready.
fn lows(edge: &Edge) -> Vec<String> {
    let low = |bound: &ClockBound| format!("x{} >= {}", bound.clock, bound.low);
    edge.clock_bounds.iter().map(low).collect()
}

/// "Data bounds are read with the values at entry": they are those at the step in,
/// since variables change at the step out alone.
fn data(edge: &Edge) -> Vec<String> {
    let both = |bound: &DataBound| {
        let DataBound {
            variable,
            low,
            high,
        } = bound;
        format!("v{variable} >= {low} && v{variable} <= {high}")
    };
    edge.data_bounds.iter().map(both).collect()
}

/// What a variable is worth on the way through the updates of an edge.
#[derive(Clone, Copy)]
enum Worth {
    /// What it was, and so much more.
    More(i32),
    /// This number.
    Known(i32),
}

/// "updates stay in range": asked at the step in of each add, with all before it.
fn ranges(edge: &Edge) -> Vec<String> {
    let Action::Internal(updates) = &edge.action else {
        return Vec::new();
    };
    let mut values = [Worth::More(0); MAX_VARIABLES];
    let mut asked = Vec::new();
    for update in updates.iter() {
        let number = i32::from(update.number);
        let value = &mut values[usize::from(update.variable)];
        *value = match (update.operation, *value) {
            (Operation::Set, _) => Worth::Known(number),
            (Operation::Add, Worth::More(sum)) => Worth::More(sum + number),
            (Operation::Add, Worth::Known(sum)) => Worth::Known(sum + number),
        };
        if update.operation == Operation::Add {
            asked.extend(stays(update.variable, *value));
        }
    }
    asked
}

/// "Variables are signed, −32,768 to 32,767."
fn stays(variable: u8, value: Worth) -> Option<String> {
    match value {
        Worth::More(sum) => {
            let sum = format!("v{variable} {}", added(sum));
            Some(format!("{sum} >= -32768 && {sum} <= 32767"))
        }
        Worth::Known(sum) if i16::try_from(sum).is_ok() => None,
        Worth::Known(_) => Some("false".into()),
    }
}

/// A number that is added: `+ 3`, or `- 3` for a negative one.
fn added(number: i32) -> String {
    match number {
        0.. => format!("+ {number}"),
        _ => format!("- {}", -number),
    }
}

/// "with updates and resets", "Updates act in order."
fn assignments(component: &Component, edge: &Edge) -> Vec<String> {
    let mut assignments = Vec::new();
    if let Action::Internal(updates) = &edge.action {
        assignments.extend(updates.iter().map(assignment));
    }
    let masked = (0..component.clocks).filter(|clock| edge.resets(usize::from(*clock)));
    assignments.extend(masked.map(|clock| format!("x{clock} := 0")));
    assignments
}

/// "0 set or 1 add".
fn assignment(update: &Update) -> String {
    let Update {
        variable, number, ..
    } = update;
    match update.operation {
        Operation::Set => format!("v{variable} := {number}"),
        Operation::Add => format!("v{variable} := v{variable} {}", added((*number).into())),
    }
}
