//! Programs and runs: the safe forms of translate, part and run.

use crate::exported;
use crate::{Call, Refused, RunNumbers, UnknownNumber, Verdict};
use std::fmt;

/// The bytes that every program fits in.
pub const MAX_PROGRAM: usize = 24_576;
/// The choice that lets a tick pass.
pub const TICK: u8 = 255;
/// The most choices that a run takes.
pub const MAX_CHOICES: usize = 1_000_000;
/// The node of a run that no node was late in.
pub const NO_NODE: u8 = 255;

/// How a run ended. Displayed in the words of the proved text
/// (`crates/run_text`), without the node or the choice.
///
/// ```
/// use timed_network::End;
///
/// let end = End::try_from(2)?;
/// assert_eq!((end, end.number()), (End::Late, 2));
/// assert_eq!(End::Horizon.to_string(), "horizon reached");
/// assert!(End::try_from(4).is_err());
/// # Ok::<(), timed_network::UnknownNumber>(())
/// ```
#[derive(Clone, Copy, Debug, PartialEq, Eq)]
pub enum End {
    /// 0: at the horizon. Choices behind that are ignored.
    Horizon,
    /// 1: the choices are used up.
    UsedUp,
    /// 2: a tick has made a node late.
    Late,
    /// 3: a choice is not allowed. It did nothing and is not counted.
    NotAllowed,
}

impl End {
    /// All ends, each at the place of its number.
    pub const ALL: [End; 4] = [End::Horizon, End::UsedUp, End::Late, End::NotAllowed];

    /// Its number, 0 to 3.
    pub fn number(self) -> u8 {
        self as u8
    }
}

impl TryFrom<u8> for End {
    type Error = UnknownNumber;

    fn try_from(number: u8) -> Result<End, UnknownNumber> {
        let found = End::ALL.get(usize::from(number)).copied();
        found.ok_or(UnknownNumber(number))
    }
}

impl fmt::Display for End {
    fn fmt(&self, out: &mut fmt::Formatter<'_>) -> fmt::Result {
        out.pad(match self {
            End::Horizon => "horizon reached",
            End::UsedUp => "choices used up",
            End::Late => "late",
            End::NotAllowed => "choice not allowed",
        })
    }
}

/// What a run came to.
#[derive(Clone, Copy, Debug, PartialEq, Eq)]
pub struct Run {
    /// How it ended.
    pub end: End,
    /// The lowest late node; [`NO_NODE`] with every other end.
    pub node: u8,
    /// The ticks that have passed, a late one included.
    pub tick: u32,
    /// The choices carried out, ticks included.
    pub used: u64,
    /// How many observations were written.
    pub size: usize,
}

/// Writes the program bytes of a table to the front of what is lent; the size
/// of the answer is their number. What stands past them stays; after a
/// refusal all bytes do. [`MAX_PROGRAM`] bytes are always enough.
///
/// ```
/// use timed_network::{translate, Verdict};
///
/// let mut bytes = [7; 60];
/// let call = translate(&[], &mut bytes);
/// let (number, component) = (1, 255);
/// assert_eq!(call.verdict, Verdict::Refused { number, component });
/// assert_eq!((call.size, bytes), (0, [7; 60]));
/// ```
pub fn translate(table: &[u8], program: &mut [u8]) -> Call {
    Call::of(&exported::translate(table, program))
}

/// The program bytes of a table, or why there are none.
///
/// ```
/// use timed_network::{program, Refusal};
///
/// let refused = program(&[]).unwrap_err();
/// assert_eq!(refused.refusal, Refusal::Version);
/// ```
pub fn program(table: &[u8]) -> Result<Vec<u8>, Refused> {
    let mut bytes = vec![0; MAX_PROGRAM];
    let size = translate(table, &mut bytes).into_result()?;
    bytes.truncate(size);
    Ok(bytes)
}

/// The part of any program bytes that belongs to one node, empty where there
/// is none.
///
/// ```
/// use timed_network::part;
///
/// let program = [1, 0, 9, 1, 0, 20, 0, 3, 5];
/// assert_eq!(part(&program, 0), [0, 3, 5]);
/// assert!(part(&program, 1).is_empty());
/// ```
pub fn part(program: &[u8], node: u8) -> &[u8] {
    let place = exported::part(program, node);
    &program[place.start..][..place.length]
}

/// Runs the programs of a table's nodes together under choices and writes the
/// observations to the front of what is lent, [`OBSERVATION`](crate::OBSERVATION)
/// bytes each; [`Run::observations`] reads them. What stands past them stays; after
/// a refusal all bytes do. As many bytes are asked for as the schedule has passages,
/// times [`OBSERVATION`](crate::OBSERVATION).
///
/// ```
/// use timed_network::{run, Refusal};
///
/// let mut bytes = [7; 64];
/// let refused = run(&[], &[0, 1, 255], &mut bytes).unwrap_err();
/// assert_eq!(refused.refusal, Refusal::Version);
/// assert_eq!(bytes, [7; 64]);
/// ```
pub fn run(table: &[u8], choices: &[u8], observations: &mut [u8]) -> Result<Run, Refused> {
    ran(&run_numbers(table, choices, observations))
}

/// The same call with its answer as plain numbers, those of a refused run
/// included.
///
/// ```
/// use timed_network::run_numbers;
///
/// let answer = run_numbers(&[], &[], &mut []);
/// assert_eq!((answer.number, answer.component), (1, 255));
/// assert_eq!((answer.end, answer.node, answer.size), (0, 255, 0));
/// ```
pub fn run_numbers(table: &[u8], choices: &[u8], observations: &mut [u8]) -> RunNumbers {
    exported::run(table, choices, observations)
}

/// What a run came to, or why it did not take place.
pub(crate) fn ran(answer: &RunNumbers) -> Result<Run, Refused> {
    Verdict::of(answer.number, answer.component).into_result()?;
    Ok(Run {
        end: End::try_from(answer.end).expect("the library gives no number from 4 on"),
        node: answer.node,
        tick: answer.tick,
        used: answer.used.into(),
        size: answer.size as usize,
    })
}
