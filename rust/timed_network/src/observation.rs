//! What a node shows when it has finished a sleep, read from the bytes of a run.

use crate::running::Run;

/// The bytes of an observation.
pub const OBSERVATION: usize = 36;
/// The finish tick in the first observation of a node, which has no work behind it.
pub const NO_WORK: u32 = 4_294_967_295;

/// An observation.
///
/// ```
/// use timed_network::{Observation, OBSERVATION};
///
/// let mut bytes = [0; OBSERVATION];
/// (bytes[0], bytes[7], bytes[35]) = (1, 9, 4);
/// let shown = Observation::from(&bytes);
/// assert_eq!((shown.component, shown.tick, shown.previous_finish), (1, 9, Some(4)));
/// bytes[32..].fill(255);
/// assert_eq!(Observation::from(&bytes).previous_finish, None);
/// ```
#[derive(Clone, Copy, Debug, PartialEq, Eq)]
pub struct Observation {
    /// The number of the component, its node's number.
    pub component: u8,
    /// The number of the edge taken.
    pub edge: u8,
    /// The number of the location that it leaves.
    pub location: u8,
    /// The tick, by the node's own clock: the edge's ready.
    pub tick: u32,
    /// The clocks; 0 for those that the component does not have.
    pub clocks: [u32; 4],
    /// The variables; 0 for those that the component does not have.
    pub values: [i16; 4],
    /// The tick at which the node's previous work finished, by its own clock, for a
    /// receive the message or the timeout. It lies in the window of the node's passage
    /// before. The first observation of a node has none.
    pub previous_finish: Option<u32>,
}

impl From<&[u8; OBSERVATION]> for Observation {
    fn from(bytes: &[u8; OBSERVATION]) -> Observation {
        let four = |at: usize| u32::from_be_bytes([0, 1, 2, 3].map(|i| bytes[at + i]));
        let two = |at: usize| i16::from_be_bytes([bytes[at], bytes[at + 1]]);
        Observation {
            component: bytes[0],
            edge: bytes[1],
            location: bytes[2],
            tick: four(4),
            clocks: [8, 12, 16, 20].map(four),
            values: [24, 26, 28, 30].map(two),
            previous_finish: Some(four(32)).filter(|tick| *tick != NO_WORK),
        }
    }
}

impl Run {
    /// The observations that the run has written to the front of these bytes.
    ///
    /// ```
    /// use timed_network::{run, OBSERVATION, TICK};
    ///
    /// // One component, which works from tick 0 to 3 and then again.
    /// let table = [1, 0, 24, 1, 0, 0, 9, 0, 17, 1, 0, 1, 0, 1, 0, 0, 3, 0, 0, 0, 1, 0, 0, 0];
    /// let mut bytes = [0; 4 * OBSERVATION];
    /// // The first sleep at 0, its work done at 2, the second sleep at 3.
    /// let choices = [0, 0, 0, 0, 0, TICK, TICK, 0, 0, 0, 0, 0, 0, 0, 0, TICK, 0];
    /// let ran = run(&table, &choices, &mut bytes)?;
    /// let ticks = ran.observations(&bytes).map(|shown| shown.previous_finish);
    /// assert_eq!(ticks.collect::<Vec<_>>(), [None, Some(2)]);
    /// # Ok::<(), timed_network::Refused>(())
    /// ```
    pub fn observations<'a>(&self, bytes: &'a [u8]) -> impl Iterator<Item = Observation> + 'a {
        let places = bytes.chunks_exact(OBSERVATION).take(self.size);
        places.filter_map(|place| Some(Observation::from(place.first_chunk()?)))
    }
}
