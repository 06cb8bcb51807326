//! Export for UPPAAL (document 02, wish 12): the network of a table in the tool's
//! textual form, XTA.

mod exported;

use crate::{Call, Refused};

/// The bytes that hold the text of any table.
pub const UPPAAL_ENOUGH: usize = 2_436_116;

/// The network of a table as a text for UPPAAL: a process `P0` for component 0, with
/// locations `L0` up, waiting locations `W0` or, with a message on channel 1, `W0_c1`
/// for edge 0, clocks `x0` up and variables `v0` up; channels `c0` up. Each edge is two
/// steps: into its waiting location anywhere in its window, and out of it exactly at the
/// window's end. Bands, horizon and version leave no trace.
///
/// Refused with 1 to 12 as [`crate::check`] refuses, then with 25 where an edge has a
/// budget other than 0.
///
/// ```
/// use timed_network::{plan, uppaal, Refusal, Slots, MAX_PLAN};
///
/// let [probes, slot, guard, period] = [1, 40, 5, 500];
/// let mut table = [0; MAX_PLAN];
/// let size = plan(Slots { probes, slot, guard, period }, &mut table).size;
/// let text = uppaal(&table[..size])?;
/// assert!(text.starts_with("chan c0;\n\nprocess P0() {\nclock x0;\nstate\n  L0 { x0 <= 45 },"));
/// assert!(text.ends_with("\nsystem P0, P1;\n"));
/// assert_eq!(uppaal(&[]).unwrap_err().refusal, Refusal::Version);
/// # Ok::<(), timed_network::Refused>(())
/// ```
///
/// # Panics
///
/// Where the library writes anything but ASCII; it does not.
pub fn uppaal(table: &[u8]) -> Result<String, Refused> {
    let mut text = vec![0; UPPAAL_ENOUGH];
    let size = uppaal_into(table, &mut text).into_result()?;
    text.truncate(size);
    Ok(String::from_utf8(text).expect("the text is ASCII"))
}

/// Writes the same text to the front of the bytes lent. What stands past it stays; after
/// a refusal all bytes do. Refused with 13 too, after 25, where they are too few;
/// [`UPPAAL_ENOUGH`] always suffice.
///
/// ```
/// use timed_network::{uppaal_into, Verdict};
///
/// let mut text = [7; 80];
/// let call = uppaal_into(&[], &mut text);
/// let (number, component) = (1, 255);
/// assert_eq!(call.verdict, Verdict::Refused { number, component });
/// assert_eq!((call.size, text), (0, [7; 80]));
/// ```
pub fn uppaal_into(table: &[u8], text: &mut [u8]) -> Call {
    Call::of(&exported::uppaal(table, text))
}
