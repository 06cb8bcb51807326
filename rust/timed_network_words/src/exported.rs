//! The library's own calls, as `include/timed_network_words.h` declares them.
//!
//! In each, every pointer and its length are those of one slice, and all slices stay borrowed
//! until the call returns; the text, borrowed to be changed, overlaps no other. The call reads
//! inside the ones, writes inside the text and keeps no pointer; with length 0 it does not use
//! the pointer.
#![allow(unsafe_code)]

/// The answer of every call.
#[repr(C)]
#[derive(Clone, Copy, Debug, PartialEq, Eq)]
pub(crate) struct WordsNumbers {
    pub(crate) number: u8,
    pub(crate) size: usize,
}

extern "C" {
    fn timed_network_words_verdict(
        table: *const u8,
        length: usize,
        spread: u32,
        text: *mut u8,
        text_length: usize,
    ) -> WordsNumbers;
    fn timed_network_words_schedule(
        table: *const u8,
        length: usize,
        text: *mut u8,
        text_length: usize,
    ) -> WordsNumbers;
    fn timed_network_words_chart(
        table: *const u8,
        length: usize,
        text: *mut u8,
        text_length: usize,
    ) -> WordsNumbers;
    fn timed_network_words_spread(
        table: *const u8,
        length: usize,
        text: *mut u8,
        text_length: usize,
    ) -> WordsNumbers;
    fn timed_network_words_reasons(
        table: *const u8,
        length: usize,
        component: u32,
        tick: u32,
        text: *mut u8,
        text_length: usize,
    ) -> WordsNumbers;
    fn timed_network_words_run(
        table: *const u8,
        length: usize,
        choices: *const u8,
        choices_length: usize,
        spread: u32,
        offsets: *const u32,
        offsets_length: usize,
        text: *mut u8,
        text_length: usize,
    ) -> WordsNumbers;
    fn timed_network_words_simulation(
        table: *const u8,
        length: usize,
        lo: u32,
        hi: u32,
        runs: u32,
        seed: u32,
        text: *mut u8,
        text_length: usize,
    ) -> WordsNumbers;
    fn timed_network_words_refusal(
        number: u8,
        component: u8,
        text: *mut u8,
        text_length: usize,
    ) -> WordsNumbers;
    fn timed_network_words_listing(
        program: *const u8,
        length: usize,
        text: *mut u8,
        text_length: usize,
    ) -> WordsNumbers;
}

pub(crate) fn verdict(table: &[u8], spread: u32, text: &mut [u8]) -> WordsNumbers {
    let (from, length) = (table.as_ptr(), table.len());
    unsafe { timed_network_words_verdict(from, length, spread, text.as_mut_ptr(), text.len()) }
}

pub(crate) fn schedule(table: &[u8], text: &mut [u8]) -> WordsNumbers {
    let (from, length) = (table.as_ptr(), table.len());
    unsafe { timed_network_words_schedule(from, length, text.as_mut_ptr(), text.len()) }
}

pub(crate) fn chart(table: &[u8], text: &mut [u8]) -> WordsNumbers {
    let (from, length) = (table.as_ptr(), table.len());
    unsafe { timed_network_words_chart(from, length, text.as_mut_ptr(), text.len()) }
}

pub(crate) fn spread(table: &[u8], text: &mut [u8]) -> WordsNumbers {
    let (from, length) = (table.as_ptr(), table.len());
    unsafe { timed_network_words_spread(from, length, text.as_mut_ptr(), text.len()) }
}

pub(crate) fn reasons(table: &[u8], component: u32, tick: u32, text: &mut [u8]) -> WordsNumbers {
    let (from, length) = (table.as_ptr(), table.len());
    let (to, room) = (text.as_mut_ptr(), text.len());
    unsafe { timed_network_words_reasons(from, length, component, tick, to, room) }
}

pub(crate) fn run(
    table: &[u8],
    choices: &[u8],
    spread: u32,
    offsets: &[u32],
    text: &mut [u8],
) -> WordsNumbers {
    unsafe {
        timed_network_words_run(
            table.as_ptr(),
            table.len(),
            choices.as_ptr(),
            choices.len(),
            spread,
            offsets.as_ptr(),
            offsets.len(),
            text.as_mut_ptr(),
            text.len(),
        )
    }
}

pub(crate) fn simulation(
    table: &[u8],
    [lo, hi, runs, seed]: [u32; 4],
    text: &mut [u8],
) -> WordsNumbers {
    let (from, length) = (table.as_ptr(), table.len());
    let (to, room) = (text.as_mut_ptr(), text.len());
    unsafe { timed_network_words_simulation(from, length, lo, hi, runs, seed, to, room) }
}

pub(crate) fn refusal(number: u8, component: u8, text: &mut [u8]) -> WordsNumbers {
    unsafe { timed_network_words_refusal(number, component, text.as_mut_ptr(), text.len()) }
}

pub(crate) fn listing(program: &[u8], text: &mut [u8]) -> WordsNumbers {
    let (from, length) = (program.as_ptr(), program.len());
    unsafe { timed_network_words_listing(from, length, text.as_mut_ptr(), text.len()) }
}
