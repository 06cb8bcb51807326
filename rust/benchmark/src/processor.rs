//! The processor time that this program has taken: what other programs take
//! meanwhile does not count.
#![allow(unsafe_code)]

/// Seconds and nanoseconds, as C has them on 64-bit Linux.
#[repr(C)]
struct Timespec {
    seconds: i64,
    nanoseconds: i64,
}

/// The number of this clock on Linux.
const CLOCK_PROCESS_CPUTIME_ID: i32 = 2;

extern "C" {
    fn clock_gettime(clock: i32, time: *mut Timespec) -> i32;
}

/// The processor time so far in nanoseconds.
pub fn processor_time() -> u64 {
    let mut time = Timespec {
        seconds: 0,
        nanoseconds: 0,
    };
    // SAFETY: the C library is linked by std; the pointer leads to a timespec
    // that can be written, and the call keeps nothing of it.
    let answer = unsafe { clock_gettime(CLOCK_PROCESS_CPUTIME_ID, &mut time) };
    assert_eq!(answer, 0, "this clock is there on Linux");
    time.seconds as u64 * 1_000_000_000 + time.nanoseconds as u64
}
