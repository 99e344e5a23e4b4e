//! The functions in C that only the benchmark calls: the processor's clock, the loop of `widen.c`, and the
//! walk and the sum of `walk.c`.
//!
//! This is the only module with unsafe code. What makes each call sound: a slice is passed as its
//! pointer and its own length, every output is a place that this module owns, and nothing keeps a
//! pointer.
#![allow(unsafe_code)]

use std::time::Duration;

#[repr(C)]
struct Timespec {
    seconds: i64,
    nanoseconds: i64,
}

/// The clock of the processor's time that this program has had.
const CLOCK_PROCESS_CPUTIME_ID: i32 = 2;

extern "C" {
    fn clock_gettime(clock: i32, time: *mut Timespec) -> i32;

    fn widen(from: *const u8, step: usize, count: usize, to: *mut i64);

    #[link_name = "walked"]
    fn walk(file: *const u8, file_len: usize, out: *mut u64, out_len: usize) -> u64;

    #[link_name = "summed"]
    fn sum(sum: u64, bits: *const u64, count: usize) -> u64;
}

/// A sum with all of these added to it, as the walk adds them up.
pub fn summed(before: u64, bits: &[u64]) -> u64 {
    // SAFETY: see the module's first lines.
    unsafe { sum(before, bits.as_ptr(), bits.len()) }
}

/// The sum of all samples of an accepted file, by the library's walk, as a program in C asks for them.
pub fn walked(file: &[u8], out: &mut [u64]) -> u64 {
    // SAFETY: see the module's first lines.
    unsafe { walk(file.as_ptr(), file.len(), out.as_mut_ptr(), out.len()) }
}

/// The processor's time that this program has had.
pub fn processor_time() -> Duration {
    let mut time = Timespec {
        seconds: 0,
        nanoseconds: 0,
    };
    // SAFETY: see the module's first lines.
    let failed = unsafe { clock_gettime(CLOCK_PROCESS_CPUTIME_ID, &mut time) };
    assert_eq!(failed, 0, "the processor's clock");
    Duration::new(time.seconds as u64, time.nanoseconds as u32)
}

/// Numbers of two octets, big-endian, that lie `step` octets apart, as many as fit.
pub fn widened(from: &[u8], step: usize, to: &mut [i64]) {
    assert!(to.is_empty() || (to.len() - 1) * step + 2 <= from.len());
    // SAFETY: see the module's first lines; the last number lies in the slice.
    unsafe { widen(from.as_ptr(), step, to.len(), to.as_mut_ptr()) }
}
