//! What both benchmarks have: the messages' kinds, and the clock.

use std::time::Duration;

/// A kind of message: its number in the crate `bench_writer`, and how many calls write it.
pub const KINDS: [(&str, u32, usize); 7] = [
    ("small integers", 0, 400_000),
    ("long varints", 1, 80_000),
    ("strings", 2, 40_000),
    ("one 8 MB blob", 3, 1),
    ("arrays", 4, 8_000),
    ("nested sequences", 5, 500_000),
    ("photo book", 6, 34 * 8_000),
];

pub const BLOB: usize = 8 << 20;
pub const GATHERED: usize = 1 << 16;

/// A message that isn't in its shortest form: small integers whose headers have a byte more than they need (88 00).
pub fn long_headers() -> (&'static str, Vec<u8>) {
    let bytes = (0..270_000u32).flat_map(|i| [(i % 16 * 8) as u8 | 128, 0, (i % 100) as u8]).collect();
    ("small integers with long headers", bytes)
}

/// The time that this thread has run.
pub fn ran() -> Duration {
    #[repr(C)]
    struct Timespec {
        seconds: i64,
        nanoseconds: i64,
    }
    extern "C" {
        fn clock_gettime(clock: i32, time: *mut Timespec) -> i32;
    }
    const CLOCK_THREAD_CPUTIME_ID: i32 = 3;
    let mut now = Timespec { seconds: 0, nanoseconds: 0 };
    // SAFETY: Linux's C library on a 64-bit machine, with a place for its answer.
    unsafe { clock_gettime(CLOCK_THREAD_CPUTIME_ID, &mut now) };
    Duration::new(now.seconds as u64, now.nanoseconds as u32)
}
