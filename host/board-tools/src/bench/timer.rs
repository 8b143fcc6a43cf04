//! The processor's time stamp counter, read between fences.

use std::arch::x86_64::{_mm_lfence, _rdtsc};
use std::time::{Duration, Instant};

/// The counter, after everything before it and before everything behind it.
#[inline(always)]
pub fn ticks() -> u64 {
    // SAFETY: both instructions are there on every x86-64 processor.
    unsafe {
        _mm_lfence();
        let ticks = _rdtsc();
        _mm_lfence();
        ticks
    }
}

/// What two readings with nothing in between differ by, in the middle case.
pub fn overhead() -> u64 {
    let mut differences: Vec<u64> = (0..10_001)
        .map(|_| {
            let start = ticks();
            ticks() - start
        })
        .collect();
    differences.sort_unstable();
    differences[differences.len() / 2]
}

/// How many ticks a nanosecond has.
pub fn ticks_per_nanosecond() -> f64 {
    let (start, first) = (Instant::now(), ticks());
    while start.elapsed() < Duration::from_millis(50) {
        std::hint::spin_loop();
    }
    let last = ticks();
    (last - first) as f64 / start.elapsed().as_nanos() as f64
}
