//! Counts the bytes that each service copies, on each side of the measurement:
//! one line a side, one number a service. The linker sends every call of
//! memcpy, memmove and memset here; copies that the compiler writes in place
//! are not seen.

use board_tools::bench::counts::answer_all;
use board_tools::bench::mix::mix;
use board_tools::bench::sides::{self, Snapshots};
use board_tools::names::SERVICES;
use std::sync::atomic::{AtomicU64, Ordering};

static COPIED: AtomicU64 = AtomicU64::new(0);

mod wrapped {
    use super::COPIED;
    use std::ffi::{c_int, c_void};
    use std::sync::atomic::Ordering;

    extern "C" {
        fn __real_memcpy(to: *mut c_void, from: *const c_void, bytes: usize) -> *mut c_void;
        fn __real_memmove(to: *mut c_void, from: *const c_void, bytes: usize) -> *mut c_void;
        fn __real_memset(to: *mut c_void, value: c_int, bytes: usize) -> *mut c_void;
    }

    /// # Safety
    /// As memcpy.
    #[no_mangle]
    pub unsafe extern "C" fn __wrap_memcpy(
        to: *mut c_void,
        from: *const c_void,
        bytes: usize,
    ) -> *mut c_void {
        COPIED.fetch_add(bytes as u64, Ordering::Relaxed);
        // SAFETY: passed on as given.
        unsafe { __real_memcpy(to, from, bytes) }
    }

    /// # Safety
    /// As memmove.
    #[no_mangle]
    pub unsafe extern "C" fn __wrap_memmove(
        to: *mut c_void,
        from: *const c_void,
        bytes: usize,
    ) -> *mut c_void {
        COPIED.fetch_add(bytes as u64, Ordering::Relaxed);
        // SAFETY: passed on as given.
        unsafe { __real_memmove(to, from, bytes) }
    }

    /// # Safety
    /// As memset.
    #[no_mangle]
    pub unsafe extern "C" fn __wrap_memset(
        to: *mut c_void,
        value: c_int,
        bytes: usize,
    ) -> *mut c_void {
        COPIED.fetch_add(bytes as u64, Ordering::Relaxed);
        // SAFETY: passed on as given.
        unsafe { __real_memset(to, value, bytes) }
    }
}

fn main() {
    let tape = mix().tape;
    let snapshots = Snapshots::of(&tape);
    for name in sides::NAMES {
        let Some(mut side) = sides::named(name, &tape.words) else { continue };
        let mut bytes = vec![0; SERVICES.len()];
        answer_all(side.as_mut(), &tape, &snapshots, |place, answer| {
            let before = COPIED.load(Ordering::Relaxed);
            answer();
            bytes[place] += COPIED.load(Ordering::Relaxed) - before;
        });
        let numbers: Vec<String> = bytes.iter().map(u64::to_string).collect();
        println!("{name} {}", numbers.join(" "));
    }
}
