//! The library's five functions on lent slices, for tables that stand in memory
//! of the user's own. Statuses are numbers here, and a block may have any length.
//!
//! This is the only place with `unsafe`.
//!
//! ```
//! use apachimo::{library, Caller, Status, STATE_BYTES};
//!
//! let mut state = [0; STATE_BYTES];
//! assert_eq!(library::start(&mut state), Status::Success.number());
//! let reply = library::call(&mut state, 15, Caller::Interrupt as u32, [0; 4], &[]);
//! assert_eq!(reply.status, Status::Success.number());
//! assert_eq!(library::is_sound(&state[1..]), Status::SizeError.number());
//! ```

/// What `apachimo_call` answers. `next` is 32 for nobody.
#[repr(C)]
#[derive(Clone, Copy, PartialEq, Eq, Debug)]
pub struct RawReply {
    pub status: u32,
    pub words: [u32; 16],
    pub next: u32,
    pub ended: u32,
}

/// What `apachimo_run` answers: its status, and how many records it carried out.
#[repr(C)]
#[derive(Clone, Copy, PartialEq, Eq, Debug)]
pub struct RawRun {
    pub status: u32,
    pub carried: u32,
}

mod foreign {
    use super::{RawReply, RawRun};

    extern "C" {
        pub fn apachimo_state_bytes() -> usize;
        pub fn apachimo_start(state: *mut u8, len: usize) -> u32;
        pub fn apachimo_is_sound(state: *const u8, len: usize) -> u32;
        pub fn apachimo_call(
            state: *mut u8,
            len: usize,
            call: u32,
            caller: u32,
            a: u32,
            b: u32,
            c: u32,
            d: u32,
            messages: *const u32,
            message_words: usize,
        ) -> RawReply;
        pub fn apachimo_run(
            state: *mut u8,
            len: usize,
            tape: *const u8,
            tape_len: usize,
            most: u32,
            replies: *mut u32,
            reply_words: usize,
        ) -> RawRun;
    }
}

/// The bytes of a block of tables.
pub fn state_bytes() -> usize {
    // SAFETY: the function takes nothing and only gives a number.
    unsafe { foreign::apachimo_state_bytes() }
}

/// Writes tables with nothing created.
pub fn start(state: &mut [u8]) -> u32 {
    // SAFETY: pointer and length are those of a slice that is lent for writing.
    unsafe { foreign::apachimo_start(state.as_mut_ptr(), state.len()) }
}

/// Tests the tables.
pub fn is_sound(state: &[u8]) -> u32 {
    // SAFETY: pointer and length are those of a slice.
    unsafe { foreign::apachimo_is_sound(state.as_ptr(), state.len()) }
}

/// Carries out one call.
#[inline]
pub fn call(
    state: &mut [u8],
    call: u32,
    caller: u32,
    args: [u32; 4],
    messages: &[u32],
) -> RawReply {
    let [a, b, c, d] = args;
    // SAFETY: pointers and lengths are those of slices; the state is lent for
    // writing, and the messages are no part of it.
    unsafe {
        foreign::apachimo_call(
            state.as_mut_ptr(),
            state.len(),
            call,
            caller,
            a,
            b,
            c,
            d,
            messages.as_ptr(),
            messages.len(),
        )
    }
}

/// Carries out the records of a tape, at most `most` of them, and writes 19
/// words for each.
#[inline]
pub fn run(state: &mut [u8], tape: &[u8], most: u32, replies: &mut [u32]) -> RawRun {
    // SAFETY: pointers and lengths are those of slices that share no byte;
    // state and replies are lent for writing.
    unsafe {
        foreign::apachimo_run(
            state.as_mut_ptr(),
            state.len(),
            tape.as_ptr(),
            tape.len(),
            most,
            replies.as_mut_ptr(),
            replies.len(),
        )
    }
}
