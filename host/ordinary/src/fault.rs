//! Student errors, for tests and exercises only.
//!
//! The services take one of these as a constant parameter; with `NONE`, the
//! only one outside tests and exercises, the compiler removes them.

/// The right kernel.
pub const NONE: u8 = 0;
/// Set OR tests later waiters against flags that earlier ones cleared.
pub const FLAGS_ALREADY_CLEARED: u8 = 1;
/// Prioritise sorts the whole line.
pub const LINE_SORTED: u8 = 2;
/// A put only counts up; waiters look at the count on the next tick, so a
/// late get is served while another waits.
pub const LATE_GET_SERVED: u8 = 3;
/// A preempted thread's threshold is forgotten: nobody is ever marked.
pub const THRESHOLD_FORGOTTEN: u8 = 4;
/// Nobody is chosen after a change of the runner's own priority, so a lowered
/// runner goes on while a better thread is ready.
pub const LOWERED_RUNNER_STAYS: u8 = 5;
