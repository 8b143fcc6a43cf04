//! Which waits a call ended, told by comparing the tables around it.

use ordinary::{Record, State, Status, Tables};

/// Why a wait ended.
#[derive(Clone, Copy, PartialEq, Eq, Debug)]
pub enum Reason {
    Served,
    TimedOut,
    /// A sleep that ran out.
    SleptOut,
    Aborted,
    Deleted,
}

impl Reason {
    /// In the order of their declaration.
    pub const ALL: [Reason; 5] =
        [Reason::Served, Reason::TimedOut, Reason::SleptOut, Reason::Aborted, Reason::Deleted];
}

/// A wait that a call ended.
#[derive(Clone, Copy, PartialEq, Eq, Debug)]
pub struct Ended {
    pub thread: usize,
    pub reason: Reason,
    /// What the thread now holds.
    pub status: Status,
    /// What it waited on: the state it left.
    pub from: State,
    /// The number of the object that it waited on.
    pub object: u8,
    /// A held suspension took effect.
    pub suspended: bool,
}

const TERMINATE: u32 = 5;
const TICK: u32 = 15;

/// The waits that a call ended with a status. A terminate ends none.
/// Those of one line come in line order, the others in thread order.
pub fn ended_waits(before: &Tables, record: &Record, after: &Tables) -> Vec<Ended> {
    if record.call == TERMINATE {
        return Vec::new();
    }
    let mut ended: Vec<Ended> =
        (0..32).filter_map(|thread| ended_wait(before, record, after, thread)).collect();
    if record.call != TICK {
        ended.sort_by_key(|ended| place_in_line(before, ended.thread));
    }
    ended
}

fn ended_wait(before: &Tables, record: &Record, after: &Tables, thread: usize) -> Option<Ended> {
    let was = &before.threads[thread];
    let is = &after.threads[thread];
    if !was.created || !was.state.is_blocked() || is.state.is_blocked() {
        return None;
    }
    let reason = match is.held_status {
        Status::WAIT_ABORTED => Reason::Aborted,
        Status::DELETED => Reason::Deleted,
        _ if record.call != TICK => Reason::Served,
        _ if was.state == State::Asleep => Reason::SleptOut,
        _ => Reason::TimedOut,
    };
    Some(Ended {
        thread,
        reason,
        status: is.held_status,
        from: was.state,
        object: was.object,
        suspended: is.state == State::Suspended,
    })
}

fn place_in_line(tables: &Tables, thread: usize) -> usize {
    let mut place = 0;
    let mut at = tables.threads[thread].prev;
    while let Some(ahead) = at.index() {
        place += 1;
        at = tables.threads[ahead].prev;
    }
    place
}
