//! The kernel's tables. All zero means that nothing is created.

use crate::line::{Line, Link};
use crate::numbers::{GroupNo, PoolNo, QueueNo, SemaphoreNo, ThreadNo};
use crate::status::Status;

/// Sixteen words: a message, or what a thread holds after a wait.
pub type Message = [u32; 16];

/// A wait or sleep without an end of its own.
pub const FOREVER: u32 = 0xFFFF_FFFF;

/// A thread's state, with ThreadX's numbers.
#[derive(Clone, Copy, PartialEq, Eq, Debug, Default)]
#[repr(u8)]
pub enum State {
    #[default]
    Ready = 0,
    Completed = 1,
    Terminated = 2,
    Suspended = 3,
    Asleep = 4,
    Queue = 5,
    Semaphore = 6,
    Flags = 7,
    Block = 8,
}

impl State {
    /// Waiting on an object.
    #[inline]
    pub fn is_waiting(self) -> bool {
        self as u8 >= State::Queue as u8
    }

    /// Asleep or waiting on an object.
    #[inline]
    pub fn is_blocked(self) -> bool {
        self as u8 >= State::Asleep as u8
    }

    /// Completed or terminated.
    #[inline]
    pub fn is_finished(self) -> bool {
        matches!(self, State::Completed | State::Terminated)
    }
}

/// A thread's record.
#[derive(Clone, PartialEq, Eq, Debug, Default)]
pub struct Thread {
    pub created: bool,
    pub state: State,
    pub priority: u8,
    pub threshold: u8,
    /// A suspension held until the present wait or sleep ends.
    pub held_suspension: bool,
    /// Waits on a queue to send, not to receive.
    pub sender: bool,
    /// A waiting sender that came by front send.
    pub front: bool,
    /// Option of a flags wait.
    pub option: u8,
    /// Number of the object waited on.
    pub object: u8,
    pub next: Link,
    pub prev: Link,
    /// Ticks left of a wait or sleep, or `FOREVER`; 0 when there is none.
    pub wait: u32,
    /// Flags asked for by a flags wait.
    pub request: u32,
    pub held_status: Status,
    pub held_words: Message,
    /// The message of a waiting sender.
    pub message: Message,
}

/// A semaphore's record.
#[derive(Clone, PartialEq, Eq, Debug, Default)]
pub struct Semaphore {
    pub created: bool,
    pub count: u32,
    pub line: Line,
}

/// A queue's record. The store is a ring of `capacity` messages.
#[derive(Clone, PartialEq, Eq, Debug)]
pub struct Queue {
    pub created: bool,
    /// Words per message.
    pub size: u8,
    /// Storage words as given at creation.
    pub storage: u8,
    /// Messages that fit.
    pub capacity: u8,
    /// Ring position of the oldest message; 0 when empty.
    pub first: u8,
    /// Messages in the store.
    pub stored: u8,
    pub line: Line,
    pub words: [u32; 64],
}

impl Queue {
    pub const EMPTY: Queue = Queue {
        created: false,
        size: 0,
        storage: 0,
        capacity: 0,
        first: 0,
        stored: 0,
        line: Line::EMPTY,
        words: [0; 64],
    };
}

/// An event flags group's record.
#[derive(Clone, PartialEq, Eq, Debug, Default)]
pub struct Group {
    pub created: bool,
    pub flags: u32,
    pub line: Line,
}

/// A block pool's record. Free blocks stand on a stack, the next one on top.
#[derive(Clone, PartialEq, Eq, Debug)]
pub struct Pool {
    pub created: bool,
    pub blocks: u8,
    pub free_count: u8,
    pub block_bytes: u32,
    pub total_bytes: u32,
    pub line: Line,
    /// One bit a block, set when free.
    pub free_set: u64,
    pub free: [u8; 64],
}

impl Pool {
    pub const EMPTY: Pool = Pool {
        created: false,
        blocks: 0,
        free_count: 0,
        block_bytes: 0,
        total_bytes: 0,
        line: Line::EMPTY,
        free_set: 0,
        free: [0; 64],
    };
}

/// All tables. The fields are open so that any tables can be written down;
/// `soundness` tells which of them the services can work on.
#[derive(Clone, PartialEq, Eq, Debug)]
pub struct Tables {
    pub clock: u32,
    pub running: Link,
    /// One bit a priority, set when its ready order is not empty.
    pub ready_set: u32,
    /// One bit a thread: preempted while its threshold was below its priority.
    pub marked: u32,
    /// One bit a thread: its wait or sleep counts ticks.
    pub timed: u32,
    pub ready: [Line; 32],
    pub threads: [Thread; ThreadNo::LIMIT],
    pub semaphores: [Semaphore; SemaphoreNo::LIMIT],
    pub queues: [Queue; QueueNo::LIMIT],
    pub groups: [Group; GroupNo::LIMIT],
    pub pools: [Pool; PoolNo::LIMIT],
}

impl Tables {
    /// Tables with nothing created.
    pub fn new() -> Tables {
        Tables {
            clock: 0,
            running: Link::NONE,
            ready_set: 0,
            marked: 0,
            timed: 0,
            ready: [Line::EMPTY; 32],
            threads: Default::default(),
            semaphores: Default::default(),
            queues: [Queue::EMPTY; QueueNo::LIMIT],
            groups: Default::default(),
            pools: [Pool::EMPTY; PoolNo::LIMIT],
        }
    }

    /// The running thread.
    #[inline]
    pub fn runner(&self) -> Option<ThreadNo> {
        self.running.index().map(|index| ThreadNo(index as u32))
    }

    /// Whether the thread was preempted with its threshold below its priority
    /// and is still to return.
    pub fn is_marked(&self, thread: ThreadNo) -> bool {
        thread.index().is_some_and(|index| self.has_mark(index))
    }

    #[inline]
    pub(crate) fn has_mark(&self, index: usize) -> bool {
        self.marked >> index & 1 == 1
    }
}

impl Default for Tables {
    fn default() -> Tables {
        Tables::new()
    }
}
