//! Calls by name, with the arguments that they use.

use crate::numbers::{Group, Pool, Queue, Semaphore, Thread};

/// Who makes a call.
#[derive(Clone, Copy, PartialEq, Eq, Hash, Debug)]
pub enum Caller {
    StartUp = 0,
    Interrupt = 1,
    /// The running thread.
    Thread = 2,
}

/// How long a call may wait.
#[derive(Clone, Copy, PartialEq, Eq, Hash, Debug)]
pub struct Wait(u32);

impl Wait {
    /// TX_NO_WAIT: the call does not wait.
    pub const NONE: Wait = Wait(0);
    /// TX_WAIT_FOREVER: the call waits without end.
    pub const FOREVER: Wait = Wait(0xFFFF_FFFF);

    /// A wait of so many ticks; 0 is no wait, 0xFFFFFFFF one without end.
    pub const fn ticks(ticks: u32) -> Wait {
        Wait(ticks)
    }

    /// The number that the library is given.
    pub const fn number(self) -> u32 {
        self.0
    }
}

/// Whether a created thread becomes ready at once.
#[derive(Clone, Copy, PartialEq, Eq, Hash, Debug)]
pub enum Start {
    /// TX_DONT_START: the thread is suspended.
    Dont = 0,
    /// TX_AUTO_START: the thread is ready.
    Auto = 1,
}

/// What an event flags set does with the flags.
#[derive(Clone, Copy, PartialEq, Eq, Hash, Debug)]
pub enum SetOption {
    /// Joins them to the group's.
    Or = 0,
    /// Keeps only them.
    And = 2,
}

/// What an event flags get asks for.
#[derive(Clone, Copy, PartialEq, Eq, Hash, Debug)]
pub enum GetOption {
    /// Any of the flags.
    Or = 0,
    /// Any of the flags, which are then cleared.
    OrClear = 1,
    /// All of the flags.
    And = 2,
    /// All of the flags, which are then cleared.
    AndClear = 3,
}

/// A call with its arguments. The message of a send is lent.
#[derive(Clone, Copy, PartialEq, Eq, Debug)]
pub enum Call<'m> {
    ThreadCreate { thread: Thread, priority: u32, threshold: u32, start: Start },
    ThreadDelete { thread: Thread },
    ThreadResume { thread: Thread },
    ThreadSuspend { thread: Thread },
    ThreadTerminate { thread: Thread },
    ThreadReset { thread: Thread },
    Finish,
    ThreadRelinquish,
    ThreadSleep { ticks: u32 },
    ThreadWaitAbort { thread: Thread },
    ThreadPriorityChange { thread: Thread, priority: u32 },
    ThreadPreemptionChange { thread: Thread, threshold: u32 },
    TimeGet,
    TimeSet { time: u32 },
    Tick,
    SemaphoreCreate { semaphore: Semaphore, count: u32 },
    SemaphoreDelete { semaphore: Semaphore },
    SemaphoreGet { semaphore: Semaphore, wait: Wait },
    SemaphorePut { semaphore: Semaphore },
    SemaphoreCeilingPut { semaphore: Semaphore, ceiling: u32 },
    SemaphorePrioritize { semaphore: Semaphore },
    QueueCreate { queue: Queue, message_words: u32, storage_words: u32 },
    QueueDelete { queue: Queue },
    QueueSend { queue: Queue, message: &'m [u32], wait: Wait },
    QueueFrontSend { queue: Queue, message: &'m [u32], wait: Wait },
    QueueReceive { queue: Queue, wait: Wait },
    QueueFlush { queue: Queue },
    QueuePrioritize { queue: Queue },
    EventFlagsCreate { group: Group },
    EventFlagsDelete { group: Group },
    EventFlagsSet { group: Group, flags: u32, option: SetOption },
    EventFlagsGet { group: Group, flags: u32, option: GetOption, wait: Wait },
    BlockPoolCreate { pool: Pool, block_bytes: u32, total_bytes: u32 },
    BlockPoolDelete { pool: Pool },
    BlockAllocate { pool: Pool, wait: Wait },
    BlockRelease { pool: Pool, block: u32 },
    BlockPoolPrioritize { pool: Pool },
    ReadState { thread: Thread },
    ReadWords { thread: Thread },
}

impl<'m> Call<'m> {
    /// The call's number.
    pub fn number(&self) -> u32 {
        self.numbers().0
    }

    /// The call's four arguments; those that it does not use are 0.
    pub fn arguments(&self) -> [u32; 4] {
        self.numbers().1
    }

    /// The words that the call lends: the message of a send.
    pub fn message(&self) -> &'m [u32] {
        match *self {
            Call::QueueSend { message, .. } | Call::QueueFrontSend { message, .. } => message,
            _ => &[],
        }
    }

    /// The number and the arguments by which the library knows the call. A
    /// message begins at word 0 of the words that are lent.
    fn numbers(&self) -> (u32, [u32; 4]) {
        match *self {
            Call::ThreadCreate { thread, priority, threshold, start } => {
                (1, [thread.0, priority, threshold, start as u32])
            }
            Call::ThreadDelete { thread } => (2, [thread.0, 0, 0, 0]),
            Call::ThreadResume { thread } => (3, [thread.0, 0, 0, 0]),
            Call::ThreadSuspend { thread } => (4, [thread.0, 0, 0, 0]),
            Call::ThreadTerminate { thread } => (5, [thread.0, 0, 0, 0]),
            Call::ThreadReset { thread } => (6, [thread.0, 0, 0, 0]),
            Call::Finish => (7, [0; 4]),
            Call::ThreadRelinquish => (8, [0; 4]),
            Call::ThreadSleep { ticks } => (9, [ticks, 0, 0, 0]),
            Call::ThreadWaitAbort { thread } => (10, [thread.0, 0, 0, 0]),
            Call::ThreadPriorityChange { thread, priority } => (11, [thread.0, priority, 0, 0]),
            Call::ThreadPreemptionChange { thread, threshold } => (12, [thread.0, threshold, 0, 0]),
            Call::TimeGet => (13, [0; 4]),
            Call::TimeSet { time } => (14, [time, 0, 0, 0]),
            Call::Tick => (15, [0; 4]),
            Call::SemaphoreCreate { semaphore, count } => (16, [semaphore.0, count, 0, 0]),
            Call::SemaphoreDelete { semaphore } => (17, [semaphore.0, 0, 0, 0]),
            Call::SemaphoreGet { semaphore, wait } => (18, [semaphore.0, wait.0, 0, 0]),
            Call::SemaphorePut { semaphore } => (19, [semaphore.0, 0, 0, 0]),
            Call::SemaphoreCeilingPut { semaphore, ceiling } => (20, [semaphore.0, ceiling, 0, 0]),
            Call::SemaphorePrioritize { semaphore } => (21, [semaphore.0, 0, 0, 0]),
            Call::QueueCreate { queue, message_words, storage_words } => {
                (22, [queue.0, message_words, storage_words, 0])
            }
            Call::QueueDelete { queue } => (23, [queue.0, 0, 0, 0]),
            Call::QueueSend { queue, wait, .. } => (24, [queue.0, wait.0, 0, 0]),
            Call::QueueFrontSend { queue, wait, .. } => (25, [queue.0, wait.0, 0, 0]),
            Call::QueueReceive { queue, wait } => (26, [queue.0, wait.0, 0, 0]),
            Call::QueueFlush { queue } => (27, [queue.0, 0, 0, 0]),
            Call::QueuePrioritize { queue } => (28, [queue.0, 0, 0, 0]),
            Call::EventFlagsCreate { group } => (29, [group.0, 0, 0, 0]),
            Call::EventFlagsDelete { group } => (30, [group.0, 0, 0, 0]),
            Call::EventFlagsSet { group, flags, option } => {
                (31, [group.0, flags, option as u32, 0])
            }
            Call::EventFlagsGet { group, flags, option, wait } => {
                (32, [group.0, flags, option as u32, wait.0])
            }
            Call::BlockPoolCreate { pool, block_bytes, total_bytes } => {
                (33, [pool.0, block_bytes, total_bytes, 0])
            }
            Call::BlockPoolDelete { pool } => (34, [pool.0, 0, 0, 0]),
            Call::BlockAllocate { pool, wait } => (35, [pool.0, wait.0, 0, 0]),
            Call::BlockRelease { pool, block } => (36, [pool.0, block, 0, 0]),
            Call::BlockPoolPrioritize { pool } => (37, [pool.0, 0, 0, 0]),
            Call::ReadState { thread } => (38, [thread.0, 0, 0, 0]),
            Call::ReadWords { thread } => (39, [thread.0, 0, 0, 0]),
        }
    }
}
