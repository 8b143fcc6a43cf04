//! Calls by name, and their numbers.

use crate::numbers::{GroupNo, PoolNo, QueueNo, SemaphoreNo, ThreadNo};

/// Who makes a call.
#[derive(Clone, Copy, PartialEq, Eq, Debug)]
pub enum Caller {
    StartUp,
    Interrupt,
    /// The running thread.
    Thread,
}

impl Caller {
    #[inline]
    pub fn decode(number: u32) -> Option<Caller> {
        match number {
            0 => Some(Caller::StartUp),
            1 => Some(Caller::Interrupt),
            2 => Some(Caller::Thread),
            _ => None,
        }
    }
}

/// A known call with the arguments that it uses. Numbers may be out of range.
#[derive(Clone, Copy, PartialEq, Eq, Debug)]
pub enum Call {
    ThreadCreate {
        thread: ThreadNo,
        priority: u32,
        threshold: u32,
        start: u32,
    },
    ThreadDelete {
        thread: ThreadNo,
    },
    ThreadResume {
        thread: ThreadNo,
    },
    ThreadSuspend {
        thread: ThreadNo,
    },
    ThreadTerminate {
        thread: ThreadNo,
    },
    ThreadReset {
        thread: ThreadNo,
    },
    ThreadFinish,
    ThreadRelinquish,
    ThreadSleep {
        ticks: u32,
    },
    ThreadWaitAbort {
        thread: ThreadNo,
    },
    ThreadPriorityChange {
        thread: ThreadNo,
        priority: u32,
    },
    ThreadPreemptionChange {
        thread: ThreadNo,
        threshold: u32,
    },
    TimeGet,
    TimeSet {
        clock: u32,
    },
    Tick,
    SemaphoreCreate {
        semaphore: SemaphoreNo,
        count: u32,
    },
    SemaphoreDelete {
        semaphore: SemaphoreNo,
    },
    SemaphoreGet {
        semaphore: SemaphoreNo,
        wait: u32,
    },
    SemaphorePut {
        semaphore: SemaphoreNo,
    },
    SemaphoreCeilingPut {
        semaphore: SemaphoreNo,
        ceiling: u32,
    },
    SemaphorePrioritise {
        semaphore: SemaphoreNo,
    },
    QueueCreate {
        queue: QueueNo,
        size: u32,
        storage: u32,
    },
    QueueDelete {
        queue: QueueNo,
    },
    /// `message` is the index of the message's first word in the lent area.
    QueueSend {
        queue: QueueNo,
        wait: u32,
        message: u32,
    },
    /// As `QueueSend`, to the front.
    QueueFrontSend {
        queue: QueueNo,
        wait: u32,
        message: u32,
    },
    QueueReceive {
        queue: QueueNo,
        wait: u32,
    },
    QueueFlush {
        queue: QueueNo,
    },
    QueuePrioritise {
        queue: QueueNo,
    },
    GroupCreate {
        group: GroupNo,
    },
    GroupDelete {
        group: GroupNo,
    },
    GroupSet {
        group: GroupNo,
        flags: u32,
        option: u32,
    },
    GroupGet {
        group: GroupNo,
        flags: u32,
        option: u32,
        wait: u32,
    },
    PoolCreate {
        pool: PoolNo,
        block_bytes: u32,
        total_bytes: u32,
    },
    PoolDelete {
        pool: PoolNo,
    },
    PoolAllocate {
        pool: PoolNo,
        wait: u32,
    },
    PoolRelease {
        pool: PoolNo,
        block: u32,
    },
    PoolPrioritise {
        pool: PoolNo,
    },
    /// Words 0 and 1: the thread's state and held status.
    ReadState {
        thread: ThreadNo,
    },
    /// The thread's held words.
    ReadWords {
        thread: ThreadNo,
    },
}

impl Call {
    /// The call with this number, if it is known.
    #[inline]
    pub fn decode(number: u32, args: [u32; 4]) -> Option<Call> {
        let [a, b, c, d] = args;
        let thread = ThreadNo(a);
        let semaphore = SemaphoreNo(a);
        let queue = QueueNo(a);
        let group = GroupNo(a);
        let pool = PoolNo(a);
        Some(match number {
            1 => Call::ThreadCreate { thread, priority: b, threshold: c, start: d },
            2 => Call::ThreadDelete { thread },
            3 => Call::ThreadResume { thread },
            4 => Call::ThreadSuspend { thread },
            5 => Call::ThreadTerminate { thread },
            6 => Call::ThreadReset { thread },
            7 => Call::ThreadFinish,
            8 => Call::ThreadRelinquish,
            9 => Call::ThreadSleep { ticks: a },
            10 => Call::ThreadWaitAbort { thread },
            11 => Call::ThreadPriorityChange { thread, priority: b },
            12 => Call::ThreadPreemptionChange { thread, threshold: b },
            13 => Call::TimeGet,
            14 => Call::TimeSet { clock: a },
            15 => Call::Tick,
            16 => Call::SemaphoreCreate { semaphore, count: b },
            17 => Call::SemaphoreDelete { semaphore },
            18 => Call::SemaphoreGet { semaphore, wait: b },
            19 => Call::SemaphorePut { semaphore },
            20 => Call::SemaphoreCeilingPut { semaphore, ceiling: b },
            21 => Call::SemaphorePrioritise { semaphore },
            22 => Call::QueueCreate { queue, size: b, storage: c },
            23 => Call::QueueDelete { queue },
            24 => Call::QueueSend { queue, wait: b, message: c },
            25 => Call::QueueFrontSend { queue, wait: b, message: c },
            26 => Call::QueueReceive { queue, wait: b },
            27 => Call::QueueFlush { queue },
            28 => Call::QueuePrioritise { queue },
            29 => Call::GroupCreate { group },
            30 => Call::GroupDelete { group },
            31 => Call::GroupSet { group, flags: b, option: c },
            32 => Call::GroupGet { group, flags: b, option: c, wait: d },
            33 => Call::PoolCreate { pool, block_bytes: b, total_bytes: c },
            34 => Call::PoolDelete { pool },
            35 => Call::PoolAllocate { pool, wait: b },
            36 => Call::PoolRelease { pool, block: b },
            37 => Call::PoolPrioritise { pool },
            38 => Call::ReadState { thread },
            39 => Call::ReadWords { thread },
            _ => return None,
        })
    }
}
