//! One method a service, by its ThreadX name without `tx_`.

use crate::board::{Board, Reply};
use crate::call::{Call, Caller, GetOption, SetOption, Start, Wait};
use crate::numbers::{Group, Pool, Queue, Semaphore, Thread};

/// Threads and the clock.
impl Board {
    /// Creates a thread. Priorities are 0 (best) to 31, the threshold is at
    /// most the priority.
    pub fn thread_create(
        &mut self,
        caller: Caller,
        thread: Thread,
        priority: u32,
        threshold: u32,
        start: Start,
    ) -> Reply {
        self.call(caller, Call::ThreadCreate { thread, priority, threshold, start })
    }

    /// Deletes a completed or terminated thread.
    pub fn thread_delete(&mut self, caller: Caller, thread: Thread) -> Reply {
        self.call(caller, Call::ThreadDelete { thread })
    }

    /// Makes a suspended thread ready, or lifts a held suspension.
    pub fn thread_resume(&mut self, caller: Caller, thread: Thread) -> Reply {
        self.call(caller, Call::ThreadResume { thread })
    }

    /// Suspends a thread; for one that waits or sleeps, once that ends.
    pub fn thread_suspend(&mut self, caller: Caller, thread: Thread) -> Reply {
        self.call(caller, Call::ThreadSuspend { thread })
    }

    /// Terminates a thread.
    pub fn thread_terminate(&mut self, caller: Caller, thread: Thread) -> Reply {
        self.call(caller, Call::ThreadTerminate { thread })
    }

    /// Makes a completed or terminated thread a suspended one.
    pub fn thread_reset(&mut self, caller: Caller, thread: Thread) -> Reply {
        self.call(caller, Call::ThreadReset { thread })
    }

    /// The running thread's entry function returns.
    pub fn finish(&mut self, caller: Caller) -> Reply {
        self.call(caller, Call::Finish)
    }

    /// Lets the other ready threads of the same priority go first.
    pub fn thread_relinquish(&mut self, caller: Caller) -> Reply {
        self.call(caller, Call::ThreadRelinquish)
    }

    /// Sleeps for so many ticks; 0xFFFFFFFF has no end of its own.
    pub fn thread_sleep(&mut self, caller: Caller, ticks: u32) -> Reply {
        self.call(caller, Call::ThreadSleep { ticks })
    }

    /// Ends another thread's wait or sleep.
    pub fn thread_wait_abort(&mut self, caller: Caller, thread: Thread) -> Reply {
        self.call(caller, Call::ThreadWaitAbort { thread })
    }

    /// Changes a thread's priority, and sets its threshold to the new one. A
    /// runner that is lowered gives way at once to a better ready thread.
    /// Word 0: the old priority.
    pub fn thread_priority_change(
        &mut self,
        caller: Caller,
        thread: Thread,
        priority: u32,
    ) -> Reply {
        self.call(caller, Call::ThreadPriorityChange { thread, priority })
    }

    /// Changes a thread's threshold. Word 0: the old one.
    pub fn thread_preemption_change(
        &mut self,
        caller: Caller,
        thread: Thread,
        threshold: u32,
    ) -> Reply {
        self.call(caller, Call::ThreadPreemptionChange { thread, threshold })
    }

    /// Word 0: the clock.
    pub fn time_get(&mut self, caller: Caller) -> Reply {
        self.call(caller, Call::TimeGet)
    }

    /// Sets the clock. No wait moves.
    pub fn time_set(&mut self, caller: Caller, time: u32) -> Reply {
        self.call(caller, Call::TimeSet { time })
    }

    /// The timer interrupt.
    pub fn tick(&mut self, caller: Caller) -> Reply {
        self.call(caller, Call::Tick)
    }

    /// Words 0 and 1: the thread's state and the status that its last wait left it.
    pub fn read_state(&mut self, caller: Caller, thread: Thread) -> Reply {
        self.call(caller, Call::ReadState { thread })
    }

    /// The words that the thread's last wait left it: a message, flags or a block.
    pub fn read_words(&mut self, caller: Caller, thread: Thread) -> Reply {
        self.call(caller, Call::ReadWords { thread })
    }
}

/// Semaphores.
impl Board {
    /// Creates a semaphore with a count.
    pub fn semaphore_create(&mut self, caller: Caller, semaphore: Semaphore, count: u32) -> Reply {
        self.call(caller, Call::SemaphoreCreate { semaphore, count })
    }

    /// Deletes a semaphore and ends all waits on it.
    pub fn semaphore_delete(&mut self, caller: Caller, semaphore: Semaphore) -> Reply {
        self.call(caller, Call::SemaphoreDelete { semaphore })
    }

    /// Takes an instance, or waits for one.
    pub fn semaphore_get(&mut self, caller: Caller, semaphore: Semaphore, wait: Wait) -> Reply {
        self.call(caller, Call::SemaphoreGet { semaphore, wait })
    }

    /// Gives an instance to the first waiter, or adds one to the count. At the
    /// largest count, 0xFFFFFFFF, it is refused with
    /// [`Status::CeilingExceeded`](crate::Status::CeilingExceeded).
    pub fn semaphore_put(&mut self, caller: Caller, semaphore: Semaphore) -> Reply {
        self.call(caller, Call::SemaphorePut { semaphore })
    }

    /// Puts only while the count is below the ceiling.
    pub fn semaphore_ceiling_put(
        &mut self,
        caller: Caller,
        semaphore: Semaphore,
        ceiling: u32,
    ) -> Reply {
        self.call(caller, Call::SemaphoreCeilingPut { semaphore, ceiling })
    }

    /// Moves the first waiter of the best priority to the front.
    pub fn semaphore_prioritize(&mut self, caller: Caller, semaphore: Semaphore) -> Reply {
        self.call(caller, Call::SemaphorePrioritize { semaphore })
    }
}

/// Queues.
impl Board {
    /// Creates a queue for messages of 1 to 16 words in 1 to 64 words of storage.
    pub fn queue_create(
        &mut self,
        caller: Caller,
        queue: Queue,
        message_words: u32,
        storage_words: u32,
    ) -> Reply {
        self.call(caller, Call::QueueCreate { queue, message_words, storage_words })
    }

    /// Deletes a queue and ends all waits on it.
    pub fn queue_delete(&mut self, caller: Caller, queue: Queue) -> Reply {
        self.call(caller, Call::QueueDelete { queue })
    }

    /// Sends a message of at least as many words as the queue's messages have.
    pub fn queue_send(
        &mut self,
        caller: Caller,
        queue: Queue,
        message: &[u32],
        wait: Wait,
    ) -> Reply {
        self.call(caller, Call::QueueSend { queue, message, wait })
    }

    /// Sends a message to the front.
    pub fn queue_front_send(
        &mut self,
        caller: Caller,
        queue: Queue,
        message: &[u32],
        wait: Wait,
    ) -> Reply {
        self.call(caller, Call::QueueFrontSend { queue, message, wait })
    }

    /// Receives a message, the words of the reply, or waits for one.
    pub fn queue_receive(&mut self, caller: Caller, queue: Queue, wait: Wait) -> Reply {
        self.call(caller, Call::QueueReceive { queue, wait })
    }

    /// Drops all messages, waiting senders' too.
    pub fn queue_flush(&mut self, caller: Caller, queue: Queue) -> Reply {
        self.call(caller, Call::QueueFlush { queue })
    }

    /// Moves the first waiter of the best priority to the front.
    pub fn queue_prioritize(&mut self, caller: Caller, queue: Queue) -> Reply {
        self.call(caller, Call::QueuePrioritize { queue })
    }
}

/// Event flags groups.
impl Board {
    /// Creates a group with no flag set.
    pub fn event_flags_create(&mut self, caller: Caller, group: Group) -> Reply {
        self.call(caller, Call::EventFlagsCreate { group })
    }

    /// Deletes a group and ends all waits on it.
    pub fn event_flags_delete(&mut self, caller: Caller, group: Group) -> Reply {
        self.call(caller, Call::EventFlagsDelete { group })
    }

    /// Sets or keeps flags, and wakes the waiters whose requests are met.
    pub fn event_flags_set(
        &mut self,
        caller: Caller,
        group: Group,
        flags: u32,
        option: SetOption,
    ) -> Reply {
        self.call(caller, Call::EventFlagsSet { group, flags, option })
    }

    /// Asks for flags, or waits for them. Word 0: the flags before any clear.
    pub fn event_flags_get(
        &mut self,
        caller: Caller,
        group: Group,
        flags: u32,
        option: GetOption,
        wait: Wait,
    ) -> Reply {
        self.call(caller, Call::EventFlagsGet { group, flags, option, wait })
    }
}

/// Block pools.
impl Board {
    /// Creates a pool of blocks of 4 to 256 bytes, each with four bytes of overhead.
    pub fn block_pool_create(
        &mut self,
        caller: Caller,
        pool: Pool,
        block_bytes: u32,
        total_bytes: u32,
    ) -> Reply {
        self.call(caller, Call::BlockPoolCreate { pool, block_bytes, total_bytes })
    }

    /// Deletes a pool and ends all waits on it.
    pub fn block_pool_delete(&mut self, caller: Caller, pool: Pool) -> Reply {
        self.call(caller, Call::BlockPoolDelete { pool })
    }

    /// Takes a free block, or waits for one. Word 0: its number.
    pub fn block_allocate(&mut self, caller: Caller, pool: Pool, wait: Wait) -> Reply {
        self.call(caller, Call::BlockAllocate { pool, wait })
    }

    /// Gives a block to the first waiter, or makes it free again.
    pub fn block_release(&mut self, caller: Caller, pool: Pool, block: u32) -> Reply {
        self.call(caller, Call::BlockRelease { pool, block })
    }

    /// Moves the first waiter of the best priority to the front.
    pub fn block_pool_prioritize(&mut self, caller: Caller, pool: Pool) -> Reply {
        self.call(caller, Call::BlockPoolPrioritize { pool })
    }
}
