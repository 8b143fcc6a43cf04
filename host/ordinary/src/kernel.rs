//! One call: soundness, refusals, the service, the choice of the next thread.

use crate::call::{Call, Caller};
use crate::fault;
use crate::numbers::ThreadNo;
use crate::status::Status;
use crate::tables::{Message, Tables};

/// What a call answers.
#[derive(Clone, Copy, PartialEq, Eq, Debug)]
pub struct Outcome {
    pub status: Status,
    pub words: Message,
    /// Who runs next.
    pub next: Option<ThreadNo>,
    /// How many waits this call ended with a status.
    pub ended: u32,
}

/// A service's answer before the choice of the next thread.
pub(crate) struct Reply {
    pub status: Status,
    pub words: Message,
    pub ended: u32,
}

/// A service either replies or refuses with a status, nothing changed.
pub(crate) type Answer = Result<Reply, Status>;

impl Reply {
    #[inline]
    pub(crate) fn done() -> Reply {
        Reply { status: Status::SUCCESS, words: [0; 16], ended: 0 }
    }

    #[inline]
    pub(crate) fn ended(ended: u32) -> Reply {
        Reply { ended, ..Reply::done() }
    }

    #[inline]
    pub(crate) fn word(word: u32) -> Reply {
        let mut reply = Reply::done();
        reply.words[0] = word;
        reply
    }

    /// The caller now waits or sleeps.
    #[inline]
    pub(crate) fn waiting() -> Reply {
        Reply { status: Status::WAITING, ..Reply::done() }
    }
}

impl Outcome {
    fn refused(status: Status, next: Option<ThreadNo>) -> Outcome {
        Outcome { status, words: [0; 16], next, ended: 0 }
    }

    /// The answer of every call on unsound tables.
    pub fn unsound() -> Outcome {
        Outcome::refused(Status::UNSOUND, None)
    }
}

impl Tables {
    /// Carries out a call on any tables. `area` is the lent message area.
    pub fn call(&mut self, caller: Caller, call: Call, area: &[u32]) -> Outcome {
        if self.soundness().is_err() {
            return Outcome::unsound();
        }
        self.step(caller, call, area)
    }

    /// Carries out a call given by numbers on any tables.
    pub fn call_numbered(
        &mut self,
        number: u32,
        caller: u32,
        args: [u32; 4],
        area: &[u32],
    ) -> Outcome {
        if self.soundness().is_err() {
            return Outcome::unsound();
        }
        self.step_numbered::<{ fault::NONE }>(number, caller, args, area)
    }

    /// `call` without the soundness test, for tables known to be sound.
    #[inline]
    pub fn step(&mut self, caller: Caller, call: Call, area: &[u32]) -> Outcome {
        self.step_as::<{ fault::NONE }>(caller, call, area)
    }

    /// `call_numbered` without the soundness test, for tables known to be
    /// sound, with a student error if one is asked for.
    #[inline]
    pub fn step_numbered<const FAULT: u8>(
        &mut self,
        number: u32,
        caller: u32,
        args: [u32; 4],
        area: &[u32],
    ) -> Outcome {
        match (Call::decode(number, args), Caller::decode(caller)) {
            (Some(call), Some(caller)) => self.step_as::<FAULT>(caller, call, area),
            _ => Outcome::refused(Status::UNKNOWN_CALL, self.runner()),
        }
    }

    /// `step`, with a student error if one is asked for.
    pub fn step_as<const FAULT: u8>(
        &mut self,
        caller: Caller,
        call: Call,
        area: &[u32],
    ) -> Outcome {
        let before = self.runner();
        if caller == Caller::Thread && before.is_none() {
            return Outcome::refused(Status::NOBODY_RUNS, None);
        }
        match self.serve::<FAULT>(caller, call, area) {
            Err(status) => Outcome::refused(status, before),
            Ok(Reply { status, words, ended }) => {
                if !leaves_out_choice::<FAULT>(call, before) {
                    self.choose_next::<FAULT>(call == Call::ThreadRelinquish);
                }
                Outcome { status, words, next: self.runner(), ended }
            }
        }
    }

    #[inline]
    fn serve<const FAULT: u8>(&mut self, caller: Caller, call: Call, area: &[u32]) -> Answer {
        match call {
            Call::ThreadCreate { thread, priority, threshold, start } => {
                self.thread_create(caller, thread, priority, threshold, start)
            }
            Call::ThreadDelete { thread } => self.thread_delete(caller, thread),
            Call::ThreadResume { thread } => self.thread_resume(thread),
            Call::ThreadSuspend { thread } => self.thread_suspend(thread),
            Call::ThreadTerminate { thread } => self.thread_terminate(caller, thread),
            Call::ThreadReset { thread } => self.thread_reset(caller, thread),
            Call::ThreadFinish => self.thread_finish(caller),
            Call::ThreadRelinquish => self.thread_relinquish(caller),
            Call::ThreadSleep { ticks } => self.thread_sleep(caller, ticks),
            Call::ThreadWaitAbort { thread } => self.thread_wait_abort(thread),
            Call::ThreadPriorityChange { thread, priority } => {
                self.thread_priority_change(caller, thread, priority)
            }
            Call::ThreadPreemptionChange { thread, threshold } => {
                self.thread_preemption_change(caller, thread, threshold)
            }
            Call::TimeGet => Ok(Reply::word(self.clock)),
            Call::TimeSet { clock } => {
                self.clock = clock;
                Ok(Reply::done())
            }
            Call::Tick => self.tick::<FAULT>(caller),
            Call::SemaphoreCreate { semaphore, count } => {
                self.semaphore_create(caller, semaphore, count)
            }
            Call::SemaphoreDelete { semaphore } => self.semaphore_delete(caller, semaphore),
            Call::SemaphoreGet { semaphore, wait } => self.semaphore_get(caller, semaphore, wait),
            Call::SemaphorePut { semaphore } => self.semaphore_put::<FAULT>(semaphore),
            Call::SemaphoreCeilingPut { semaphore, ceiling } => {
                self.semaphore_ceiling_put::<FAULT>(semaphore, ceiling)
            }
            Call::SemaphorePrioritise { semaphore } => {
                self.semaphore_prioritise::<FAULT>(semaphore)
            }
            Call::QueueCreate { queue, size, storage } => {
                self.queue_create(caller, queue, size, storage)
            }
            Call::QueueDelete { queue } => self.queue_delete(caller, queue),
            Call::QueueSend { queue, wait, message } => {
                self.queue_send(caller, queue, wait, message, false, area)
            }
            Call::QueueFrontSend { queue, wait, message } => {
                self.queue_send(caller, queue, wait, message, true, area)
            }
            Call::QueueReceive { queue, wait } => self.queue_receive(caller, queue, wait),
            Call::QueueFlush { queue } => self.queue_flush(queue),
            Call::QueuePrioritise { queue } => self.queue_prioritise::<FAULT>(queue),
            Call::GroupCreate { group } => self.group_create(caller, group),
            Call::GroupDelete { group } => self.group_delete(caller, group),
            Call::GroupSet { group, flags, option } => {
                self.group_set::<FAULT>(group, flags, option)
            }
            Call::GroupGet { group, flags, option, wait } => {
                self.group_get(caller, group, flags, option, wait)
            }
            Call::PoolCreate { pool, block_bytes, total_bytes } => {
                self.pool_create(caller, pool, block_bytes, total_bytes)
            }
            Call::PoolDelete { pool } => self.pool_delete(caller, pool),
            Call::PoolAllocate { pool, wait } => self.pool_allocate(caller, pool, wait),
            Call::PoolRelease { pool, block } => self.pool_release(pool, block),
            Call::PoolPrioritise { pool } => self.pool_prioritise::<FAULT>(pool),
            Call::ReadState { thread } => self.read_state(thread),
            Call::ReadWords { thread } => self.read_words(thread),
        }
    }
}

/// Whether no thread is chosen after a call: only a student error leaves the
/// choice out.
#[inline]
fn leaves_out_choice<const FAULT: u8>(call: Call, runner: Option<ThreadNo>) -> bool {
    FAULT == fault::LOWERED_RUNNER_STAYS
        && matches!(call, Call::ThreadPriorityChange { thread, .. } if Some(thread) == runner)
}

/// Refuses callers that are not a thread.
#[inline]
pub(crate) fn only_thread(caller: Caller) -> Result<(), Status> {
    if caller == Caller::Thread {
        Ok(())
    } else {
        Err(Status::CALLER_ERROR)
    }
}

/// Refuses interrupts.
#[inline]
pub(crate) fn no_interrupt(caller: Caller) -> Result<(), Status> {
    if caller == Caller::Interrupt {
        Err(Status::CALLER_ERROR)
    } else {
        Ok(())
    }
}

/// Refuses a wait by a caller that is not a thread.
#[inline]
pub(crate) fn may_wait(caller: Caller, wait: u32) -> Result<(), Status> {
    if wait != 0 && caller != Caller::Thread {
        Err(Status::WAIT_ERROR)
    } else {
        Ok(())
    }
}
