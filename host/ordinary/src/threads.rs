//! Thread services 1 to 12, the clock, and reads of a thread.

use crate::call::Caller;
use crate::fault;
use crate::kernel::{no_interrupt, only_thread, Answer, Reply};
use crate::numbers::{SemaphoreNo, ThreadNo};
use crate::status::Status;
use crate::tables::{State, Tables, Thread};

impl Tables {
    #[inline]
    fn thread(&self, number: ThreadNo) -> Result<usize, Status> {
        match number.index() {
            Some(index) if self.threads[index].created => Ok(index),
            _ => Err(Status::THREAD_ERROR),
        }
    }

    pub(crate) fn thread_create(
        &mut self,
        caller: Caller,
        number: ThreadNo,
        priority: u32,
        threshold: u32,
        start: u32,
    ) -> Answer {
        let index = match number.index() {
            Some(index) if !self.threads[index].created => index,
            _ => return Err(Status::THREAD_ERROR),
        };
        if priority > 31 {
            return Err(Status::PRIORITY_ERROR);
        }
        if threshold > priority {
            return Err(Status::THRESH_ERROR);
        }
        if start > 1 {
            return Err(Status::START_ERROR);
        }
        no_interrupt(caller)?;
        self.threads[index] = Thread {
            created: true,
            state: State::Suspended,
            priority: priority as u8,
            threshold: threshold as u8,
            ..Thread::default()
        };
        if start == 1 {
            self.make_ready(index);
        }
        Ok(Reply::done())
    }

    pub(crate) fn thread_delete(&mut self, caller: Caller, number: ThreadNo) -> Answer {
        let index = self.thread(number)?;
        only_thread(caller)?;
        if !self.threads[index].state.is_finished() {
            return Err(Status::DELETE_ERROR);
        }
        self.threads[index] = Thread::default();
        Ok(Reply::done())
    }

    pub(crate) fn thread_resume(&mut self, number: ThreadNo) -> Answer {
        let index = self.thread(number)?;
        if self.threads[index].state == State::Suspended {
            self.make_ready(index);
            Ok(Reply::done())
        } else if self.threads[index].held_suspension {
            self.threads[index].held_suspension = false;
            Ok(Reply { status: Status::SUSPEND_LIFTED, ..Reply::done() })
        } else {
            Err(Status::RESUME_ERROR)
        }
    }

    pub(crate) fn thread_suspend(&mut self, number: ThreadNo) -> Answer {
        let index = self.thread(number)?;
        match self.threads[index].state {
            State::Completed | State::Terminated => return Err(Status::SUSPEND_ERROR),
            State::Suspended => {}
            State::Ready => {
                self.leave_ready(index);
                self.unmark(index);
                self.threads[index].state = State::Suspended;
            }
            _ => self.threads[index].held_suspension = true,
        }
        Ok(Reply::done())
    }

    pub(crate) fn thread_terminate(&mut self, caller: Caller, number: ThreadNo) -> Answer {
        let index = self.thread(number)?;
        only_thread(caller)?;
        if !self.threads[index].state.is_finished() {
            self.stop(index, State::Terminated);
        }
        Ok(Reply::done())
    }

    pub(crate) fn thread_reset(&mut self, caller: Caller, number: ThreadNo) -> Answer {
        let index = self.thread(number)?;
        only_thread(caller)?;
        if !self.threads[index].state.is_finished() {
            return Err(Status::NOT_DONE);
        }
        self.clear_held(index);
        self.threads[index].state = State::Suspended;
        Ok(Reply::done())
    }

    pub(crate) fn thread_finish(&mut self, caller: Caller) -> Answer {
        only_thread(caller)?;
        self.stop(self.running_index(), State::Completed);
        Ok(Reply::done())
    }

    /// Takes a thread out of every line and clears what it holds.
    fn stop(&mut self, index: usize, state: State) {
        match self.threads[index].state {
            State::Ready => {
                self.leave_ready(index);
                self.unmark(index);
            }
            blocked if blocked.is_blocked() => self.leave_wait(index),
            _ => {}
        }
        self.clear_held(index);
        self.threads[index].state = state;
    }

    fn clear_held(&mut self, index: usize) {
        let record = &mut self.threads[index];
        record.held_status = Status::SUCCESS;
        record.held_words = [0; 16];
        record.held_suspension = false;
    }

    pub(crate) fn thread_relinquish(&mut self, caller: Caller) -> Answer {
        only_thread(caller)?;
        let index = self.running_index();
        self.leave_ready(index);
        self.make_ready(index);
        Ok(Reply::done())
    }

    pub(crate) fn thread_sleep(&mut self, caller: Caller, ticks: u32) -> Answer {
        only_thread(caller)?;
        if ticks == 0 {
            return Ok(Reply::done());
        }
        self.block_runner(State::Asleep, 0, ticks);
        Ok(Reply::waiting())
    }

    pub(crate) fn thread_wait_abort(&mut self, number: ThreadNo) -> Answer {
        let index = self.thread(number)?;
        if !self.threads[index].state.is_blocked() {
            return Err(Status::WAIT_ABORT_ERROR);
        }
        self.end_wait(index, Status::WAIT_ABORTED);
        Ok(Reply::ended(1))
    }

    pub(crate) fn thread_priority_change(
        &mut self,
        caller: Caller,
        number: ThreadNo,
        priority: u32,
    ) -> Answer {
        let index = self.thread(number)?;
        if priority > 31 {
            return Err(Status::PRIORITY_ERROR);
        }
        only_thread(caller)?;
        let old = self.threads[index].priority;
        let ready = self.threads[index].state == State::Ready;
        if ready {
            self.leave_ready(index);
        }
        let record = &mut self.threads[index];
        record.priority = priority as u8;
        record.threshold = priority as u8;
        if ready {
            self.make_ready(index);
        }
        self.unmark(index);
        Ok(Reply::word(old as u32))
    }

    pub(crate) fn thread_preemption_change(
        &mut self,
        caller: Caller,
        number: ThreadNo,
        threshold: u32,
    ) -> Answer {
        let index = self.thread(number)?;
        if threshold > self.threads[index].priority as u32 {
            return Err(Status::THRESH_ERROR);
        }
        only_thread(caller)?;
        let old = self.threads[index].threshold;
        self.threads[index].threshold = threshold as u8;
        self.unmark_without_threshold(index);
        Ok(Reply::word(old as u32))
    }

    pub(crate) fn tick<const FAULT: u8>(&mut self, caller: Caller) -> Answer {
        if caller != Caller::Interrupt {
            return Err(Status::CALLER_ERROR);
        }
        self.clock = self.clock.wrapping_add(1);
        let mut ended = self.count_down();
        if FAULT == fault::LATE_GET_SERVED {
            for semaphore in 0..SemaphoreNo::LIMIT {
                ended += self.serve_from_count(semaphore);
            }
        }
        Ok(Reply::ended(ended))
    }

    pub(crate) fn read_state(&self, number: ThreadNo) -> Answer {
        let record = &self.threads[self.thread(number)?];
        let mut reply = Reply::word(record.state as u32);
        reply.words[1] = record.held_status.0;
        Ok(reply)
    }

    pub(crate) fn read_words(&self, number: ThreadNo) -> Answer {
        let record = &self.threads[self.thread(number)?];
        Ok(Reply { words: record.held_words, ..Reply::done() })
    }
}
