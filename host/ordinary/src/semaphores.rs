//! Semaphore services 16 to 21.

use crate::call::Caller;
use crate::fault;
use crate::kernel::{may_wait, no_interrupt, only_thread, Answer, Reply};
use crate::line::Line;
use crate::numbers::SemaphoreNo;
use crate::status::Status;
use crate::tables::{Semaphore, State, Tables, Thread};

/// Prioritise as every object has it.
#[inline]
pub(crate) fn prioritise_line<const FAULT: u8>(line: &mut Line, threads: &mut [Thread; 32]) {
    if FAULT == fault::LINE_SORTED {
        line.sort(threads);
    } else {
        line.prioritise(threads);
    }
}

impl Tables {
    #[inline]
    fn semaphore(&self, number: SemaphoreNo) -> Result<usize, Status> {
        match number.index() {
            Some(index) if self.semaphores[index].created => Ok(index),
            _ => Err(Status::SEMAPHORE_ERROR),
        }
    }

    pub(crate) fn semaphore_create(
        &mut self,
        caller: Caller,
        number: SemaphoreNo,
        count: u32,
    ) -> Answer {
        let index = match number.index() {
            Some(index) if !self.semaphores[index].created => index,
            _ => return Err(Status::SEMAPHORE_ERROR),
        };
        no_interrupt(caller)?;
        self.semaphores[index] = Semaphore { created: true, count, line: Line::EMPTY };
        Ok(Reply::done())
    }

    pub(crate) fn semaphore_delete(&mut self, caller: Caller, number: SemaphoreNo) -> Answer {
        let index = self.semaphore(number)?;
        only_thread(caller)?;
        let ended = self.end_line(self.semaphores[index].line, Status::DELETED);
        self.semaphores[index] = Semaphore::default();
        Ok(Reply::ended(ended))
    }

    pub(crate) fn semaphore_get(
        &mut self,
        caller: Caller,
        number: SemaphoreNo,
        wait: u32,
    ) -> Answer {
        let index = self.semaphore(number)?;
        may_wait(caller, wait)?;
        if self.semaphores[index].count > 0 {
            self.semaphores[index].count -= 1;
            return Ok(Reply::done());
        }
        if wait == 0 {
            return Err(Status::NO_INSTANCE);
        }
        let thread = self.block_runner(State::Semaphore, index, wait);
        self.semaphores[index].line.push_back(&mut self.threads, thread);
        Ok(Reply::waiting())
    }

    pub(crate) fn semaphore_put<const FAULT: u8>(&mut self, number: SemaphoreNo) -> Answer {
        let index = self.semaphore(number)?;
        if self.semaphores[index].count == u32::MAX {
            return Err(Status::CEILING_EXCEEDED);
        }
        Ok(self.give_instance::<FAULT>(index))
    }

    pub(crate) fn semaphore_ceiling_put<const FAULT: u8>(
        &mut self,
        number: SemaphoreNo,
        ceiling: u32,
    ) -> Answer {
        let index = self.semaphore(number)?;
        if ceiling == 0 {
            return Err(Status::INVALID_CEILING);
        }
        if self.semaphores[index].count >= ceiling {
            return Err(Status::CEILING_EXCEEDED);
        }
        Ok(self.give_instance::<FAULT>(index))
    }

    /// Serves the first waiter, else counts up. The count is below 0xFFFFFFFF:
    /// both puts have refused it.
    #[inline]
    fn give_instance<const FAULT: u8>(&mut self, index: usize) -> Reply {
        match self.semaphores[index].line.first.index() {
            Some(waiter) if FAULT != fault::LATE_GET_SERVED => {
                self.serve_waiter(waiter, &[]);
                Reply::ended(1)
            }
            _ => {
                self.semaphores[index].count += 1;
                Reply::done()
            }
        }
    }

    /// Waiters take from the count: only the student error does this.
    pub(crate) fn serve_from_count(&mut self, index: usize) -> u32 {
        let mut ended = 0;
        while self.semaphores[index].count > 0 {
            let Some(waiter) = self.semaphores[index].line.first.index() else { break };
            self.semaphores[index].count -= 1;
            self.serve_waiter(waiter, &[]);
            ended += 1;
        }
        ended
    }

    pub(crate) fn semaphore_prioritise<const FAULT: u8>(&mut self, number: SemaphoreNo) -> Answer {
        let index = self.semaphore(number)?;
        prioritise_line::<FAULT>(&mut self.semaphores[index].line, &mut self.threads);
        Ok(Reply::done())
    }
}
