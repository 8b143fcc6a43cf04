//! The choice of the next thread, and waits: how they begin and how they end.

use crate::fault;
use crate::line::{Line, Link};
use crate::status::Status;
use crate::tables::{State, Tables, FOREVER};

impl Tables {
    /// The running thread of a call that only a thread may make.
    #[inline]
    pub(crate) fn running_index(&self) -> usize {
        self.running.index().expect("a call by a thread has a running thread")
    }

    /// Makes a thread ready, at the end of its priority's order.
    #[inline]
    pub(crate) fn make_ready(&mut self, thread: usize) {
        let priority = self.threads[thread].priority as usize;
        self.threads[thread].state = State::Ready;
        self.ready[priority].push_back(&mut self.threads, thread);
        self.ready_set |= 1 << priority;
    }

    /// Takes a ready thread out of its order.
    #[inline]
    pub(crate) fn leave_ready(&mut self, thread: usize) {
        let priority = self.threads[thread].priority as usize;
        self.ready[priority].remove(&mut self.threads, thread);
        if self.ready[priority].is_empty() {
            self.ready_set &= !(1 << priority);
        }
    }

    #[inline]
    pub(crate) fn unmark(&mut self, thread: usize) {
        self.marked &= !(1 << thread);
    }

    /// A mark ends when the threshold equals the priority.
    #[inline]
    pub(crate) fn unmark_without_threshold(&mut self, thread: usize) {
        if self.threads[thread].threshold == self.threads[thread].priority {
            self.unmark(thread);
        }
    }

    /// The first ready thread of the best priority.
    #[inline]
    fn best_ready(&self) -> Option<usize> {
        if self.ready_set == 0 {
            return None;
        }
        self.ready[self.ready_set.trailing_zeros() as usize].first.index()
    }

    /// The first marked thread of the best marked priority.
    fn best_marked(&self) -> Option<usize> {
        if self.marked == 0 {
            return None;
        }
        let mut set = self.ready_set;
        while set != 0 {
            let order = &self.ready[set.trailing_zeros() as usize];
            if let Some(thread) = order.indexes(&self.threads).find(|&thread| self.has_mark(thread))
            {
                return Some(thread);
            }
            set &= set - 1;
        }
        None
    }

    /// Chooses who runs next, once after each call that is not refused.
    #[inline]
    pub(crate) fn choose_next<const FAULT: u8>(&mut self, relinquished: bool) {
        match self.running.index() {
            Some(runner) if self.threads[runner].state == State::Ready && !relinquished => {
                self.preempt::<FAULT>(runner);
            }
            _ => self.choose_anew(),
        }
    }

    /// The runner goes on unless somebody better than its threshold is ready.
    #[inline]
    fn preempt<const FAULT: u8>(&mut self, runner: usize) {
        let threshold = self.threads[runner].threshold as u32;
        if self.ready_set.trailing_zeros() >= threshold {
            return;
        }
        if threshold < self.threads[runner].priority as u32 && FAULT != fault::THRESHOLD_FORGOTTEN {
            self.marked |= 1 << runner;
        }
        self.run(self.best_ready());
    }

    /// The best marked thread returns unless the best ready one is better
    /// than its threshold.
    fn choose_anew(&mut self) {
        let best = self.best_ready();
        let best_priority = self.ready_set.trailing_zeros();
        let marked = self
            .best_marked()
            .filter(|&marked| best_priority >= self.threads[marked].threshold as u32);
        self.run(marked.or(best));
    }

    #[inline]
    fn run(&mut self, thread: Option<usize>) {
        match thread {
            Some(thread) => {
                self.running = Link::to(thread);
                self.unmark(thread);
            }
            None => self.running = Link::NONE,
        }
    }

    /// The running thread stops being ready and sleeps, or waits on an
    /// object; the caller puts it into the object's line.
    #[inline]
    pub(crate) fn block_runner(&mut self, state: State, object: usize, wait: u32) -> usize {
        let thread = self.running_index();
        self.leave_ready(thread);
        self.unmark(thread);
        let record = &mut self.threads[thread];
        record.state = state;
        record.object = object as u8;
        record.wait = wait;
        record.held_status = Status::WAITING;
        record.held_words = [0; 16];
        if wait != FOREVER {
            self.timed |= 1 << thread;
        }
        thread
    }

    /// Ends one wait or sleep with a status; a held suspension takes effect.
    pub(crate) fn end_wait(&mut self, thread: usize, status: Status) {
        self.leave_wait(thread);
        let record = &mut self.threads[thread];
        record.held_status = status;
        if record.held_suspension {
            record.held_suspension = false;
            record.state = State::Suspended;
        } else {
            self.make_ready(thread);
        }
    }

    /// Serves a waiter: its held words are `words`.
    #[inline]
    pub(crate) fn serve_waiter(&mut self, thread: usize, words: &[u32]) {
        self.end_wait(thread, Status::SUCCESS);
        self.threads[thread].held_words[..words.len()].copy_from_slice(words);
    }

    /// Ends the waits of a whole line, in line order.
    pub(crate) fn end_line(&mut self, line: Line, status: Status) -> u32 {
        let mut ended = 0;
        let mut at = line.first;
        while let Some(thread) = at.index() {
            at = self.threads[thread].next;
            self.end_wait(thread, status);
            ended += 1;
        }
        ended
    }

    /// Takes a blocked thread out of its line and clears what its wait needed.
    pub(crate) fn leave_wait(&mut self, thread: usize) {
        let object = self.threads[thread].object as usize;
        let state = self.threads[thread].state;
        let line = match state {
            State::Queue => Some(&mut self.queues[object].line),
            State::Semaphore => Some(&mut self.semaphores[object].line),
            State::Flags => Some(&mut self.groups[object].line),
            State::Block => Some(&mut self.pools[object].line),
            _ => None,
        };
        if let Some(line) = line {
            line.remove(&mut self.threads, thread);
        }
        self.timed &= !(1 << thread);
        let record = &mut self.threads[thread];
        record.object = 0;
        record.wait = 0;
        match state {
            State::Queue if record.sender => {
                record.sender = false;
                record.front = false;
                record.message = [0; 16];
            }
            State::Flags => {
                record.request = 0;
                record.option = 0;
            }
            _ => {}
        }
    }

    /// What a wait that runs out of ticks leaves as held status.
    fn timeout_status(&self, thread: usize) -> Status {
        match self.threads[thread].state {
            State::Queue if self.threads[thread].sender => Status::QUEUE_FULL,
            State::Queue => Status::QUEUE_EMPTY,
            State::Semaphore => Status::NO_INSTANCE,
            State::Flags => Status::NO_EVENTS,
            State::Block => Status::NO_MEMORY,
            _ => Status::SUCCESS,
        }
    }

    /// Takes a tick from every timed wait and ends those at zero, in thread
    /// order. Gives the number of waits ended.
    pub(crate) fn count_down(&mut self) -> u32 {
        let mut ended = 0;
        let mut timed = self.timed;
        while timed != 0 {
            let thread = timed.trailing_zeros() as usize;
            timed &= timed - 1;
            self.threads[thread].wait -= 1;
            if self.threads[thread].wait == 0 {
                let status = self.timeout_status(thread);
                self.end_wait(thread, status);
                ended += 1;
            }
        }
        ended
    }
}
