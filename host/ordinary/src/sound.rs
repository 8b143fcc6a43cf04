//! The soundness test, for any tables whatever.

use crate::groups::is_met;
use crate::line::{Line, Link};
use crate::pools::block_count;
use crate::status::Status;
use crate::tables::{Group, Pool, Queue, Semaphore, State, Tables, Thread, FOREVER};
use std::fmt;

/// The clause that unsound tables break.
#[derive(Clone, Copy, PartialEq, Eq, Debug)]
pub enum Unsound {
    /// A ready or waiting thread not once in exactly its own order, or
    /// another thread in one.
    Order,
    /// Waiters beside a count, a message, room, a free block or met flags.
    Waiters,
    /// A mark on a thread that cannot have one.
    Mark,
    /// A priority, threshold, size or option out of its limits.
    Limit,
    /// A runner that is not ready, none while some thread is ready, or
    /// somebody ready better than its threshold.
    Runner,
    /// A timed wait without a tick left.
    Ticks,
    /// 0x101 or a held suspension with the wrong thread.
    Held,
    /// A free block not listed exactly once, or a used one listed.
    FreeBlocks,
    /// Something left in an uncreated record or a field not in use.
    NotInUse,
}

impl fmt::Display for Unsound {
    fn fmt(&self, f: &mut fmt::Formatter<'_>) -> fmt::Result {
        f.write_str(match self {
            Unsound::Order => "a thread does not stand once in exactly its own order",
            Unsound::Waiters => "threads wait although they could be served",
            Unsound::Mark => "a thread is marked that cannot be",
            Unsound::Limit => "a value is out of its limits",
            Unsound::Runner => "the running thread is not the right one",
            Unsound::Ticks => "a wait has wrong ticks",
            Unsound::Held => "a held status or suspension is wrong",
            Unsound::FreeBlocks => "the free blocks are listed wrongly",
            Unsound::NotInUse => "a field not in use is not zero",
        })
    }
}

type Sound = Result<(), Unsound>;

#[inline]
fn demand(holds: bool, otherwise: Unsound) -> Sound {
    if holds {
        Ok(())
    } else {
        Err(otherwise)
    }
}

/// No early exit: for a few words one pass without branches is faster.
#[inline]
fn all_zero(words: &[u32]) -> bool {
    words.iter().fold(0, |any, &word| any | word) == 0
}

impl Tables {
    /// Whether the tables are sound; if not, a clause that they break.
    pub fn soundness(&self) -> Sound {
        let standing = self.check_lines()?;
        for (index, thread) in self.threads.iter().enumerate() {
            self.check_thread(index, thread, standing >> index & 1 == 1)?;
        }
        self.check_runner()?;
        for queue in &self.queues {
            check_queue(queue)?;
        }
        for pool in &self.pools {
            check_pool(pool)?;
        }
        Ok(())
    }

    /// Walks every line; gives the set of threads that stand in one.
    fn check_lines(&self) -> Result<u32, Unsound> {
        let mut seen = 0;
        for (priority, order) in self.ready.iter().enumerate() {
            let occupied = self.ready_set >> priority & 1 == 1;
            demand(occupied != order.is_empty(), Unsound::Order)?;
            self.walk(order, &mut seen, |thread| {
                demand(
                    thread.state == State::Ready && thread.priority as usize == priority,
                    Unsound::Order,
                )
            })?;
        }
        for (number, semaphore) in self.semaphores.iter().enumerate() {
            self.check_semaphore(number, semaphore, &mut seen)?;
        }
        for (number, queue) in self.queues.iter().enumerate() {
            self.check_queue_line(number, queue, &mut seen)?;
        }
        for (number, group) in self.groups.iter().enumerate() {
            self.check_group(number, group, &mut seen)?;
        }
        for (number, pool) in self.pools.iter().enumerate() {
            self.check_pool_line(number, pool, &mut seen)?;
        }
        Ok(seen)
    }

    /// Walks one line, testing links and members. `seen` stops every loop.
    #[inline]
    fn walk(&self, line: &Line, seen: &mut u32, member: impl Fn(&Thread) -> Sound) -> Sound {
        let mut before = Link::NONE;
        let mut at = line.first;
        while at != Link::NONE {
            let index = at.index().ok_or(Unsound::Order)?;
            let thread = &self.threads[index];
            let bit = 1 << index;
            demand(*seen & bit == 0 && thread.prev == before && thread.created, Unsound::Order)?;
            *seen |= bit;
            member(thread)?;
            before = at;
            at = thread.next;
        }
        demand(line.last == before, Unsound::Order)
    }

    fn check_semaphore(&self, number: usize, semaphore: &Semaphore, seen: &mut u32) -> Sound {
        if !semaphore.created {
            return demand(*semaphore == Semaphore::default(), Unsound::NotInUse);
        }
        demand(semaphore.line.is_empty() || semaphore.count == 0, Unsound::Waiters)?;
        self.walk(&semaphore.line, seen, |thread| waits_on(thread, State::Semaphore, number))
    }

    fn check_queue_line(&self, number: usize, queue: &Queue, seen: &mut u32) -> Sound {
        if !queue.created {
            return demand(*queue == Queue::EMPTY, Unsound::NotInUse);
        }
        self.walk(&queue.line, seen, |thread| {
            waits_on(thread, State::Queue, number)?;
            if thread.sender {
                demand(queue.stored == queue.capacity, Unsound::Waiters)?;
                let size = (queue.size as usize).min(16);
                demand(all_zero(&thread.message[size..]), Unsound::NotInUse)
            } else {
                demand(queue.stored == 0, Unsound::Waiters)
            }
        })
    }

    fn check_group(&self, number: usize, group: &Group, seen: &mut u32) -> Sound {
        if !group.created {
            return demand(*group == Group::default(), Unsound::NotInUse);
        }
        self.walk(&group.line, seen, |thread| {
            waits_on(thread, State::Flags, number)?;
            let met = is_met(group.flags, thread.request, thread.option as u32);
            demand(!met, Unsound::Waiters)
        })
    }

    fn check_pool_line(&self, number: usize, pool: &Pool, seen: &mut u32) -> Sound {
        if !pool.created {
            return demand(*pool == Pool::EMPTY, Unsound::NotInUse);
        }
        demand(pool.line.is_empty() || pool.free_count == 0, Unsound::Waiters)?;
        self.walk(&pool.line, seen, |thread| waits_on(thread, State::Block, number))
    }

    fn check_thread(&self, index: usize, thread: &Thread, stands: bool) -> Sound {
        let timed = self.timed >> index & 1 == 1;
        if !thread.created {
            demand(!timed && !self.has_mark(index), Unsound::NotInUse)?;
            return demand(*thread == Thread::default(), Unsound::NotInUse);
        }
        demand(thread.priority <= 31 && thread.threshold <= thread.priority, Unsound::Limit)?;
        let in_an_order = thread.state == State::Ready || thread.state.is_waiting();
        demand(stands == in_an_order, Unsound::Order)?;
        if !stands {
            demand(thread.next == Link::NONE && thread.prev == Link::NONE, Unsound::NotInUse)?;
        }
        if self.has_mark(index) {
            self.check_mark(index, thread)?;
        }
        check_wait(thread, timed)?;
        check_wait_fields(thread)
    }

    fn check_mark(&self, index: usize, thread: &Thread) -> Sound {
        let possible = thread.state == State::Ready
            && self.running != Link::to(index)
            && thread.threshold < thread.priority;
        demand(possible, Unsound::Mark)
    }

    fn check_runner(&self) -> Sound {
        if self.running == Link::NONE {
            return demand(self.ready_set == 0, Unsound::Runner);
        }
        let runner = &self.threads[self.running.index().ok_or(Unsound::Runner)?];
        demand(runner.created && runner.state == State::Ready, Unsound::Runner)?;
        let best = self.ready_set.trailing_zeros();
        demand(best >= runner.threshold as u32, Unsound::Runner)
    }
}

#[inline]
fn waits_on(thread: &Thread, state: State, object: usize) -> Sound {
    demand(thread.state == state && thread.object as usize == object, Unsound::Order)
}

/// Ticks, held status, held suspension and held words.
fn check_wait(thread: &Thread, timed: bool) -> Sound {
    if thread.state.is_blocked() {
        demand(thread.held_status == Status::WAITING, Unsound::Held)?;
        demand(thread.wait != 0 && timed == (thread.wait != FOREVER), Unsound::Ticks)?;
        demand(all_zero(&thread.held_words), Unsound::NotInUse)
    } else {
        demand(thread.held_status != Status::WAITING, Unsound::Held)?;
        demand(!thread.held_suspension, Unsound::Held)?;
        demand(thread.wait == 0 && !timed, Unsound::NotInUse)
    }
}

/// What only some kinds of wait use.
fn check_wait_fields(thread: &Thread) -> Sound {
    let sends = thread.state == State::Queue && thread.sender;
    let unused = (thread.state.is_waiting() || thread.object == 0)
        && (thread.state == State::Queue || !thread.sender)
        && (sends || (!thread.front && all_zero(&thread.message)))
        && (thread.state == State::Flags || (thread.request == 0 && thread.option == 0));
    demand(unused, Unsound::NotInUse)?;
    demand(thread.option <= 3, Unsound::Limit)
}

fn check_queue(queue: &Queue) -> Sound {
    if !queue.created {
        return Ok(());
    }
    let limits = (1..=16).contains(&queue.size)
        && (1..=64).contains(&queue.storage)
        && queue.storage >= queue.size
        && queue.capacity == queue.storage / queue.size
        && queue.stored <= queue.capacity
        && queue.first < queue.capacity;
    demand(limits, Unsound::Limit)?;
    demand(queue.stored > 0 || queue.first == 0, Unsound::NotInUse)?;
    demand(queue.free_words_are_zero(), Unsound::NotInUse)
}

impl Queue {
    /// Whether the storage outside the stored messages is zero.
    fn free_words_are_zero(&self) -> bool {
        let size = self.size as usize;
        let used = self.capacity as usize * size;
        let (first, stored) = (self.first as usize * size, self.stored as usize * size);
        let end = first + stored;
        if end <= used {
            all_zero(&self.words[..first]) && all_zero(&self.words[end..])
        } else {
            all_zero(&self.words[end - used..first]) && all_zero(&self.words[used..])
        }
    }
}

fn check_pool(pool: &Pool) -> Sound {
    if !pool.created {
        return Ok(());
    }
    let blocks = block_count(pool.block_bytes, pool.total_bytes);
    demand(blocks == Some(pool.blocks) && pool.free_count <= pool.blocks, Unsound::Limit)?;
    let (listed, rest) = pool.free.split_at(pool.free_count as usize);
    let mut set = 0u64;
    for &block in listed {
        demand(block < pool.blocks && set >> block & 1 == 0, Unsound::FreeBlocks)?;
        set |= 1 << block;
    }
    demand(set == pool.free_set, Unsound::FreeBlocks)?;
    demand(rest.iter().all(|&slot| slot == 0), Unsound::NotInUse)
}
