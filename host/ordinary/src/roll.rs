//! The roll: who stands ahead of a waiting thread, told from the calls and
//! their statuses alone, and checked against the tables after each call.
//!
//! A roll follows one thread that waits on a semaphore, a pool or, as a
//! receiver, a queue. It applies as long as no prioritise or delete of that
//! object succeeds.

use crate::kernel::Outcome;
use crate::line::Line;
use crate::numbers::{PoolNo, QueueNo, SemaphoreNo, ThreadNo};
use crate::status::Status;
use crate::tables::{State, Tables, FOREVER};
use crate::tape::Record;
use std::fmt;

/// An object with a line that a roll can follow.
#[derive(Clone, Copy, PartialEq, Eq, Debug)]
pub enum Object {
    Semaphore(SemaphoreNo),
    Queue(QueueNo),
    Pool(PoolNo),
}

impl Object {
    /// The object a thread waits on, if a roll can follow its wait.
    fn waited_on(tables: &Tables, thread: usize) -> Option<Object> {
        let record = &tables.threads[thread];
        let number = record.object as u32;
        match record.state {
            State::Semaphore => Some(Object::Semaphore(SemaphoreNo(number))),
            State::Queue if !record.sender => Some(Object::Queue(QueueNo(number))),
            State::Block => Some(Object::Pool(PoolNo(number))),
            _ => None,
        }
    }

    fn line(self, tables: &Tables) -> Line {
        match self {
            Object::Semaphore(number) => tables.semaphores[number.0 as usize].line,
            Object::Queue(number) => tables.queues[number.0 as usize].line,
            Object::Pool(number) => tables.pools[number.0 as usize].line,
        }
    }

    /// Whether the record is one of `calls` on this object, where `calls`
    /// are those of semaphores, queues and pools.
    fn named_by(self, record: &Record, calls: [&[u32]; 3]) -> bool {
        let (number, calls) = match self {
            Object::Semaphore(number) => (number.0, calls[0]),
            Object::Queue(number) => (number.0, calls[1]),
            Object::Pool(number) => (number.0, calls[2]),
        };
        record.args[0] == number && calls.contains(&record.call)
    }

    fn is_given_by(self, record: &Record) -> bool {
        self.named_by(record, [&[19, 20], &[24, 25], &[36]])
    }

    fn is_taken_by(self, record: &Record) -> bool {
        self.named_by(record, [&[18], &[26], &[35]])
    }

    fn is_reordered_by(self, record: &Record) -> bool {
        self.named_by(record, [&[17, 21], &[23, 28], &[34, 37]])
    }
}

impl fmt::Display for Object {
    fn fmt(&self, f: &mut fmt::Formatter<'_>) -> fmt::Result {
        match self {
            Object::Semaphore(number) => write!(f, "semaphore {number}"),
            Object::Queue(number) => write!(f, "queue {number}"),
            Object::Pool(number) => write!(f, "pool {number}"),
        }
    }
}

/// How a call broke the roll.
#[derive(Clone, PartialEq, Eq, Debug)]
pub struct RollError {
    pub object: Object,
    pub thread: ThreadNo,
    pub what: &'static str,
}

impl fmt::Display for RollError {
    fn fmt(&self, f: &mut fmt::Formatter<'_>) -> fmt::Result {
        write!(f, "roll of thread {} on {}: {}", self.thread, self.object, self.what)
    }
}

#[derive(Clone, Copy, PartialEq, Eq, Debug, Default)]
struct Entry {
    thread: u8,
    /// Ticks left, or `FOREVER`.
    wait: u32,
}

/// The threads ahead of one waiting thread in line order, then that thread.
#[derive(Clone, Debug)]
pub struct Roll {
    object: Object,
    thread: usize,
    entries: [Entry; 32],
    len: usize,
    /// Giving calls left until the thread must be served.
    gives_left: usize,
    /// Somebody left by timeout, abort or terminate.
    left_early: bool,
}

/// What one call means for a roll.
enum Fed {
    /// The roll goes on or has just ended; `struck` were struck out by the call.
    Struck { struck: u32, over: bool },
    /// A prioritise or delete of the object succeeded; the roll says no more.
    NoLonger,
}

impl Roll {
    /// Starts the roll of a waiting thread.
    pub fn start(tables: &Tables, thread: ThreadNo) -> Option<Roll> {
        let thread = thread.index()?;
        let object = Object::waited_on(tables, thread)?;
        let mut entries = [Entry::default(); 32];
        let mut len = 0;
        for waiter in object.line(tables).indexes(&tables.threads) {
            entries[len] = Entry { thread: waiter as u8, wait: tables.threads[waiter].wait };
            len += 1;
            if waiter == thread {
                break;
            }
        }
        Some(Roll { object, thread, entries, len, gives_left: len, left_early: false })
    }

    /// Feeds the roll one call and checks what holds after it. Gives whether
    /// the roll still has something to say.
    pub fn follow(
        &mut self,
        record: &Record,
        area: &[u32],
        outcome: &Outcome,
        after: &Tables,
    ) -> Result<bool, RollError> {
        self.check_late_service(record, outcome)?;
        let (struck, over) = match self.feed(record, outcome.status) {
            Fed::NoLonger => return Ok(false),
            Fed::Struck { struck, over } => (struck, over),
        };
        self.check_line(struck, after)?;
        self.check_count(record, area, over, after)?;
        Ok(!over)
    }

    /// As long as the wait lasts, no get, allocate or receive is served.
    fn check_late_service(&self, record: &Record, outcome: &Outcome) -> Result<(), RollError> {
        if self.object.is_taken_by(record) && outcome.status == Status::SUCCESS {
            return Err(self.error("a later call was served while the thread waited"));
        }
        Ok(())
    }

    /// Changes the roll as the call and its status say.
    fn feed(&mut self, record: &Record, status: Status) -> Fed {
        if status != Status::SUCCESS {
            return Fed::Struck { struck: 0, over: false };
        }
        if self.object.is_reordered_by(record) {
            return Fed::NoLonger;
        }
        let mut struck = 0;
        if self.object.is_given_by(record) {
            struck = 1 << self.entries[0].thread;
            self.gives_left -= 1;
        } else {
            match record.call {
                5 | 10 if record.args[0] < 32 => struck = 1 << record.args[0],
                15 => struck = self.count_down(),
                _ => {}
            }
            struck &= self.members();
            self.left_early |= struck != 0;
        }
        self.strike(struck);
        let over = struck >> self.thread & 1 == 1;
        Fed::Struck { struck, over }
    }

    /// Takes a tick from each timed entry; gives those with none left.
    fn count_down(&mut self) -> u32 {
        let mut out = 0;
        for entry in &mut self.entries[..self.len] {
            if entry.wait != FOREVER {
                entry.wait -= 1;
                if entry.wait == 0 {
                    out |= 1 << entry.thread;
                }
            }
        }
        out
    }

    fn members(&self) -> u32 {
        self.entries[..self.len].iter().fold(0, |set, entry| set | 1 << entry.thread)
    }

    fn strike(&mut self, struck: u32) {
        let mut kept = 0;
        for at in 0..self.len {
            let entry = self.entries[at];
            if struck >> entry.thread & 1 == 0 {
                self.entries[kept] = entry;
                kept += 1;
            }
        }
        self.len = kept;
    }

    /// The object's line begins with the roll and holds nobody just struck out.
    fn check_line(&self, struck: u32, after: &Tables) -> Result<(), RollError> {
        let line = self.object.line(after);
        let mut waiters = line.indexes(&after.threads);
        for entry in &self.entries[..self.len] {
            if waiters.next() != Some(entry.thread as usize) {
                return Err(self.error("the line does not begin with the roll"));
            }
        }
        // Nobody struck out is in the beginning just compared.
        if waiters.any(|waiter| struck >> waiter & 1 == 1) {
            return Err(self.error("a thread that was struck out still stands in line"));
        }
        Ok(())
    }

    /// The wait is over by the (k+1)th giving call; exactly that call serves
    /// the thread if nobody left early.
    fn check_count(
        &self,
        record: &Record,
        area: &[u32],
        over: bool,
        after: &Tables,
    ) -> Result<(), RollError> {
        if self.gives_left == 0 && !over {
            return Err(self.error("the wait outlasts the giving calls it stood behind"));
        }
        if over && self.object.is_given_by(record) {
            if self.gives_left != 0 && !self.left_early {
                return Err(self.error("the thread was served before its turn"));
            }
            return self.check_held(record, area, after);
        }
        Ok(())
    }

    /// A served thread holds 0x00 and the giving call's message or block.
    fn check_held(&self, record: &Record, area: &[u32], after: &Tables) -> Result<(), RollError> {
        let mut words = [0; 16];
        match self.object {
            Object::Semaphore(_) => {}
            Object::Pool(_) => words[0] = record.args[1],
            Object::Queue(number) => {
                let start = record.args[2] as usize;
                let size = after.queues[number.0 as usize].size as usize;
                words[..size].copy_from_slice(&area[start..start + size]);
            }
        }
        let held = &after.threads[self.thread];
        if held.held_status == Status::SUCCESS && held.held_words == words {
            Ok(())
        } else {
            Err(self.error("the served thread does not hold what the giving call gave"))
        }
    }

    fn error(&self, what: &'static str) -> RollError {
        RollError { object: self.object, thread: ThreadNo(self.thread as u32), what }
    }
}

/// One roll for each waiting thread, followed through a run of calls.
#[derive(Clone, Debug)]
pub struct Rolls {
    rolls: [Option<Roll>; 32],
}

impl Rolls {
    pub fn new(tables: &Tables) -> Rolls {
        let mut rolls = Rolls { rolls: [const { None }; 32] };
        rolls.start_missing(tables);
        rolls
    }

    /// Follows every roll through one call, then starts rolls for threads
    /// that wait without one.
    pub fn follow(
        &mut self,
        record: &Record,
        area: &[u32],
        outcome: &Outcome,
        after: &Tables,
    ) -> Result<(), RollError> {
        for slot in &mut self.rolls {
            if let Some(roll) = slot {
                if !roll.follow(record, area, outcome, after)? {
                    *slot = None;
                }
            }
        }
        self.start_missing(after);
        Ok(())
    }

    fn start_missing(&mut self, tables: &Tables) {
        for (thread, slot) in self.rolls.iter_mut().enumerate() {
            if slot.is_none() {
                *slot = Roll::start(tables, ThreadNo(thread as u32));
            }
        }
    }
}
