//! Helpers shared by the tests.
#![allow(dead_code)]

use ordinary::{Outcome, Status, Tables, ThreadNo};

pub const STARTUP: u32 = 0;
pub const INTERRUPT: u32 = 1;
pub const THREAD: u32 = 2;
pub const FOREVER: u32 = 0xFFFF_FFFF;

/// Message words that the tests send from: word i is 100 + i.
pub fn area() -> Vec<u32> {
    (100..140).collect()
}

/// A board under test: every call goes through the soundness test, and
/// whatever must hold of every call is checked.
#[derive(Clone)]
pub struct Board {
    pub tables: Tables,
}

impl Board {
    pub fn new() -> Board {
        Board { tables: Tables::new() }
    }

    pub fn call(&mut self, caller: u32, number: u32, args: &[u32]) -> Outcome {
        let mut padded = [0; 4];
        padded[..args.len()].copy_from_slice(args);
        let before = self.tables.clone();
        let outcome = self.tables.call_numbered(number, caller, padded, &area());
        check_frame(&before, &self.tables, &outcome);
        outcome
    }

    /// A call that must succeed.
    pub fn ok(&mut self, caller: u32, number: u32, args: &[u32]) -> Outcome {
        let outcome = self.call(caller, number, args);
        assert_eq!(outcome.status, Status::SUCCESS, "call {number} {args:?}");
        outcome
    }

    /// A call by the running thread after which it waits.
    pub fn wait(&mut self, number: u32, args: &[u32]) -> Outcome {
        let outcome = self.call(THREAD, number, args);
        assert_eq!(outcome.status, Status::WAITING, "call {number} {args:?}");
        outcome
    }

    /// A call that must be refused with this status.
    pub fn refused(&mut self, caller: u32, number: u32, args: &[u32], status: u32) {
        let outcome = self.call(caller, number, args);
        assert_eq!(outcome.status, Status(status), "call {number} {args:?}");
        assert!(!outcome.status.is_carried_out());
    }

    /// Creates a ready thread.
    pub fn thread(&mut self, number: u32, priority: u32) {
        self.ok(STARTUP, 1, &[number, priority, priority, 1]);
    }

    pub fn tick(&mut self) -> Outcome {
        self.ok(INTERRUPT, 15, &[])
    }

    pub fn runner(&self) -> Option<u32> {
        self.tables.runner().map(|thread| thread.0)
    }

    pub fn marked(&self, thread: u32) -> bool {
        self.tables.is_marked(ThreadNo(thread))
    }

    pub fn state(&self, thread: usize) -> u32 {
        assert!(self.tables.threads[thread].created);
        self.tables.threads[thread].state as u32
    }

    pub fn held_status(&self, thread: usize) -> u32 {
        self.tables.threads[thread].held_status.0
    }

    pub fn held_words(&self, thread: usize) -> [u32; 16] {
        self.tables.threads[thread].held_words
    }

    fn members(&self, line: &ordinary::Line) -> Vec<usize> {
        line.iter(&self.tables.threads).map(|thread| thread.0 as usize).collect()
    }

    pub fn ready(&self, priority: usize) -> Vec<usize> {
        self.members(&self.tables.ready[priority])
    }

    pub fn semaphore_line(&self, number: usize) -> Vec<usize> {
        self.members(&self.tables.semaphores[number].line)
    }

    pub fn queue_line(&self, number: usize) -> Vec<usize> {
        self.members(&self.tables.queues[number].line)
    }

    pub fn pool_line(&self, number: usize) -> Vec<usize> {
        self.members(&self.tables.pools[number].line)
    }

    pub fn group_line(&self, number: usize) -> Vec<usize> {
        self.members(&self.tables.groups[number].line)
    }

    pub fn stored(&self, number: usize) -> Vec<Vec<u32>> {
        self.tables.queues[number].messages().map(<[u32]>::to_vec).collect()
    }
}

/// What holds of every call: sound tables stay sound, `next` is the runner,
/// a refusal changes nothing and answers zeros.
fn check_frame(before: &Tables, after: &Tables, outcome: &Outcome) {
    if outcome.status == Status::UNSOUND {
        assert_eq!(outcome.next, None);
    } else {
        assert_eq!(after.soundness(), Ok(()));
        assert_eq!(outcome.next, after.runner());
    }
    if !outcome.status.is_carried_out() {
        assert_eq!(before, after);
        assert_eq!(outcome.words, [0; 16]);
        assert_eq!(outcome.ended, 0);
    }
}

/// Sixteen words that begin with `words`.
pub fn padded(words: &[u32]) -> [u32; 16] {
    let mut all = [0; 16];
    all[..words.len()].copy_from_slice(words);
    all
}
