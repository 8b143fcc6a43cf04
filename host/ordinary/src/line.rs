//! Lines of threads: the ready order of a priority, the waiters of an object.
//!
//! A thread stands in at most one line, so its record holds the links.

use crate::numbers::ThreadNo;
use crate::tables::Thread;

/// A thread number plus one; 0 is none.
#[derive(Clone, Copy, PartialEq, Eq, Debug, Default)]
pub struct Link(pub u8);

impl Link {
    pub const NONE: Link = Link(0);

    #[inline]
    pub fn to(thread: usize) -> Link {
        Link(thread as u8 + 1)
    }

    /// The thread's place in the tables, if there is one in range.
    #[inline]
    pub fn index(self) -> Option<usize> {
        let index = self.0.wrapping_sub(1) as usize;
        (index < 32).then_some(index)
    }
}

/// First and last thread of a line.
#[derive(Clone, Copy, PartialEq, Eq, Debug, Default)]
pub struct Line {
    pub first: Link,
    pub last: Link,
}

impl Line {
    pub const EMPTY: Line = Line { first: Link::NONE, last: Link::NONE };

    #[inline]
    pub fn is_empty(&self) -> bool {
        self.first == Link::NONE
    }

    /// The threads from first to last.
    pub fn iter<'a>(&self, threads: &'a [Thread; 32]) -> impl Iterator<Item = ThreadNo> + 'a {
        self.indexes(threads).map(|index| ThreadNo(index as u32))
    }

    /// The threads from first to last, by their places in the tables.
    #[inline]
    pub(crate) fn indexes<'a>(&self, threads: &'a [Thread; 32]) -> Indexes<'a> {
        Indexes { threads, at: self.first }
    }

    #[inline]
    pub(crate) fn push_back(&mut self, threads: &mut [Thread; 32], thread: usize) {
        threads[thread].prev = self.last;
        threads[thread].next = Link::NONE;
        match self.last.index() {
            Some(last) => threads[last].next = Link::to(thread),
            None => self.first = Link::to(thread),
        }
        self.last = Link::to(thread);
    }

    #[inline]
    pub(crate) fn push_front(&mut self, threads: &mut [Thread; 32], thread: usize) {
        threads[thread].prev = Link::NONE;
        threads[thread].next = self.first;
        match self.first.index() {
            Some(first) => threads[first].prev = Link::to(thread),
            None => self.last = Link::to(thread),
        }
        self.first = Link::to(thread);
    }

    #[inline]
    pub(crate) fn remove(&mut self, threads: &mut [Thread; 32], thread: usize) {
        let Thread { prev, next, .. } = threads[thread];
        match prev.index() {
            Some(prev) => threads[prev].next = next,
            None => self.first = next,
        }
        match next.index() {
            Some(next) => threads[next].prev = prev,
            None => self.last = prev,
        }
        threads[thread].prev = Link::NONE;
        threads[thread].next = Link::NONE;
    }

    /// Moves the first thread of the best priority to the front.
    pub(crate) fn prioritise(&mut self, threads: &mut [Thread; 32]) {
        // `min_by_key` gives the first of several equal ones.
        let best = self.indexes(threads).min_by_key(|&thread| threads[thread].priority);
        if let Some(best) = best {
            self.remove(threads, best);
            self.push_front(threads, best);
        }
    }

    /// Sorts the whole line by priority: the student error, not a service.
    pub(crate) fn sort(&mut self, threads: &mut [Thread; 32]) {
        for priority in 0..32 {
            let mut at = self.first;
            for _ in 0..self.indexes(threads).count() {
                let Some(thread) = at.index() else { break };
                at = threads[thread].next;
                if threads[thread].priority == priority {
                    self.remove(threads, thread);
                    self.push_back(threads, thread);
                }
            }
        }
    }
}

/// Walks a line from first to last.
pub(crate) struct Indexes<'a> {
    threads: &'a [Thread; 32],
    at: Link,
}

impl Iterator for Indexes<'_> {
    type Item = usize;

    #[inline]
    fn next(&mut self) -> Option<usize> {
        let thread = self.at.index()?;
        self.at = self.threads[thread].next;
        Some(thread)
    }
}
