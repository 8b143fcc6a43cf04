//! Accounts from history: counts and free blocks told from the calls alone.

use crate::kernel::Outcome;
use crate::status::Status;
use crate::tables::{State, Tables};
use crate::tape::Record;

/// What counts and free blocks must be, kept from creation on.
#[derive(Clone, Debug, Default)]
pub struct Accounts {
    /// Start plus puts less served gets, as numbers: nothing wraps around.
    counts: [Option<i64>; 16],
    /// Total plus releases less served allocates.
    free_blocks: [Option<i64>; 4],
}

impl Accounts {
    /// Books one call and checks the tables after it.
    pub fn follow(
        &mut self,
        record: &Record,
        outcome: &Outcome,
        before: &Tables,
        after: &Tables,
    ) -> Result<(), &'static str> {
        if outcome.status == Status::SUCCESS {
            self.book(record, after);
        }
        self.book_served(before, after);
        self.check(after)
    }

    /// Books what the call itself does.
    fn book(&mut self, record: &Record, after: &Tables) {
        let [number, count, ..] = record.args;
        let number = number as usize;
        match record.call {
            16 => self.counts[number] = Some(count.into()),
            17 => self.counts[number] = None,
            18 => change(&mut self.counts[number], -1),
            19 | 20 => change(&mut self.counts[number], 1),
            33 => self.free_blocks[number] = Some(after.pools[number].blocks.into()),
            34 => self.free_blocks[number] = None,
            35 => change(&mut self.free_blocks[number], -1),
            36 => change(&mut self.free_blocks[number], 1),
            _ => {}
        }
    }

    /// Books gets and allocates that waited and are now served.
    fn book_served(&mut self, before: &Tables, after: &Tables) {
        for (was, is) in before.threads.iter().zip(&after.threads) {
            let served = was.state.is_waiting()
                && is.created
                && matches!(is.state, State::Ready | State::Suspended)
                && is.held_status == Status::SUCCESS;
            let object = was.object as usize;
            match was.state {
                State::Semaphore if served => change(&mut self.counts[object], -1),
                State::Block if served => change(&mut self.free_blocks[object], -1),
                _ => {}
            }
        }
    }

    fn check(&self, after: &Tables) -> Result<(), &'static str> {
        for (semaphore, &count) in after.semaphores.iter().zip(&self.counts) {
            if semaphore.created.then_some(semaphore.count.into()) != count {
                return Err("a count is not its start plus puts less served gets");
            }
        }
        for (pool, &free) in after.pools.iter().zip(&self.free_blocks) {
            if pool.created.then_some(pool.free_count.into()) != free {
                return Err("free blocks are not the total plus releases less allocates");
            }
        }
        Ok(())
    }
}

fn change(account: &mut Option<i64>, by: i64) {
    if let Some(account) = account {
        *account += by;
    }
}
