//! Block pool services 33 to 37, and the view of a block.

use crate::call::Caller;
use crate::kernel::{may_wait, no_interrupt, only_thread, Answer, Reply};
use crate::numbers::PoolNo;
use crate::semaphores::prioritise_line;
use crate::status::Status;
use crate::tables::{Pool, State, Tables};

/// Bytes that each block needs beside its own.
const OVERHEAD: u32 = 4;

/// How many blocks a pool of these sizes has, if it can be created.
pub(crate) fn block_count(block_bytes: u32, total_bytes: u32) -> Option<u8> {
    if !(4..=256).contains(&block_bytes) || !block_bytes.is_multiple_of(4) {
        return None;
    }
    let blocks = total_bytes / (block_bytes + OVERHEAD);
    (1..=64).contains(&blocks).then_some(blocks as u8)
}

impl Pool {
    #[inline]
    fn is_free(&self, block: u8) -> bool {
        self.free_set >> block & 1 == 1
    }

    #[inline]
    fn take(&mut self) -> Option<u8> {
        if self.free_count == 0 {
            return None;
        }
        self.free_count -= 1;
        let slot = &mut self.free[self.free_count as usize & 63];
        let block = std::mem::take(slot);
        self.free_set &= !(1 << block);
        Some(block)
    }

    #[inline]
    fn put_back(&mut self, block: u8) {
        self.free[self.free_count as usize & 63] = block;
        self.free_count += 1;
        self.free_set |= 1 << block;
    }

    /// The block's number, if it is in use.
    #[inline]
    fn used_block(&self, block: u32) -> Option<u8> {
        (block < self.blocks as u32 && !self.is_free(block as u8)).then_some(block as u8)
    }

    /// The free blocks in the order in which they would be given.
    pub fn free_blocks(&self) -> impl Iterator<Item = u8> + '_ {
        self.free[..self.free_count as usize].iter().rev().copied()
    }
}

impl Tables {
    #[inline]
    fn pool(&self, number: PoolNo) -> Result<usize, Status> {
        match number.index() {
            Some(index) if self.pools[index].created => Ok(index),
            _ => Err(Status::POOL_ERROR),
        }
    }

    pub(crate) fn pool_create(
        &mut self,
        caller: Caller,
        number: PoolNo,
        block_bytes: u32,
        total_bytes: u32,
    ) -> Answer {
        let index = match number.index() {
            Some(index) if !self.pools[index].created => index,
            _ => return Err(Status::POOL_ERROR),
        };
        let blocks = block_count(block_bytes, total_bytes).ok_or(Status::SIZE_ERROR)?;
        no_interrupt(caller)?;
        let pool = &mut self.pools[index];
        *pool = Pool { created: true, blocks, block_bytes, total_bytes, ..Pool::EMPTY };
        for block in (0..blocks).rev() {
            pool.put_back(block);
        }
        Ok(Reply::done())
    }

    pub(crate) fn pool_delete(&mut self, caller: Caller, number: PoolNo) -> Answer {
        let index = self.pool(number)?;
        only_thread(caller)?;
        let ended = self.end_line(self.pools[index].line, Status::DELETED);
        self.pools[index] = Pool::EMPTY;
        Ok(Reply::ended(ended))
    }

    pub(crate) fn pool_allocate(&mut self, caller: Caller, number: PoolNo, wait: u32) -> Answer {
        let index = self.pool(number)?;
        may_wait(caller, wait)?;
        if let Some(block) = self.pools[index].take() {
            return Ok(Reply::word(block as u32));
        }
        if wait == 0 {
            return Err(Status::NO_MEMORY);
        }
        let thread = self.block_runner(State::Block, index, wait);
        self.pools[index].line.push_back(&mut self.threads, thread);
        Ok(Reply::waiting())
    }

    pub(crate) fn pool_release(&mut self, number: PoolNo, block: u32) -> Answer {
        let index = self.pool(number)?;
        let block = self.pools[index].used_block(block).ok_or(Status::PTR_ERROR)?;
        if let Some(waiter) = self.pools[index].line.first.index() {
            self.serve_waiter(waiter, &[block as u32]);
            return Ok(Reply::ended(1));
        }
        self.pools[index].put_back(block);
        Ok(Reply::done())
    }

    pub(crate) fn pool_prioritise<const FAULT: u8>(&mut self, number: PoolNo) -> Answer {
        let index = self.pool(number)?;
        prioritise_line::<FAULT>(&mut self.pools[index].line, &mut self.threads);
        Ok(Reply::done())
    }

    /// The bytes of a used block within the lent pool area. The part has
    /// length 0 for unsound tables, a pool that is not created, an area
    /// shorter than the pool's total bytes, and a block out of range or free.
    pub fn block_part<'a>(&self, number: PoolNo, block: u32, area: &'a mut [u8]) -> &'a mut [u8] {
        match self.block_range(number, block, area.len()) {
            Some(range) => &mut area[range],
            None => &mut [],
        }
    }

    fn block_range(
        &self,
        number: PoolNo,
        block: u32,
        area_bytes: usize,
    ) -> Option<std::ops::Range<usize>> {
        self.soundness().ok()?;
        let pool = &self.pools[self.pool(number).ok()?];
        let block = pool.used_block(block)?;
        if area_bytes < pool.total_bytes as usize {
            return None;
        }
        let bytes = pool.block_bytes as usize;
        let overhead = OVERHEAD as usize;
        let start = block as usize * (bytes + overhead) + overhead;
        Some(start..start + bytes)
    }
}
