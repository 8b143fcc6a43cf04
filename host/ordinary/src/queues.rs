//! Queue services 22 to 28.

use crate::call::Caller;
use crate::kernel::{may_wait, no_interrupt, only_thread, Answer, Reply};
use crate::numbers::QueueNo;
use crate::semaphores::prioritise_line;
use crate::status::Status;
use crate::tables::{Message, Queue, State, Tables};

impl Queue {
    /// Where the message at ring position `at` stands in the storage.
    #[inline]
    fn slot(&self, at: usize) -> std::ops::Range<usize> {
        let size = self.size as usize;
        at * size..(at + 1) * size
    }

    /// The ring position `distance` behind the oldest message.
    #[inline]
    fn position(&self, distance: u8) -> usize {
        let at = self.first as usize + distance as usize;
        let capacity = self.capacity as usize;
        if at < capacity {
            at
        } else {
            at - capacity
        }
    }

    /// The stored messages, oldest first.
    pub fn messages(&self) -> impl Iterator<Item = &[u32]> {
        (0..self.stored).map(|distance| &self.words[self.slot(self.position(distance))])
    }

    #[inline]
    fn is_full(&self) -> bool {
        self.stored == self.capacity
    }

    #[inline]
    fn store_last(&mut self, message: &[u32]) {
        let slot = self.slot(self.position(self.stored));
        self.words[slot].copy_from_slice(message);
        self.stored += 1;
    }

    #[inline]
    fn store_first(&mut self, message: &[u32]) {
        if self.stored > 0 {
            self.first = self.position(self.capacity - 1) as u8;
        }
        let slot = self.slot(self.first as usize);
        self.words[slot].copy_from_slice(message);
        self.stored += 1;
    }

    /// Takes the oldest message out of the store.
    #[inline]
    fn take_first(&mut self) -> Message {
        let slot = self.slot(self.first as usize);
        let mut message = [0; 16];
        message[..slot.len()].copy_from_slice(&self.words[slot.clone()]);
        self.words[slot].fill(0);
        self.stored -= 1;
        self.first = if self.stored == 0 { 0 } else { self.position(1) as u8 };
        message
    }

    /// Empties the store.
    fn clear(&mut self) {
        self.words = [0; 64];
        self.first = 0;
        self.stored = 0;
    }
}

impl Tables {
    #[inline]
    fn queue(&self, number: QueueNo) -> Result<usize, Status> {
        match number.index() {
            Some(index) if self.queues[index].created => Ok(index),
            _ => Err(Status::QUEUE_ERROR),
        }
    }

    pub(crate) fn queue_create(
        &mut self,
        caller: Caller,
        number: QueueNo,
        size: u32,
        storage: u32,
    ) -> Answer {
        let index = match number.index() {
            Some(index) if !self.queues[index].created => index,
            _ => return Err(Status::QUEUE_ERROR),
        };
        if !(1..=16).contains(&size) || !(1..=64).contains(&storage) || storage < size {
            return Err(Status::SIZE_ERROR);
        }
        no_interrupt(caller)?;
        let queue = &mut self.queues[index];
        queue.created = true;
        queue.size = size as u8;
        queue.storage = storage as u8;
        queue.capacity = (storage / size) as u8;
        Ok(Reply::done())
    }

    pub(crate) fn queue_delete(&mut self, caller: Caller, number: QueueNo) -> Answer {
        let index = self.queue(number)?;
        only_thread(caller)?;
        let ended = self.end_line(self.queues[index].line, Status::DELETED);
        self.queues[index] = Queue::EMPTY;
        Ok(Reply::ended(ended))
    }

    /// The message at an index of the lent area, if it lies wholly inside.
    #[inline]
    fn message_at<'a>(&self, queue: usize, message: u32, area: &'a [u32]) -> Option<&'a [u32]> {
        let start = message as usize;
        area.get(start..start.checked_add(self.queues[queue].size as usize)?)
    }

    pub(crate) fn queue_send(
        &mut self,
        caller: Caller,
        number: QueueNo,
        wait: u32,
        message: u32,
        front: bool,
        area: &[u32],
    ) -> Answer {
        let index = self.queue(number)?;
        let message = self.message_at(index, message, area).ok_or(Status::PTR_ERROR)?;
        may_wait(caller, wait)?;
        let queue = &mut self.queues[index];
        if queue.is_full() {
            if wait == 0 {
                return Err(Status::QUEUE_FULL);
            }
            self.wait_to_send(index, wait, message, front);
            return Ok(Reply::waiting());
        }
        // With room in the store, whoever stands in line is a receiver.
        if let Some(receiver) = queue.line.first.index() {
            self.serve_waiter(receiver, message);
            return Ok(Reply::ended(1));
        }
        if front {
            queue.store_first(message);
        } else {
            queue.store_last(message);
        }
        Ok(Reply::done())
    }

    fn wait_to_send(&mut self, index: usize, wait: u32, message: &[u32], front: bool) {
        let thread = self.block_runner(State::Queue, index, wait);
        let record = &mut self.threads[thread];
        record.sender = true;
        record.front = front;
        record.message[..message.len()].copy_from_slice(message);
        let line = &mut self.queues[index].line;
        if front {
            line.push_front(&mut self.threads, thread);
        } else {
            line.push_back(&mut self.threads, thread);
        }
    }

    pub(crate) fn queue_receive(&mut self, caller: Caller, number: QueueNo, wait: u32) -> Answer {
        let index = self.queue(number)?;
        may_wait(caller, wait)?;
        let queue = &mut self.queues[index];
        if queue.stored == 0 {
            if wait == 0 {
                return Err(Status::QUEUE_EMPTY);
            }
            let thread = self.block_runner(State::Queue, index, wait);
            self.queues[index].line.push_back(&mut self.threads, thread);
            return Ok(Reply::waiting());
        }
        // With a message in the store, whoever stands in line is a sender.
        let Some(sender) = queue.line.first.index() else {
            return Ok(Reply { words: queue.take_first(), ..Reply::done() });
        };
        let words = self.receive_past_sender(index, sender);
        self.end_wait(sender, Status::SUCCESS);
        Ok(Reply { words, ..Reply::ended(1) })
    }

    /// What a receive gives while a sender waits: a front sender's message
    /// goes past the store, an ordinary one's behind it.
    fn receive_past_sender(&mut self, index: usize, sender: usize) -> Message {
        let record = &self.threads[sender];
        if record.front {
            return record.message;
        }
        let queue = &mut self.queues[index];
        let oldest = queue.take_first();
        queue.store_last(&record.message[..queue.size as usize]);
        oldest
    }

    pub(crate) fn queue_flush(&mut self, number: QueueNo) -> Answer {
        let index = self.queue(number)?;
        if self.queues[index].stored == 0 {
            return Ok(Reply::done());
        }
        self.queues[index].clear();
        let ended = self.end_line(self.queues[index].line, Status::SUCCESS);
        Ok(Reply::ended(ended))
    }

    pub(crate) fn queue_prioritise<const FAULT: u8>(&mut self, number: QueueNo) -> Answer {
        let index = self.queue(number)?;
        prioritise_line::<FAULT>(&mut self.queues[index].line, &mut self.threads);
        Ok(Reply::done())
    }
}
