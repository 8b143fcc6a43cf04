//! Event flags services 29 to 32.

use crate::call::Caller;
use crate::fault;
use crate::kernel::{may_wait, no_interrupt, only_thread, Answer, Reply};
use crate::line::Line;
use crate::numbers::GroupNo;
use crate::status::Status;
use crate::tables::{Group, State, Tables};

const OR: u32 = 0;
const AND: u32 = 2;
/// Bit of a get option that asks for AND.
const ALL: u32 = 2;
/// Bit of a get option that clears the request when it is met.
const CLEAR: u32 = 1;

/// Whether `flags` meet a request. A request of 0 is never met.
#[inline]
pub(crate) fn is_met(flags: u32, request: u32, option: u32) -> bool {
    let common = flags & request;
    if option & ALL != 0 {
        request != 0 && common == request
    } else {
        common != 0
    }
}

impl Tables {
    #[inline]
    fn group(&self, number: GroupNo) -> Result<usize, Status> {
        match number.index() {
            Some(index) if self.groups[index].created => Ok(index),
            _ => Err(Status::GROUP_ERROR),
        }
    }

    pub(crate) fn group_create(&mut self, caller: Caller, number: GroupNo) -> Answer {
        let index = match number.index() {
            Some(index) if !self.groups[index].created => index,
            _ => return Err(Status::GROUP_ERROR),
        };
        no_interrupt(caller)?;
        self.groups[index] = Group { created: true, flags: 0, line: Line::EMPTY };
        Ok(Reply::done())
    }

    pub(crate) fn group_delete(&mut self, caller: Caller, number: GroupNo) -> Answer {
        let index = self.group(number)?;
        only_thread(caller)?;
        let ended = self.end_line(self.groups[index].line, Status::DELETED);
        self.groups[index] = Group::default();
        Ok(Reply::ended(ended))
    }

    pub(crate) fn group_set<const FAULT: u8>(
        &mut self,
        number: GroupNo,
        flags: u32,
        option: u32,
    ) -> Answer {
        let index = self.group(number)?;
        match option {
            OR => Ok(Reply::ended(self.join_flags::<FAULT>(index, flags))),
            AND => {
                self.groups[index].flags &= flags;
                Ok(Reply::done())
            }
            _ => Err(Status::OPTION_ERROR),
        }
    }

    /// Joins flags and tests every waiter against the joined ones; clears are
    /// taken off afterwards. Gives the number of waits ended.
    fn join_flags<const FAULT: u8>(&mut self, index: usize, flags: u32) -> u32 {
        let mut joined = self.groups[index].flags | flags;
        let mut clears = 0;
        let mut ended = 0;
        let mut at = self.groups[index].line.first;
        while let Some(waiter) = at.index() {
            let record = &self.threads[waiter];
            at = record.next;
            let (request, option) = (record.request, record.option as u32);
            if !is_met(joined, request, option) {
                continue;
            }
            if option & CLEAR != 0 {
                clears |= request;
            }
            self.serve_waiter(waiter, &[joined]);
            ended += 1;
            if FAULT == fault::FLAGS_ALREADY_CLEARED {
                joined &= !clears;
            }
        }
        self.groups[index].flags = joined & !clears;
        ended
    }

    pub(crate) fn group_get(
        &mut self,
        caller: Caller,
        number: GroupNo,
        request: u32,
        option: u32,
        wait: u32,
    ) -> Answer {
        let index = self.group(number)?;
        if option > 3 {
            return Err(Status::OPTION_ERROR);
        }
        may_wait(caller, wait)?;
        let flags = self.groups[index].flags;
        if is_met(flags, request, option) {
            if option & CLEAR != 0 {
                self.groups[index].flags = flags & !request;
            }
            return Ok(Reply::word(flags));
        }
        if wait == 0 {
            return Err(Status::NO_EVENTS);
        }
        let thread = self.block_runner(State::Flags, index, wait);
        self.threads[thread].request = request;
        self.threads[thread].option = option as u8;
        self.groups[index].line.push_back(&mut self.threads, thread);
        Ok(Reply::waiting())
    }
}
