//! Statuses with ThreadX's numbers and names.

use std::fmt;

/// A status number. Those from `0x100` on are this library's own.
#[derive(Clone, Copy, PartialEq, Eq, Hash, Debug, Default)]
pub struct Status(pub u32);

impl Status {
    pub const SUCCESS: Status = Status(0x00);
    pub const DELETED: Status = Status(0x01);
    pub const POOL_ERROR: Status = Status(0x02);
    pub const PTR_ERROR: Status = Status(0x03);
    pub const WAIT_ERROR: Status = Status(0x04);
    pub const SIZE_ERROR: Status = Status(0x05);
    pub const GROUP_ERROR: Status = Status(0x06);
    pub const NO_EVENTS: Status = Status(0x07);
    pub const OPTION_ERROR: Status = Status(0x08);
    pub const QUEUE_ERROR: Status = Status(0x09);
    pub const QUEUE_EMPTY: Status = Status(0x0A);
    pub const QUEUE_FULL: Status = Status(0x0B);
    pub const SEMAPHORE_ERROR: Status = Status(0x0C);
    pub const NO_INSTANCE: Status = Status(0x0D);
    pub const THREAD_ERROR: Status = Status(0x0E);
    pub const PRIORITY_ERROR: Status = Status(0x0F);
    /// Shares its number with `START_ERROR`.
    pub const NO_MEMORY: Status = Status(0x10);
    /// Shares its number with `NO_MEMORY`.
    pub const START_ERROR: Status = Status(0x10);
    pub const DELETE_ERROR: Status = Status(0x11);
    pub const RESUME_ERROR: Status = Status(0x12);
    pub const CALLER_ERROR: Status = Status(0x13);
    pub const SUSPEND_ERROR: Status = Status(0x14);
    pub const THRESH_ERROR: Status = Status(0x18);
    pub const SUSPEND_LIFTED: Status = Status(0x19);
    pub const WAIT_ABORTED: Status = Status(0x1A);
    pub const WAIT_ABORT_ERROR: Status = Status(0x1B);
    pub const NOT_DONE: Status = Status(0x20);
    pub const CEILING_EXCEEDED: Status = Status(0x21);
    pub const INVALID_CEILING: Status = Status(0x22);
    /// The tables are unsound.
    pub const UNSOUND: Status = Status(0x100);
    /// The caller now waits or sleeps.
    pub const WAITING: Status = Status(0x101);
    /// A call by a thread while no thread runs.
    pub const NOBODY_RUNS: Status = Status(0x102);
    /// The tape is refused.
    pub const TAPE_REFUSED: Status = Status(0x103);
    /// Call number or caller kind unknown.
    pub const UNKNOWN_CALL: Status = Status(0x104);

    /// Whether the call was carried out, as opposed to refused.
    #[inline]
    pub fn is_carried_out(self) -> bool {
        matches!(self, Status::SUCCESS | Status::SUSPEND_LIFTED | Status::WAITING)
    }

    /// ThreadX's name, or this library's own. `call` settles 0x10, which
    /// ThreadX uses twice: thread create's start error and "no memory".
    pub fn name(self, call: u32) -> &'static str {
        match self.0 {
            0x10 if call == 1 => "TX_START_ERROR",
            0x10 => "TX_NO_MEMORY",
            _ => self.plain_name(),
        }
    }

    fn plain_name(self) -> &'static str {
        match self.0 {
            0x00 => "TX_SUCCESS",
            0x01 => "TX_DELETED",
            0x02 => "TX_POOL_ERROR",
            0x03 => "TX_PTR_ERROR",
            0x04 => "TX_WAIT_ERROR",
            0x05 => "TX_SIZE_ERROR",
            0x06 => "TX_GROUP_ERROR",
            0x07 => "TX_NO_EVENTS",
            0x08 => "TX_OPTION_ERROR",
            0x09 => "TX_QUEUE_ERROR",
            0x0A => "TX_QUEUE_EMPTY",
            0x0B => "TX_QUEUE_FULL",
            0x0C => "TX_SEMAPHORE_ERROR",
            0x0D => "TX_NO_INSTANCE",
            0x0E => "TX_THREAD_ERROR",
            0x0F => "TX_PRIORITY_ERROR",
            0x11 => "TX_DELETE_ERROR",
            0x12 => "TX_RESUME_ERROR",
            0x13 => "TX_CALLER_ERROR",
            0x14 => "TX_SUSPEND_ERROR",
            0x18 => "TX_THRESH_ERROR",
            0x19 => "TX_SUSPEND_LIFTED",
            0x1A => "TX_WAIT_ABORTED",
            0x1B => "TX_WAIT_ABORT_ERROR",
            0x20 => "TX_NOT_DONE",
            0x21 => "TX_CEILING_EXCEEDED",
            0x22 => "TX_INVALID_CEILING",
            0x100 => "TABLES_UNSOUND",
            0x101 => "WAITING",
            0x102 => "NOBODY_RUNS",
            0x103 => "TAPE_REFUSED",
            0x104 => "UNKNOWN_CALL",
            _ => "UNKNOWN_STATUS",
        }
    }
}

impl fmt::Display for Status {
    fn fmt(&self, f: &mut fmt::Formatter<'_>) -> fmt::Result {
        write!(f, "0x{:02X}", self.0)
    }
}
