//! Statuses with ThreadX's numbers and names.

use crate::call::Call;
use std::error::Error;
use std::fmt;

/// A number that is no status.
#[derive(Clone, Copy, PartialEq, Eq, Debug)]
pub struct UnknownStatus(pub u32);

impl fmt::Display for UnknownStatus {
    fn fmt(&self, f: &mut fmt::Formatter<'_>) -> fmt::Result {
        write!(f, "0x{:02X} is no status", self.0)
    }
}

impl Error for UnknownStatus {}

macro_rules! statuses {
    ($($(#[$doc:meta])* $variant:ident = $number:literal, $name:literal;)*) => {
        /// A status. Those from 0x100 on are no ThreadX statuses.
        #[derive(Clone, Copy, PartialEq, Eq, Hash, Debug)]
        #[repr(u32)]
        pub enum Status {
            $($(#[$doc])* $variant = $number,)*
        }

        impl Status {
            /// Every status, by number.
            pub const ALL: &'static [Status] = &[$(Status::$variant),*];

            /// The name in `apachimo.h`: ThreadX's where it has one.
            pub fn name(self) -> &'static str {
                match self {
                    $(Status::$variant => $name,)*
                }
            }
        }

        impl TryFrom<u32> for Status {
            type Error = UnknownStatus;

            fn try_from(number: u32) -> Result<Status, UnknownStatus> {
                match number {
                    $($number => Ok(Status::$variant),)*
                    _ => Err(UnknownStatus(number)),
                }
            }
        }
    };
}

statuses! {
    Success = 0x00, "TX_SUCCESS";
    /// The object that the thread waited on was deleted.
    Deleted = 0x01, "TX_DELETED";
    PoolError = 0x02, "TX_POOL_ERROR";
    /// A message outside the lent words, or a block that is free or not the pool's.
    PtrError = 0x03, "TX_PTR_ERROR";
    WaitError = 0x04, "TX_WAIT_ERROR";
    /// A size out of bounds; at the library's boundary also a block of tables of another length.
    SizeError = 0x05, "TX_SIZE_ERROR";
    GroupError = 0x06, "TX_GROUP_ERROR";
    NoEvents = 0x07, "TX_NO_EVENTS";
    OptionError = 0x08, "TX_OPTION_ERROR";
    QueueError = 0x09, "TX_QUEUE_ERROR";
    QueueEmpty = 0x0A, "TX_QUEUE_EMPTY";
    QueueFull = 0x0B, "TX_QUEUE_FULL";
    SemaphoreError = 0x0C, "TX_SEMAPHORE_ERROR";
    NoInstance = 0x0D, "TX_NO_INSTANCE";
    ThreadError = 0x0E, "TX_THREAD_ERROR";
    PriorityError = 0x0F, "TX_PRIORITY_ERROR";
    /// No block is free. Thread create gives the same number as [`Status::START_ERROR`].
    NoMemory = 0x10, "TX_NO_MEMORY";
    DeleteError = 0x11, "TX_DELETE_ERROR";
    ResumeError = 0x12, "TX_RESUME_ERROR";
    CallerError = 0x13, "TX_CALLER_ERROR";
    SuspendError = 0x14, "TX_SUSPEND_ERROR";
    ThreshError = 0x18, "TX_THRESH_ERROR";
    /// A resume lifted a held suspension.
    SuspendLifted = 0x19, "TX_SUSPEND_LIFTED";
    WaitAborted = 0x1A, "TX_WAIT_ABORTED";
    WaitAbortError = 0x1B, "TX_WAIT_ABORT_ERROR";
    NotDone = 0x20, "TX_NOT_DONE";
    CeilingExceeded = 0x21, "TX_CEILING_EXCEEDED";
    InvalidCeiling = 0x22, "TX_INVALID_CEILING";
    /// No call is carried out on unsound tables.
    TablesUnsound = 0x100, "APACHIMO_TABLES_UNSOUND";
    /// The caller now waits or sleeps.
    Waiting = 0x101, "APACHIMO_WAITING";
    /// A call by the running thread while nobody runs.
    NobodyRuns = 0x102, "APACHIMO_NOBODY_RUNS";
    TapeRefused = 0x103, "APACHIMO_TAPE_REFUSED";
    /// No call or no caller has this number.
    UnknownCall = 0x104, "APACHIMO_UNKNOWN_CALL";
}

impl Status {
    /// TX_START_ERROR: the number of [`Status::NoMemory`], given by thread create.
    pub const START_ERROR: Status = Status::NoMemory;

    /// The status's number.
    pub fn number(self) -> u32 {
        self as u32
    }

    /// The name of a status that `call` has answered, which settles 0x10.
    ///
    /// ```
    /// use apachimo::{Call, Pool, Start, Status, Thread, Wait};
    ///
    /// let create =
    ///     Call::ThreadCreate { thread: Thread(0), priority: 0, threshold: 0, start: Start::Auto };
    /// assert_eq!(Status::START_ERROR.name_for(&create), "TX_START_ERROR");
    /// let allocate = Call::BlockAllocate { pool: Pool(0), wait: Wait::NONE };
    /// assert_eq!(Status::NoMemory.name_for(&allocate), "TX_NO_MEMORY");
    /// ```
    pub fn name_for(self, call: &Call<'_>) -> &'static str {
        match (self, call) {
            (Status::NoMemory, Call::ThreadCreate { .. }) => "TX_START_ERROR",
            _ => self.name(),
        }
    }

    /// Whether a call with this status was carried out, as opposed to refused.
    pub fn is_carried_out(self) -> bool {
        matches!(self, Status::Success | Status::SuspendLifted | Status::Waiting)
    }
}

impl From<Status> for u32 {
    fn from(status: Status) -> u32 {
        status.number()
    }
}

impl fmt::Display for Status {
    fn fmt(&self, f: &mut fmt::Formatter<'_>) -> fmt::Result {
        f.write_str(self.name())
    }
}

impl Error for Status {}
