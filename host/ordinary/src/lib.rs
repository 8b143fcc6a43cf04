//! The controller's kernel as ordinary Rust.
//!
//! One-core ThreadX services over threads, semaphores, queues, event flag
//! groups and block pools, with the clock tick. The tables have a fixed size
//! and are changed in place; a call allocates nothing.
//!
//! ```
//! use ordinary::{Call, Caller, SemaphoreNo, Status, Tables, ThreadNo};
//!
//! let mut tables = Tables::new();
//! let create = Call::ThreadCreate { thread: ThreadNo(0), priority: 10, threshold: 10, start: 1 };
//! assert_eq!(tables.call(Caller::StartUp, create, &[]).status, Status::SUCCESS);
//! let create = Call::SemaphoreCreate { semaphore: SemaphoreNo(0), count: 0 };
//! assert_eq!(tables.call(Caller::StartUp, create, &[]).status, Status::SUCCESS);
//! let get = Call::SemaphoreGet { semaphore: SemaphoreNo(0), wait: 0 };
//! let outcome = tables.call(Caller::Thread, get, &[]);
//! assert_eq!(outcome.status, Status::NO_INSTANCE);
//! assert_eq!(outcome.next, Some(ThreadNo(0)));
//! ```

mod account;
mod call;
pub mod fault;
mod groups;
mod kernel;
mod line;
mod numbers;
mod pools;
pub mod print;
mod queues;
mod roll;
mod schedule;
mod semaphores;
mod sound;
mod status;
mod tables;
pub mod tape;
mod threads;

pub use account::Accounts;
pub use call::{Call, Caller};
pub use kernel::Outcome;
pub use line::{Line, Link};
pub use numbers::{GroupNo, PoolNo, QueueNo, SemaphoreNo, ThreadNo};
pub use roll::{Object, Roll, RollError, Rolls};
pub use sound::Unsound;
pub use status::Status;
pub use tables::{Group, Message, Pool, Queue, Semaphore, State, Tables, Thread, FOREVER};
pub use tape::{Record, Tape};
