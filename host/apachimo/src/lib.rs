//! The proved kernel of a station display board, by types.
//!
//! A [`Board`] owns the tables of one kernel: threads, semaphores, queues,
//! event flags groups, block pools and the clock. Every service is a method
//! that takes the caller and the service's arguments and gives a [`Reply`].
//! The services themselves are in the proved library `libapachimo.a`; this
//! crate only passes numbers to it and reads its answers.
//!
//! # Threads and semaphores
//!
//! ```
//! use apachimo::{Board, Caller, Semaphore, Start, Status, Thread, Wait};
//!
//! let mut board = Board::new();
//! let reply = board.thread_create(Caller::StartUp, Thread(0), 10, 10, Start::Auto);
//! assert_eq!((reply.status, reply.next), (Status::Success, Some(Thread(0))));
//! board.semaphore_create(Caller::StartUp, Semaphore(0), 0);
//!
//! // Without an instance the thread waits, until an interrupt puts one.
//! let reply = board.semaphore_get(Caller::Thread, Semaphore(0), Wait::ticks(3));
//! assert_eq!((reply.status, reply.next), (Status::Waiting, None));
//! let reply = board.semaphore_put(Caller::Interrupt, Semaphore(0));
//! assert_eq!((reply.ended, reply.next), (1, Some(Thread(0))));
//! ```
//!
//! # Queues
//!
//! ```
//! use apachimo::{Board, Caller, Queue, Status, Wait};
//!
//! let mut board = Board::new();
//! board.queue_create(Caller::StartUp, Queue(3), 2, 4);
//! board.queue_send(Caller::Interrupt, Queue(3), &[1, 215], Wait::NONE);
//! board.queue_front_send(Caller::Interrupt, Queue(3), &[2, 219], Wait::NONE);
//! let full = board.queue_send(Caller::Interrupt, Queue(3), &[3, 220], Wait::NONE);
//! assert_eq!(full.status, Status::QueueFull);
//! let reply = board.queue_receive(Caller::Interrupt, Queue(3), Wait::NONE);
//! assert_eq!(reply.words[..2], [2, 219]);
//! ```
//!
//! # Event flags groups
//!
//! ```
//! use apachimo::{Board, Caller, GetOption, Group, SetOption, Start, Status, Thread, Wait};
//!
//! let mut board = Board::new();
//! board.thread_create(Caller::StartUp, Thread(0), 10, 10, Start::Auto);
//! board.event_flags_create(Caller::StartUp, Group(0));
//! board.event_flags_get(Caller::Thread, Group(0), 0b11, GetOption::AndClear, Wait::FOREVER);
//! board.event_flags_set(Caller::Interrupt, Group(0), 0b01, SetOption::Or);
//! let reply = board.event_flags_set(Caller::Interrupt, Group(0), 0b10, SetOption::Or);
//! assert_eq!(reply.ended, 1);
//! // The thread holds the flags that met its request.
//! assert_eq!(board.read_words(Caller::Thread, Thread(0)).words[0], 0b11);
//! ```
//!
//! # Block pools
//!
//! ```
//! use apachimo::{Board, Caller, Pool, Status, Wait};
//!
//! let mut board = Board::new();
//! board.block_pool_create(Caller::StartUp, Pool(0), 16, 100);
//! let block = board.block_allocate(Caller::Interrupt, Pool(0), Wait::NONE).words[0];
//! assert_eq!(board.block_release(Caller::Interrupt, Pool(0), block).status, Status::Success);
//! // A free block cannot be released.
//! assert_eq!(board.block_release(Caller::Interrupt, Pool(0), block).status, Status::PtrError);
//! ```
//!
//! # The clock
//!
//! ```
//! use apachimo::{Board, Caller, Start, Status, Thread};
//!
//! let mut board = Board::new();
//! board.thread_create(Caller::StartUp, Thread(0), 10, 10, Start::Auto);
//! assert_eq!(board.thread_sleep(Caller::Thread, 1).status, Status::Waiting);
//! assert_eq!(board.tick(Caller::Interrupt).ended, 1);
//! assert_eq!(board.time_get(Caller::Thread).words[0], 1);
//! ```

mod board;
mod call;
pub mod library;
mod numbers;
mod services;
mod status;
pub mod tables;

pub use board::{Board, Reply, Run, REPLY_WORDS, STATE_BYTES};
pub use call::{Call, Caller, GetOption, SetOption, Start, Wait};
pub use numbers::{Group, Pool, Queue, Semaphore, Thread};
pub use status::{Status, UnknownStatus};

/// The examples of the library's documentation are run too.
#[cfg(doctest)]
#[doc = include_str!("../../../docs/LIBRARY.md")]
struct Documentation;
