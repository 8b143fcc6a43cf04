//! The tables of a board, read from its block of bytes field by field.
//!
//! ```
//! use apachimo::{Board, Caller, Semaphore, Start, Thread, Wait};
//!
//! let mut board = Board::new();
//! board.thread_create(Caller::StartUp, Thread(4), 10, 10, Start::Auto);
//! board.semaphore_create(Caller::StartUp, Semaphore(0), 0);
//! board.semaphore_get(Caller::Thread, Semaphore(0), Wait::FOREVER);
//! let tables = board.tables();
//! assert_eq!(tables.running, None);
//! assert_eq!(tables.waiting_on_semaphore(Semaphore(0)), [Thread(4)]);
//! assert!(tables.to_string().contains("sem 0 count=0: 4\n"));
//! ```

use crate::board::STATE_BYTES;
use crate::numbers::{Group, Pool, Queue, Semaphore, Thread};
use std::fmt::{self, Display, Formatter};

/// Ticks of a wait or sleep without end.
pub const FOREVER: u32 = 0xFFFF_FFFF;

/// Thread states, with ThreadX's numbers.
pub mod state {
    pub const READY: u8 = 0;
    pub const COMPLETED: u8 = 1;
    pub const TERMINATED: u8 = 2;
    pub const SUSPENDED: u8 = 3;
    pub const SLEEP: u8 = 4;
    pub const QUEUE: u8 = 5;
    pub const SEMAPHORE: u8 = 6;
    pub const FLAGS: u8 = 7;
    pub const BLOCK: u8 = 8;
}

/// A created thread.
#[derive(Clone, PartialEq, Eq, Debug)]
pub struct ThreadRecord {
    /// One of the numbers in [`state`].
    pub state: u8,
    pub priority: u8,
    pub threshold: u8,
    /// Preempted while its threshold was below its priority.
    pub marked: bool,
    /// A suspension is held until the wait or sleep ends.
    pub suspending: bool,
    /// The object waited on.
    pub object: u8,
    /// Ticks left of a wait or sleep, [`FOREVER`] for one without end, else 0.
    pub ticks: u32,
    pub held: Held,
}

/// What a thread holds: what its last wait left it, and what it waits for.
#[derive(Clone, PartialEq, Eq, Debug)]
pub struct Held {
    pub status: u32,
    /// Zero while it waits to send: the block has one place for both.
    pub words: [u32; 16],
    /// Waits on a queue to send.
    pub sending: bool,
    /// Came by front send.
    pub front: bool,
    /// Flags asked for.
    pub request: u32,
    /// Option of the flags wait.
    pub option: u8,
    /// The message of a waiting sender, zero of any other thread.
    pub message: [u32; 16],
}

/// A created semaphore.
#[derive(Clone, PartialEq, Eq, Debug)]
pub struct SemaphoreRecord {
    pub count: u32,
}

/// A created queue.
#[derive(Clone, PartialEq, Eq, Debug)]
pub struct QueueRecord {
    /// Words of a message.
    pub message_words: u8,
    /// Words of storage.
    pub storage_words: u8,
    /// Messages in the store.
    pub stored: u8,
    /// The messages' words one after another, the oldest first, zero behind.
    pub store: [u32; 64],
}

impl QueueRecord {
    /// How many messages fit.
    pub fn capacity(&self) -> u8 {
        self.storage_words.checked_div(self.message_words).unwrap_or(0)
    }

    /// The stored messages, the oldest first.
    pub fn messages(&self) -> impl Iterator<Item = &[u32]> {
        self.store.chunks(self.message_words.max(1) as usize).take(self.stored as usize)
    }
}

/// A created event flags group.
#[derive(Clone, PartialEq, Eq, Debug)]
pub struct GroupRecord {
    pub flags: u32,
}

/// A created block pool.
#[derive(Clone, PartialEq, Eq, Debug)]
pub struct PoolRecord {
    pub block_bytes: u16,
    pub total_bytes: u32,
    /// How many blocks are free.
    pub free: u8,
    /// The free blocks, the one that is given next first, zero behind.
    pub list: [u8; 64],
}

impl PoolRecord {
    /// How many blocks the pool has, each with four bytes of overhead.
    pub fn blocks(&self) -> u32 {
        self.total_bytes / (u32::from(self.block_bytes) + 4)
    }

    /// The free blocks, the one that is given next first.
    pub fn free_blocks(&self) -> &[u8] {
        &self.list[..usize::from(self.free).min(self.list.len())]
    }
}

/// All tables. Records that are not created are `None`. Of sound tables this is
/// everything that the block holds.
#[derive(Clone, PartialEq, Eq, Debug)]
pub struct Tables {
    pub running: Option<Thread>,
    /// The threads that are ready or wait on an object. Those of one priority
    /// or one object stand in their order; others may stand between them.
    pub order: Vec<Thread>,
    pub threads: Vec<Option<ThreadRecord>>,
    pub semaphores: Vec<Option<SemaphoreRecord>>,
    pub queues: Vec<Option<QueueRecord>>,
    pub groups: Vec<Option<GroupRecord>>,
    pub pools: Vec<Option<PoolRecord>>,
    pub clock: u32,
}

/// Takes fields from a block, one after another.
struct Reader<'a> {
    rest: &'a [u8],
}

impl Reader<'_> {
    fn bytes<const N: usize>(&mut self) -> [u8; N] {
        let (field, rest) = self.rest.split_first_chunk().expect("the block has all fields");
        self.rest = rest;
        *field
    }

    fn byte(&mut self) -> u8 {
        let [byte] = self.bytes();
        byte
    }

    fn flag(&mut self) -> bool {
        self.byte() == 1
    }

    fn half(&mut self) -> u16 {
        u16::from_le_bytes(self.bytes())
    }

    fn word(&mut self) -> u32 {
        u32::from_le_bytes(self.bytes())
    }

    fn words<const N: usize>(&mut self) -> [u32; N] {
        [0; N].map(|_| self.word())
    }

    /// So many records, read one by one.
    fn records<T>(&mut self, count: u32, mut read: impl FnMut(&mut Self) -> T) -> Vec<T> {
        (0..count).map(|_| read(self)).collect()
    }

    fn thread(&mut self) -> Option<ThreadRecord> {
        let created = self.flag();
        let record = ThreadRecord {
            state: self.byte(),
            priority: self.byte(),
            threshold: self.byte(),
            marked: self.flag(),
            suspending: self.flag(),
            object: self.byte(),
            ticks: self.word(),
            held: Held::NOTHING,
        };
        created.then_some(record)
    }

    fn held(&mut self) -> Held {
        let status = self.word();
        let held = self.words();
        let sending = self.flag();
        let (words, message) = if sending { ([0; 16], held) } else { (held, [0; 16]) };
        Held {
            status,
            words,
            sending,
            front: self.flag(),
            request: self.word(),
            option: self.byte(),
            message,
        }
    }

    fn semaphore(&mut self) -> Option<SemaphoreRecord> {
        let created = self.flag();
        let record = SemaphoreRecord { count: self.word() };
        created.then_some(record)
    }

    fn queue(&mut self) -> Option<QueueRecord> {
        let created = self.flag();
        let record = QueueRecord {
            message_words: self.byte(),
            storage_words: self.byte(),
            stored: self.byte(),
            store: self.words(),
        };
        created.then_some(record)
    }

    fn group(&mut self) -> Option<GroupRecord> {
        let created = self.flag();
        let record = GroupRecord { flags: self.word() };
        created.then_some(record)
    }

    fn pool(&mut self) -> Option<PoolRecord> {
        let created = self.flag();
        let record = PoolRecord {
            block_bytes: self.half(),
            total_bytes: self.word(),
            free: self.byte(),
            list: self.bytes(),
        };
        created.then_some(record)
    }
}

impl Held {
    const NOTHING: Held = Held {
        status: 0,
        words: [0; 16],
        sending: false,
        front: false,
        request: 0,
        option: 0,
        message: [0; 16],
    };
}

fn thread_numbered(number: u8) -> Thread {
    Thread(u32::from(number))
}

impl Tables {
    /// Reads the tables of a block.
    pub fn read(block: &[u8; STATE_BYTES]) -> Tables {
        let mut reader = Reader { rest: block };
        let running = thread_numbered(reader.byte());
        let ids: [u8; 32] = reader.bytes();
        let length = usize::from(reader.byte()).min(ids.len());
        let mut threads = reader.records(Thread::LIMIT, Reader::thread);
        for thread in &mut threads {
            let held = reader.held();
            if let Some(record) = thread {
                record.held = held;
            }
        }
        Tables {
            running: (running.0 < Thread::LIMIT).then_some(running),
            order: ids[..length].iter().copied().map(thread_numbered).collect(),
            threads,
            semaphores: reader.records(Semaphore::LIMIT, Reader::semaphore),
            queues: reader.records(Queue::LIMIT, Reader::queue),
            groups: reader.records(Group::LIMIT, Reader::group),
            pools: reader.records(Pool::LIMIT, Reader::pool),
            clock: reader.word(),
        }
    }

    /// The threads of the order for which `wanted` holds.
    fn standing(&self, wanted: impl Fn(&ThreadRecord) -> bool) -> Vec<Thread> {
        let holds = |thread: &Thread| {
            self.threads.get(thread.0 as usize).and_then(Option::as_ref).is_some_and(&wanted)
        };
        self.order.iter().copied().filter(holds).collect()
    }

    /// The ready threads of a priority, in order.
    pub fn ready(&self, priority: u8) -> Vec<Thread> {
        self.standing(|thread| thread.state == state::READY && thread.priority == priority)
    }

    fn waiting(&self, state: u8, object: u32) -> Vec<Thread> {
        self.standing(|thread| thread.state == state && u32::from(thread.object) == object)
    }

    /// The waiters of a semaphore, in line order.
    pub fn waiting_on_semaphore(&self, semaphore: Semaphore) -> Vec<Thread> {
        self.waiting(state::SEMAPHORE, semaphore.0)
    }

    /// The receivers or senders that wait on a queue, in line order.
    pub fn waiting_on_queue(&self, queue: Queue) -> Vec<Thread> {
        self.waiting(state::QUEUE, queue.0)
    }

    /// The waiters of an event flags group, in line order.
    pub fn waiting_on_group(&self, group: Group) -> Vec<Thread> {
        self.waiting(state::FLAGS, group.0)
    }

    /// The waiters of a block pool, in line order.
    pub fn waiting_on_pool(&self, pool: Pool) -> Vec<Thread> {
        self.waiting(state::BLOCK, pool.0)
    }
}

/// Numbers with a text in between.
struct List<'a, T>(&'a [T], &'a str);

impl<T: Display> Display for List<'_, T> {
    fn fmt(&self, f: &mut Formatter<'_>) -> fmt::Result {
        for (index, value) in self.0.iter().enumerate() {
            if index > 0 {
                f.write_str(self.1)?;
            }
            value.fmt(f)?;
        }
        Ok(())
    }
}

/// A line of threads, as it follows `: `.
fn line(threads: &[Thread]) -> List<'_, Thread> {
    List(threads, " ")
}

impl Display for ThreadRecord {
    fn fmt(&self, f: &mut Formatter<'_>) -> fmt::Result {
        let (wait, ticks) = match self.ticks {
            0 => ("none", 0),
            FOREVER => ("forever", 0),
            ticks => ("timed", ticks),
        };
        let Held { status, words, front, request, option, message, .. } = &self.held;
        write!(f, "state={} prio={} thr={}", self.state, self.priority, self.threshold)?;
        write!(f, " mark={} held={}", u8::from(self.marked), u8::from(self.suspending))?;
        write!(f, " status={status} wait={wait} ticks={ticks} words={}", List(words, ","))?;
        write!(f, " obj={} front={}", self.object, u8::from(*front))?;
        write!(f, " req={request} opt={option} msg={}", List(message, ","))
    }
}

impl Display for QueueRecord {
    fn fmt(&self, f: &mut Formatter<'_>) -> fmt::Result {
        let messages: Vec<String> =
            self.messages().map(|message| List(message, ",").to_string()).collect();
        let (size, storage) = (self.message_words, self.storage_words);
        write!(f, "size={size} storage={storage} cap={}", self.capacity())?;
        write!(f, " stored=[{}]", messages.join("|"))
    }
}

impl Display for PoolRecord {
    fn fmt(&self, f: &mut Formatter<'_>) -> fmt::Result {
        write!(f, "block={} total={}", self.block_bytes, self.total_bytes)?;
        write!(f, " blocks={} free=[{}]", self.blocks(), List(self.free_blocks(), ","))
    }
}

/// The created records of a table, with their numbers.
fn created<T>(table: &[Option<T>]) -> impl Iterator<Item = (u32, &T)> {
    table.iter().enumerate().filter_map(|(index, record)| Some((index as u32, record.as_ref()?)))
}

/// The tables as the program `inspect` prints them, down to the line with a dot.
impl Display for Tables {
    fn fmt(&self, f: &mut Formatter<'_>) -> fmt::Result {
        writeln!(f, "clock {}", self.clock)?;
        match self.running {
            Some(thread) => writeln!(f, "running {thread}")?,
            None => writeln!(f, "running -")?,
        }
        for (number, thread) in created(&self.threads) {
            writeln!(f, "thread {number} {thread}")?;
        }
        for priority in 0..32 {
            let ready = self.ready(priority);
            if !ready.is_empty() {
                writeln!(f, "ready {priority}: {}", line(&ready))?;
            }
        }
        for (number, semaphore) in created(&self.semaphores) {
            let waiters = self.waiting_on_semaphore(Semaphore(number));
            writeln!(f, "sem {number} count={}: {}", semaphore.count, line(&waiters))?;
        }
        for (number, queue) in created(&self.queues) {
            let waiters = self.waiting_on_queue(Queue(number));
            writeln!(f, "queue {number} {queue}: {}", line(&waiters))?;
        }
        for (number, group) in created(&self.groups) {
            let waiters = self.waiting_on_group(Group(number));
            writeln!(f, "group {number} flags={}: {}", group.flags, line(&waiters))?;
        }
        for (number, pool) in created(&self.pools) {
            let waiters = self.waiting_on_pool(Pool(number));
            // The format has a space before this colon, unlike the others.
            writeln!(f, "pool {number} {pool} : {}", line(&waiters))?;
        }
        f.write_str(".\n")
    }
}
