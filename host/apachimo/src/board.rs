//! A board's tables, single calls on them, and runs of tapes.

use crate::call::{Call, Caller};
use crate::library::{self, RawReply};
use crate::numbers::Thread;
use crate::status::Status;
use crate::tables::Tables;
use std::fmt;

/// Bytes of a block of tables.
pub const STATE_BYTES: usize = 5278;

/// Words of a reply in a lent buffer: status, sixteen words, next thread,
/// ended waits.
pub const REPLY_WORDS: usize = 19;

/// What a call answers.
#[derive(Clone, Copy, PartialEq, Eq, Debug)]
pub struct Reply {
    pub status: Status,
    pub words: [u32; 16],
    /// Who runs next.
    pub next: Option<Thread>,
    /// How many waits this call ended with a status.
    pub ended: u32,
}

impl Reply {
    /// The answer of every call on unsound tables.
    pub const UNSOUND: Reply =
        Reply { status: Status::TablesUnsound, words: [0; 16], next: None, ended: 0 };

    fn new(status: u32, words: [u32; 16], next: u32, ended: u32) -> Reply {
        let next = (next < Thread::LIMIT).then_some(Thread(next));
        Reply { status: known(status), words, next, ended }
    }

    /// A reply as a run writes it into a lent buffer.
    pub fn from_words(words: &[u32; REPLY_WORDS]) -> Reply {
        let mut answered = [0; 16];
        answered.copy_from_slice(&words[1..17]);
        Reply::new(words[0], answered, words[17], words[18])
    }
}

impl From<RawReply> for Reply {
    fn from(raw: RawReply) -> Reply {
        Reply::new(raw.status, raw.words, raw.next, raw.ended)
    }
}

/// The library answers only statuses of `Status`.
fn known(status: u32) -> Status {
    Status::try_from(status).expect("the library answers only known statuses")
}

/// What a run of a tape answers.
#[derive(Clone, PartialEq, Eq, Debug)]
pub struct Run {
    /// `Success`, `TapeRefused` or `TablesUnsound`.
    pub status: Status,
    /// One reply for each record that was carried out. On unsound tables each
    /// record answers `TablesUnsound`.
    pub replies: Vec<Reply>,
}

/// A board: the tables of one kernel, as the library's block of bytes.
///
/// The library keeps nothing else, so boards are independent of each other
/// and can be copied, compared and moved between threads.
#[derive(Clone, PartialEq, Eq)]
pub struct Board {
    state: Box<[u8; STATE_BYTES]>,
}

impl Board {
    /// A board with nothing created.
    pub fn new() -> Board {
        let mut board = Board { state: Box::new([0; STATE_BYTES]) };
        let status = library::start(&mut board.state[..]);
        assert_eq!(status, Status::Success.number(), "the block has the library's length");
        board
    }

    /// A board with the tables of a block of bytes, sound or not. A block of
    /// another length is a `SizeError`.
    ///
    /// ```
    /// use apachimo::{Board, Status};
    ///
    /// let board = Board::new();
    /// assert_eq!(Board::from_bytes(board.as_bytes()), Ok(board));
    /// assert_eq!(Board::from_bytes(&[0; 10]), Err(Status::SizeError));
    /// ```
    pub fn from_bytes(bytes: &[u8]) -> Result<Board, Status> {
        let state = <[u8; STATE_BYTES]>::try_from(bytes).map_err(|_| Status::SizeError)?;
        Ok(Board { state: Box::new(state) })
    }

    /// The block of bytes, to be stored or sent.
    pub fn as_bytes(&self) -> &[u8; STATE_BYTES] {
        &self.state
    }

    /// Whether the tables are sound. On others every call is refused with
    /// `TablesUnsound`.
    pub fn is_sound(&self) -> bool {
        library::is_sound(&self.state[..]) == Status::Success.number()
    }

    /// The tables, field by field.
    pub fn tables(&self) -> Tables {
        Tables::read(&self.state)
    }

    /// Carries out a call.
    pub fn call(&mut self, caller: Caller, call: Call<'_>) -> Reply {
        self.call_numbered(call.number(), caller as u32, call.arguments(), call.message())
    }

    /// Carries out a call given by numbers, which may be any. `messages` are
    /// the words that messages are taken from.
    ///
    /// ```
    /// use apachimo::{Board, Status};
    ///
    /// let reply = Board::new().call_numbered(99, 0, [0; 4], &[]);
    /// assert_eq!(reply.status, Status::UnknownCall);
    /// ```
    pub fn call_numbered(
        &mut self,
        call: u32,
        caller: u32,
        arguments: [u32; 4],
        messages: &[u32],
    ) -> Reply {
        library::call(&mut self.state[..], call, caller, arguments, messages).into()
    }

    /// Carries out the records of a tape, at most `most` of them. The tables
    /// are tested once, before the first record.
    ///
    /// ```
    /// use apachimo::{Board, Status};
    ///
    /// // A tape of one record: the timer interrupt.
    /// let words = [1u32, 16, 0, 40, 15, 1, 0, 0, 0, 0];
    /// let tape: Vec<u8> = words.iter().flat_map(|word| word.to_le_bytes()).collect();
    /// let mut board = Board::new();
    /// let run = board.run(&tape, u32::MAX);
    /// assert_eq!((run.status, run.replies.len()), (Status::Success, 1));
    /// assert_eq!(board.run(&tape[1..], u32::MAX).status, Status::TapeRefused);
    /// ```
    pub fn run(&mut self, tape: &[u8], most: u32) -> Run {
        let mut words = vec![0; REPLY_WORDS * wanted(tape, most)];
        let (status, carried) = self.run_into(tape, most, &mut words);
        let (replies, _) = words.as_chunks::<REPLY_WORDS>();
        let carried = &replies[..carried as usize];
        Run { status, replies: carried.iter().map(Reply::from_words).collect() }
    }

    /// `run` with the replies written into a lent buffer, [`REPLY_WORDS`]
    /// words a record. Gives the run's status and how many records were
    /// carried out; a buffer that is too short is a `SizeError`, and nothing
    /// is carried out. On unsound tables each record is answered with
    /// `TablesUnsound`.
    #[inline]
    pub fn run_into(&mut self, tape: &[u8], most: u32, replies: &mut [u32]) -> (Status, u32) {
        let run = library::run(&mut self.state[..], tape, most, replies);
        (known(run.status), run.carried)
    }
}

/// How many records a run of these bytes can carry out at the most.
fn wanted(tape: &[u8], most: u32) -> usize {
    const MOST_RECORDS: u32 = 2048;
    let header = tape.first_chunk::<4>().map_or(0, |bytes| u32::from_le_bytes(*bytes));
    header.min(most).min(MOST_RECORDS) as usize
}

impl Default for Board {
    fn default() -> Board {
        Board::new()
    }
}

impl fmt::Debug for Board {
    fn fmt(&self, f: &mut fmt::Formatter<'_>) -> fmt::Result {
        f.debug_tuple("Board").field(&self.tables()).finish()
    }
}
