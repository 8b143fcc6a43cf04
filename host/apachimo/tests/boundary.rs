//! Bad input at the library's boundary: the documented status, and no byte
//! written, those around the lent parts included.

use apachimo::library::{self, RawReply, RawRun};
use apachimo::{Board, Caller, Group, Pool, Queue, Reply, Semaphore, Start, Status, Thread};
use apachimo::{REPLY_WORDS, STATE_BYTES};

const GUARD: usize = 64;
const RECORDS: usize = 3;
const NOBODY: u32 = 32;

/// Where tables stand in the block.
const THREADS: usize = 34;
const HELD: usize = 386;
const SEMAPHORES: usize = 2786;
const QUEUES: usize = 2866;
const GROUPS: usize = 4946;
const POOLS: usize = 4986;
const CLOCK: usize = 5274;

/// What is lent, with guards before and behind.
#[derive(Clone, PartialEq)]
struct Lent {
    state: Vec<u8>,
    replies: Vec<u32>,
}

impl Lent {
    /// A board with a thread and one object of each kind.
    fn new() -> Lent {
        let mut board = Board::new();
        board.thread_create(Caller::StartUp, Thread(0), 10, 10, Start::Auto);
        board.semaphore_create(Caller::StartUp, Semaphore(0), 5);
        board.queue_create(Caller::StartUp, Queue(0), 2, 8);
        board.event_flags_create(Caller::StartUp, Group(0));
        board.block_pool_create(Caller::StartUp, Pool(0), 16, 100);
        let guard = [0xA5; GUARD];
        Lent {
            state: [&guard[..], board.as_bytes(), &guard].concat(),
            replies: vec![0xA5A5_A5A5; GUARD + REPLY_WORDS * RECORDS + GUARD],
        }
    }

    /// So many bytes from where the block begins.
    fn block(&mut self, length: usize) -> &mut [u8] {
        &mut self.state[GUARD..GUARD + length]
    }

    fn run(&mut self, length: usize, tape: &[u8], most: u32, room: usize) -> RawRun {
        let state = &mut self.state[GUARD..GUARD + length];
        library::run(state, tape, most, &mut self.replies[GUARD..GUARD + room])
    }
}

/// A tape of clock calls, with four message words.
fn tape() -> Vec<u8> {
    let mut words = vec![RECORDS as u32, 16, 4, 16 + 24 * RECORDS as u32];
    for _ in 0..RECORDS {
        words.extend([14, 0, 7, 0, 0, 0]);
    }
    words.extend([1, 2, 3, 4]);
    words.iter().flat_map(|word| word.to_le_bytes()).collect()
}

fn refusal(status: Status, next: u32) -> RawReply {
    RawReply { status: status.number(), words: [0; 16], next, ended: 0 }
}

fn refused_run(status: Status, carried: u32) -> RawRun {
    RawRun { status: status.number(), carried }
}

fn put(block: &mut [u8]) -> RawReply {
    library::call(block, 19, 1, [0; 4], &[])
}

#[test]
fn the_library_names_its_size() {
    assert_eq!(library::state_bytes(), STATE_BYTES);
}

#[test]
fn blocks_of_another_length() {
    let before = Lent::new();
    for length in [0, 1, STATE_BYTES - 1, STATE_BYTES + 1, STATE_BYTES + GUARD] {
        let mut lent = before.clone();
        let size = Status::SizeError.number();
        assert_eq!(library::start(lent.block(length)), size, "{length}");
        assert_eq!(library::is_sound(lent.block(length)), size, "{length}");
        assert_eq!(put(lent.block(length)), refusal(Status::SizeError, NOBODY), "{length}");
        // The block's length is tested before the tape and the room.
        let run = lent.run(length, &[], 1, 0);
        assert_eq!(run, refused_run(Status::SizeError, 0), "{length}");
        let run = lent.run(length, &tape(), 3, 3 * REPLY_WORDS);
        assert_eq!(run, refused_run(Status::SizeError, 0), "{length}");
        assert!(lent == before, "{length}: bytes changed");
    }
}

#[test]
fn unknown_calls_and_callers() {
    let before = Lent::new();
    let mut lent = before.clone();
    for (call, caller) in [(0, 0), (40, 0), (u32::MAX, 1), (13, 3), (13, u32::MAX), (0, 9)] {
        let reply = library::call(lent.block(STATE_BYTES), call, caller, [0; 4], &[]);
        assert_eq!(reply, refusal(Status::UnknownCall, 0), "call {call}, caller {caller}");
    }
    assert!(lent == before);
}

/// One byte of the block changed, so that the tables are unsound.
fn assert_unsound(at: usize, value: u8) {
    let mut lent = Lent::new();
    lent.block(STATE_BYTES)[at] = value;
    let before = lent.clone();
    let unsound = refusal(Status::TablesUnsound, NOBODY);
    let test = library::is_sound(lent.block(STATE_BYTES));
    assert_eq!(test, Status::TablesUnsound.number(), "byte {at}: {value}");
    assert_eq!(put(lent.block(STATE_BYTES)), unsound, "byte {at}: {value}");
    let unknown = library::call(lent.block(STATE_BYTES), 0, 9, [0; 4], &[]);
    assert_eq!(unknown, unsound, "byte {at}: {value}");
    assert!(lent == before, "byte {at}: bytes changed");
    let run = lent.run(STATE_BYTES, &tape(), 2, 2 * REPLY_WORDS);
    assert_eq!(run, refused_run(Status::TablesUnsound, 2), "byte {at}: {value}");
    let mut expected = before;
    for reply in expected.replies[GUARD..].chunks_mut(REPLY_WORDS).take(2) {
        reply.fill(0);
        reply[0] = Status::TablesUnsound.number();
        reply[REPLY_WORDS - 2] = NOBODY;
    }
    assert!(lent == expected, "byte {at}: other words than the replies changed");
    assert_board_unsound(lent.block(STATE_BYTES));
}

/// A board with such tables answers as the library does.
fn assert_board_unsound(block: &[u8]) {
    let mut board = Board::from_bytes(block).unwrap();
    assert!(!board.is_sound());
    assert_eq!(board.tick(Caller::Interrupt), Reply::UNSOUND);
    let run = board.run(&tape(), 2);
    assert_eq!(run.status, Status::TablesUnsound);
    assert_eq!(run.replies, [Reply::UNSOUND; 2]);
    assert_eq!(board.as_bytes()[..], *block);
}

/// Where the flags of the block stand.
fn flags() -> Vec<usize> {
    let threads = (0..32).flat_map(|thread| [0, 4, 5].map(|flag| THREADS + 11 * thread + flag));
    let held = (0..32).flat_map(|thread| [68, 69].map(|flag| HELD + 75 * thread + flag));
    let semaphores = (0..16).map(|number| SEMAPHORES + 5 * number);
    let queues = (0..8).map(|number| QUEUES + 260 * number);
    let groups = (0..8).map(|number| GROUPS + 5 * number);
    let pools = (0..4).map(|number| POOLS + 72 * number);
    threads.chain(held).chain(semaphores).chain(queues).chain(groups).chain(pools).collect()
}

#[test]
fn flags_that_are_neither_0_nor_1() {
    for at in flags() {
        for value in [2, 128, 255] {
            assert_unsound(at, value);
        }
    }
}

#[test]
fn damaged_tables() {
    let threshold_over_priority = (THREADS + 3, 11);
    let priority_out_of_range = (THREADS + 2, 32);
    let block_listed_twice = (POOLS + 9, 0);
    let word_behind_the_store = (QUEUES + 8, 1);
    let count_of_an_uncreated_semaphore = (SEMAPHORES + 5 + 1, 1);
    for (at, value) in [
        (0, 5),
        (0, 32),
        (1, 1),
        (33, 0),
        (33, 2),
        (33, 255),
        threshold_over_priority,
        priority_out_of_range,
        block_listed_twice,
        word_behind_the_store,
        count_of_an_uncreated_semaphore,
    ] {
        assert_unsound(at, value);
    }
}

/// Tapes that are refused, each for another reason.
fn refused_tapes() -> Vec<Vec<u8>> {
    let good = tape();
    let mut tapes = vec![Vec::new(), good[..15].to_vec(), good[..good.len() - 1].to_vec()];
    tapes.push([&good[..], &[0]].concat());
    for (at, word) in [
        (0, RECORDS as u32 + 1),
        (0, 2049),
        (0, u32::MAX),
        (4, 20),
        (8, 3),
        (8, 4001),
        (8, u32::MAX),
        (12, 16),
    ] {
        let mut bytes = good.clone();
        bytes[at..at + 4].copy_from_slice(&word.to_le_bytes());
        tapes.push(bytes);
    }
    tapes
}

#[test]
fn refused_tapes_carry_out_nothing() {
    for unsound in [false, true] {
        let mut lent = Lent::new();
        if unsound {
            lent.block(STATE_BYTES)[0] = 5;
        }
        let before = lent.clone();
        for bytes in refused_tapes() {
            for room in [0, 3 * REPLY_WORDS] {
                let run = lent.run(STATE_BYTES, &bytes, 3, room);
                assert_eq!(run, refused_run(Status::TapeRefused, 0), "{bytes:?}");
            }
            let mut board = Board::from_bytes(lent.block(STATE_BYTES)).unwrap();
            assert_eq!(board.run(&bytes, u32::MAX).status, Status::TapeRefused);
        }
        assert!(lent == before);
    }
}

#[test]
fn short_reply_buffers_carry_out_nothing() {
    for unsound in [false, true] {
        let mut lent = Lent::new();
        if unsound {
            lent.block(STATE_BYTES)[0] = 5;
        }
        let before = lent.clone();
        for (most, room) in
            [(1, 0), (1, 18), (2, 37), (3, 56), (4, 56), (u32::MAX, 0), (u32::MAX, 56)]
        {
            let run = lent.run(STATE_BYTES, &tape(), most, room);
            assert_eq!(run, refused_run(Status::SizeError, 0), "most {most}, room {room}");
        }
        assert!(lent == before);
    }
}

#[test]
fn runs_write_only_the_replies_of_their_records() {
    for most in 0..5 {
        let carried = most.min(RECORDS);
        let mut lent = Lent::new();
        let mut expected = lent.clone();
        let run = lent.run(STATE_BYTES, &tape(), most as u32, REPLY_WORDS * RECORDS);
        assert_eq!(run, refused_run(Status::Success, carried as u32));
        // The clock is set to 7; thread 0 goes on running.
        if carried > 0 {
            expected.block(STATE_BYTES)[CLOCK] = 7;
        }
        expected.replies[GUARD..GUARD + REPLY_WORDS * carried].fill(0);
        assert!(lent == expected, "most {most}");
    }
}

#[test]
fn messages_outside_the_lent_words() {
    let before = Lent::new();
    let mut lent = before.clone();
    for call in [24, 25] {
        for (index, words) in [(0, 0), (0, 1), (1, 2), (u32::MAX, 2), (u32::MAX - 1, 2)] {
            let messages = vec![1; words];
            let arguments = [0, 0, index, 0];
            let reply = library::call(lent.block(STATE_BYTES), call, 0, arguments, &messages);
            assert_eq!(reply, refusal(Status::PtrError, 0), "{index} of {words}");
        }
    }
    assert!(lent == before);
}

#[test]
fn calls_write_only_into_the_block() {
    let mut lent = Lent::new();
    let mut expected = lent.clone();
    assert_eq!(put(lent.block(STATE_BYTES)).status, 0);
    expected.block(STATE_BYTES)[SEMAPHORES + 1] = 6;
    assert!(lent == expected);
    lent.block(STATE_BYTES).fill(0xFF);
    assert_eq!(library::start(lent.block(STATE_BYTES)), 0);
    expected.block(STATE_BYTES).copy_from_slice(Board::new().as_bytes());
    assert!(lent == expected);
}

#[test]
fn an_empty_board_is_zero_but_for_the_runner() {
    let mut expected = [0; STATE_BYTES];
    expected[0] = 32;
    assert_eq!(*Board::new().as_bytes(), expected);
}

#[test]
fn little_stack_is_enough() {
    let work = || {
        let mut lent = Lent::new();
        let run = lent.run(STATE_BYTES, &tape(), 3, 3 * REPLY_WORDS);
        assert_eq!(run, refused_run(Status::Success, 3));
        assert_eq!(library::is_sound(lent.block(STATE_BYTES)), 0);
        for call in 0..41 {
            for caller in 0..3 {
                library::call(lent.block(STATE_BYTES), call, caller, [0, 1, 0, 0], &[1; 16]);
            }
        }
    };
    let thread = std::thread::Builder::new().stack_size(256 * 1024).spawn(work).unwrap();
    thread.join().unwrap();
}

/// Offsets and lengths of the documentation's table are those of the block.
#[test]
fn the_documented_layout_adds_up() {
    let document = include_str!("../../../docs/LIBRARY.md");
    let table = document.split("| offset | bytes | what |").nth(1).unwrap();
    let mut end = 0;
    for line in table.lines().skip(2).take_while(|line| line.starts_with('|')) {
        let cells: Vec<&str> = line.split('|').map(str::trim).collect();
        let factors = cells[2].split(" × ").map(|factor| factor.parse::<usize>().unwrap());
        assert_eq!(cells[1].parse(), Ok(end), "{line}");
        end += factors.product::<usize>();
    }
    assert_eq!(end, STATE_BYTES);
}
