//! The soundness test on damaged tables.

mod common;
use common::*;
use ordinary::{Line, Link, State, Status, Tables, Unsound};

/// Tables in which every kind of thing stands:
/// thread 0 runs (10), 1 ready (10), 2 marked (priority 12, threshold 11), 3 suspended,
/// 4 completed, 5 asleep for 9, 6 and 7 on semaphore 0 (7 timed, suspension
/// held), 8 receiver on queue 0, 9 sender and 10 front sender on queue 1,
/// 11 and 12 on group 0, 13 on pool 0.
fn furnished() -> Tables {
    let mut board = Board::new();
    board.ok(STARTUP, 16, &[0, 0]);
    board.ok(STARTUP, 16, &[1, 5]);
    board.ok(STARTUP, 22, &[0, 2, 5]);
    board.ok(STARTUP, 22, &[1, 3, 6]);
    board.ok(STARTUP, 22, &[2, 2, 7]);
    for message in 0..2 {
        board.ok(STARTUP, 24, &[1, 0, message]);
        board.ok(STARTUP, 24, &[2, 0, message]);
    }
    board.ok(STARTUP, 26, &[2, 0]);
    board.ok(STARTUP, 29, &[0]);
    board.ok(STARTUP, 31, &[0, 0x10, 0]);
    board.ok(STARTUP, 33, &[0, 4, 8]);
    board.ok(STARTUP, 35, &[0, 0]);
    board.ok(STARTUP, 33, &[1, 16, 100]);
    board.ok(STARTUP, 35, &[1, 0]);
    board.ok(STARTUP, 35, &[1, 0]);
    board.ok(STARTUP, 36, &[1, 0]);
    let mut waiter = |thread: u32, call: u32, args: &[u32]| {
        board.thread(thread, 1);
        board.wait(call, args);
    };
    waiter(5, 9, &[9]);
    waiter(6, 18, &[0, FOREVER]);
    waiter(7, 18, &[0, 4]);
    waiter(8, 26, &[0, 3]);
    waiter(9, 24, &[1, FOREVER, 0]);
    waiter(10, 25, &[1, FOREVER, 1]);
    waiter(11, 32, &[0, 0x0F, 0, FOREVER]);
    waiter(12, 32, &[0, 0x30, 3, 2]);
    waiter(13, 35, &[0, FOREVER]);
    board.ok(STARTUP, 4, &[7]);
    board.thread(4, 1);
    board.ok(THREAD, 7, &[]);
    board.ok(STARTUP, 1, &[2, 12, 11, 1]);
    board.thread(0, 10);
    board.thread(1, 10);
    board.ok(STARTUP, 1, &[3, 9, 9, 0]);
    assert!(board.marked(2));
    board.tables
}

type Damage = (&'static str, fn(&mut Tables), Unsound);
type Change = (&'static str, fn(&mut Tables));

#[test]
fn furnished_and_empty_tables_are_sound() {
    assert_eq!(Tables::new().soundness(), Ok(()));
    assert_eq!(furnished().soundness(), Ok(()));
}

fn check(damages: &[Damage]) {
    for (what, damage, clause) in damages {
        let mut tables = furnished();
        damage(&mut tables);
        assert_eq!(tables.soundness(), Err(*clause), "{what}");
        let outcome = tables.call_numbered(13, 0, [0; 4], &[]);
        assert_eq!((outcome.status, outcome.next), (Status::UNSOUND, None), "{what}");
    }
}

#[test]
fn damaged_orders() {
    check(&[
        ("ready thread in no order", |t| t.ready[12] = Line::EMPTY, Unsound::Order),
        (
            "ready thread in no order, set too",
            |t| {
                t.ready[12] = Line::EMPTY;
                t.ready_set &= !(1 << 12);
            },
            Unsound::Order,
        ),
        (
            "order of another priority",
            |t| {
                t.ready[13] = std::mem::take(&mut t.ready[12]);
                t.ready_set = t.ready_set & !(1 << 12) | 1 << 13;
            },
            Unsound::Order,
        ),
        ("ring instead of line", |t| t.threads[1].next = Link::to(0), Unsound::Order),
        ("broken back link", |t| t.threads[1].prev = Link::NONE, Unsound::Order),
        ("wrong last", |t| t.ready[10].last = Link::to(0), Unsound::Order),
        ("link out of range", |t| t.threads[1].next = Link(33), Unsound::Order),
        ("link far out of range", |t| t.ready[10].first = Link(255), Unsound::Order),
        ("set bit of an empty order", |t| t.ready_set |= 1, Unsound::Order),
        ("waiter in no line", |t| t.semaphores[0].line = Line::EMPTY, Unsound::Order),
        (
            "waiter in another semaphore's line",
            |t| {
                t.semaphores[1].count = 0;
                t.semaphores[1].line = std::mem::take(&mut t.semaphores[0].line);
            },
            Unsound::Order,
        ),
        (
            "semaphore waiter in a group's line",
            |t| t.groups[0].line = t.semaphores[0].line,
            Unsound::Order,
        ),
        (
            "suspended thread in an order",
            |t| t.ready[9] = Line { first: Link::to(3), last: Link::to(3) },
            Unsound::Order,
        ),
        (
            "suspended thread in an order, set too",
            |t| {
                t.ready[9] = Line { first: Link::to(3), last: Link::to(3) };
                t.ready_set |= 1 << 9;
            },
            Unsound::Order,
        ),
        ("sleeper that is said to wait", |t| t.threads[5].state = State::Block, Unsound::Order),
        ("waiter on another object", |t| t.threads[6].object = 1, Unsound::Order),
        ("uncreated thread in an order", |t| t.ready[10].first = Link::to(20), Unsound::Order),
    ]);
}

#[test]
fn damaged_waiters() {
    check(&[
        ("waiters beside a count", |t| t.semaphores[0].count = 1, Unsound::Waiters),
        (
            "receiver beside a message",
            |t| {
                t.queues[0].stored = 1;
            },
            Unsound::Waiters,
        ),
        ("senders beside room", |t| t.queues[1].stored = 1, Unsound::Waiters),
        (
            "senders and receivers in one line",
            |t| {
                t.threads[9].sender = false;
                t.threads[9].message = [0; 16];
            },
            Unsound::Waiters,
        ),
        ("met flags, OR", |t| t.groups[0].flags = 0x01, Unsound::Waiters),
        ("met flags, AND", |t| t.groups[0].flags = 0x30, Unsound::Waiters),
        (
            "allocator beside a free block",
            |t| {
                t.pools[0].free_count = 1;
                t.pools[0].free_set = 1;
            },
            Unsound::Waiters,
        ),
    ]);
}

#[test]
fn damaged_marks_limits_and_runner() {
    check(&[
        ("marked runner", |t| t.marked |= 1, Unsound::Mark),
        (
            "marked runner with a threshold",
            |t| {
                t.marked |= 1;
                t.threads[0].threshold = 9;
            },
            Unsound::Mark,
        ),
        ("mark without a threshold", |t| t.marked |= 2, Unsound::Mark),
        ("mark on a suspended thread", |t| t.marked |= 8, Unsound::Mark),
        ("mark on an uncreated thread", |t| t.marked |= 1 << 31, Unsound::NotInUse),
        ("threshold over the priority", |t| t.threads[3].threshold = 10, Unsound::Limit),
        (
            "priority over 31",
            |t| {
                t.threads[3].priority = 32;
            },
            Unsound::Limit,
        ),
        ("option over 3", |t| t.threads[11].option = 4, Unsound::Limit),
        ("no runner beside ready threads", |t| t.running = Link::NONE, Unsound::Runner),
        ("suspended runner", |t| t.running = Link::to(3), Unsound::Runner),
        ("uncreated runner", |t| t.running = Link::to(31), Unsound::Runner),
        ("runner out of range", |t| t.running = Link(33), Unsound::Runner),
        (
            "somebody better than the runner's threshold",
            |t| {
                t.running = Link::to(2);
                t.marked = 0;
            },
            Unsound::Runner,
        ),
    ]);
}

#[test]
fn damaged_waits() {
    check(&[
        ("timed wait without a tick", |t| t.threads[7].wait = 0, Unsound::Ticks),
        (
            "timed sleep without a tick",
            |t| {
                t.threads[5].wait = 0;
                t.timed &= !(1 << 5);
            },
            Unsound::Ticks,
        ),
        ("endless wait that counts", |t| t.timed |= 1 << 6, Unsound::Ticks),
        ("timed wait that does not count", |t| t.timed &= !(1 << 7), Unsound::Ticks),
        ("ticks of a ready thread", |t| t.threads[1].wait = 1, Unsound::NotInUse),
        ("timed ready thread", |t| t.timed |= 2, Unsound::NotInUse),
        ("timed uncreated thread", |t| t.timed |= 1 << 30, Unsound::NotInUse),
        ("waiter without 0x101", |t| t.threads[6].held_status = Status(0), Unsound::Held),
        ("sleeper without 0x101", |t| t.threads[5].held_status = Status(0x1A), Unsound::Held),
        ("ready with 0x101", |t| t.threads[1].held_status = Status(0x101), Unsound::Held),
        ("completed with 0x101", |t| t.threads[4].held_status = Status(0x101), Unsound::Held),
        ("ready with a held suspension", |t| t.threads[1].held_suspension = true, Unsound::Held),
        (
            "suspended with a held suspension",
            |t| t.threads[3].held_suspension = true,
            Unsound::Held,
        ),
    ]);
}

#[test]
fn damaged_queues_and_pools() {
    check(&[
        ("message size 0", |t| t.queues[2].size = 0, Unsound::Limit),
        ("message size 17", |t| t.queues[2].size = 17, Unsound::Limit),
        ("storage 0", |t| t.queues[2].storage = 0, Unsound::Limit),
        ("storage 65", |t| t.queues[2].storage = 65, Unsound::Limit),
        ("storage under the message size", |t| t.queues[2].storage = 1, Unsound::Limit),
        ("wrong capacity", |t| t.queues[2].capacity = 2, Unsound::Limit),
        ("more messages than fit", |t| t.queues[2].stored = 4, Unsound::Limit),
        ("first outside the ring", |t| t.queues[2].first = 3, Unsound::Limit),
        ("word in a free slot", |t| t.queues[2].words[0] = 1, Unsound::NotInUse),
        ("word past the capacity", |t| t.queues[2].words[6] = 1, Unsound::NotInUse),
        ("word past the storage", |t| t.queues[1].words[63] = 1, Unsound::NotInUse),
        ("first of an empty queue", |t| t.queues[0].first = 1, Unsound::NotInUse),
        ("block size 0", |t| t.pools[1].block_bytes = 0, Unsound::Limit),
        ("block size 18", |t| t.pools[1].block_bytes = 18, Unsound::Limit),
        ("total too small", |t| t.pools[1].total_bytes = 99, Unsound::Limit),
        ("wrong number of blocks", |t| t.pools[1].blocks = 6, Unsound::Limit),
        ("more free than blocks", |t| t.pools[1].free_count = 6, Unsound::Limit),
        ("block listed twice", |t| t.pools[1].free[1] = t.pools[1].free[0], Unsound::FreeBlocks),
        ("used block listed", |t| t.pools[1].free[0] = 1, Unsound::FreeBlocks),
        ("listed block out of range", |t| t.pools[1].free[0] = 5, Unsound::FreeBlocks),
        ("free block not listed", |t| t.pools[1].free_set |= 2, Unsound::FreeBlocks),
        ("slot past the free blocks", |t| t.pools[1].free[4] = 1, Unsound::NotInUse),
    ]);
}

#[test]
fn damaged_fields_not_in_use() {
    check(&[
        ("uncreated thread with a priority", |t| t.threads[31].priority = 1, Unsound::NotInUse),
        ("uncreated thread with a word", |t| t.threads[31].message[15] = 1, Unsound::NotInUse),
        ("uncreated semaphore with a count", |t| t.semaphores[15].count = 1, Unsound::NotInUse),
        ("uncreated queue with a word", |t| t.queues[7].words[63] = 1, Unsound::NotInUse),
        ("uncreated group with flags", |t| t.groups[7].flags = 1, Unsound::NotInUse),
        ("uncreated pool with a size", |t| t.pools[3].total_bytes = 1, Unsound::NotInUse),
        ("object of a sleeper", |t| t.threads[5].object = 1, Unsound::NotInUse),
        ("object of a ready thread", |t| t.threads[0].object = 1, Unsound::NotInUse),
        ("link of a suspended thread", |t| t.threads[3].next = Link::to(1), Unsound::NotInUse),
        ("sender that waits on flags", |t| t.threads[11].sender = true, Unsound::NotInUse),
        ("front receiver", |t| t.threads[8].front = true, Unsound::NotInUse),
        ("front mark of a ready thread", |t| t.threads[0].front = true, Unsound::NotInUse),
        ("message of a receiver", |t| t.threads[8].message[0] = 1, Unsound::NotInUse),
        ("message of a semaphore waiter", |t| t.threads[6].message[0] = 1, Unsound::NotInUse),
        ("message word past the size", |t| t.threads[9].message[3] = 1, Unsound::NotInUse),
        ("request of a semaphore waiter", |t| t.threads[6].request = 1, Unsound::NotInUse),
        ("option of a ready thread", |t| t.threads[0].option = 1, Unsound::NotInUse),
        ("held word of a waiter", |t| t.threads[13].held_words[15] = 1, Unsound::NotInUse),
        ("held word of a sleeper", |t| t.threads[5].held_words[0] = 1, Unsound::NotInUse),
    ]);
}

#[test]
fn changes_that_stay_sound() {
    let changes: [Change; 13] = [
        ("any clock", |t| t.clock = 0xFFFF_FFFF),
        ("any other held status", |t| t.threads[0].held_status = Status(0xFFFF_FFFF)),
        ("held status of a completed thread", |t| t.threads[4].held_status = Status(0x1A)),
        ("any held words of a ready thread", |t| t.threads[1].held_words = [7; 16]),
        ("any held words of a completed thread", |t| t.threads[4].held_words = [7; 16]),
        ("the longest timed wait", |t| t.threads[7].wait = 0xFFFF_FFFE),
        ("a wait of one tick", |t| t.threads[7].wait = 1),
        ("a runner not first in its order", |t| t.running = Link::to(1)),
        ("a held suspension of a sleeper", |t| t.threads[5].held_suspension = true),
        ("flags that meet nobody", |t| t.groups[0].flags = 0xFFFF_FFD0),
        ("message words within the size", |t| t.threads[9].message[2] = 0xFFFF_FFFF),
        ("words of a stored message", |t| t.queues[2].words[2] = 0xFFFF_FFFF),
        ("a request of 0", |t| t.threads[12].request = 0),
    ];
    for (what, change) in changes {
        let mut tables = furnished();
        change(&mut tables);
        assert_eq!(tables.soundness(), Ok(()), "{what}");
        let outcome = tables.call_numbered(13, 0, [0; 4], &[]);
        assert_eq!(outcome.status, Status::SUCCESS, "{what}");
    }
}
