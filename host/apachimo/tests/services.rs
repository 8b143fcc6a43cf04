//! Each method of a board makes the call of its name.

use apachimo::{Board, Call, Caller, GetOption, Group, Pool, Queue, Semaphore, SetOption, Start};
use apachimo::{Reply, Status, Thread, Wait};

const ALL: Caller = Caller::Thread;
const SEMAPHORE: Semaphore = Semaphore(1);
const QUEUE: Queue = Queue(1);
const GROUP: Group = Group(1);
const POOL: Pool = Pool(1);

/// A board on which every service changes something that no other one does:
/// thread 0 runs, 1 to 3 are ready, 4 is suspended, 5 finished, 6 and 7 wait for a
/// semaphore, 8 and 9 to receive, 10 for flags, 11 and 12 for a block.
fn board() -> Board {
    let mut board = Board::new();
    let start = Caller::StartUp;
    board.semaphore_create(start, SEMAPHORE, 0);
    board.semaphore_create(start, Semaphore(2), 3);
    board.queue_create(start, QUEUE, 2, 4);
    board.queue_create(start, Queue(2), 1, 3);
    board.event_flags_create(start, GROUP);
    board.block_pool_create(start, POOL, 8, 24);
    board.block_pool_create(start, Pool(2), 8, 24);
    for _ in 0..2 {
        board.block_allocate(start, POOL, Wait::NONE);
        board.queue_send(start, Queue(2), &[7], Wait::NONE);
    }
    board.block_allocate(start, Pool(2), Wait::NONE);
    let waits = [
        (6, 20, Call::SemaphoreGet { semaphore: SEMAPHORE, wait: Wait::FOREVER }),
        (7, 5, Call::SemaphoreGet { semaphore: SEMAPHORE, wait: Wait::ticks(2) }),
        (8, 20, Call::QueueReceive { queue: QUEUE, wait: Wait::FOREVER }),
        (9, 5, Call::QueueReceive { queue: QUEUE, wait: Wait::FOREVER }),
        (
            10,
            5,
            Call::EventFlagsGet {
                group: GROUP,
                flags: 1,
                option: GetOption::Or,
                wait: Wait::FOREVER,
            },
        ),
        (11, 20, Call::BlockAllocate { pool: POOL, wait: Wait::FOREVER }),
        (12, 5, Call::BlockAllocate { pool: POOL, wait: Wait::FOREVER }),
    ];
    for (thread, priority, call) in waits {
        board.thread_create(start, Thread(thread), priority, priority, Start::Auto);
        assert_eq!(board.call(ALL, call).status, Status::Waiting);
    }
    board.thread_create(start, Thread(5), 1, 1, Start::Auto);
    assert_eq!(board.finish(ALL).status, Status::Success);
    for thread in 0..4 {
        board.thread_create(start, Thread(thread), 10, 10, Start::Auto);
    }
    board.thread_create(start, Thread(4), 10, 10, Start::Dont);
    assert_eq!(board.time_set(start, 1000).next, Some(Thread(0)));
    board
}

type Method = fn(&mut Board) -> apachimo::Reply;

/// Each method with the call that it is to make.
fn methods() -> Vec<(Method, Caller, Call<'static>)> {
    let create =
        Call::ThreadCreate { thread: Thread(20), priority: 9, threshold: 8, start: Start::Auto };
    let get = Call::EventFlagsGet {
        group: GROUP,
        flags: 6,
        option: GetOption::And,
        wait: Wait::ticks(4),
    };
    let pool = Call::BlockPoolCreate { pool: Pool(3), block_bytes: 4, total_bytes: 64 };
    let queue = Call::QueueCreate { queue: Queue(3), message_words: 3, storage_words: 9 };
    vec![
        (|b| b.thread_create(ALL, Thread(20), 9, 8, Start::Auto), ALL, create),
        (|b| b.thread_delete(ALL, Thread(5)), ALL, Call::ThreadDelete { thread: Thread(5) }),
        (|b| b.thread_resume(ALL, Thread(4)), ALL, Call::ThreadResume { thread: Thread(4) }),
        (|b| b.thread_suspend(ALL, Thread(1)), ALL, Call::ThreadSuspend { thread: Thread(1) }),
        (|b| b.thread_terminate(ALL, Thread(1)), ALL, Call::ThreadTerminate { thread: Thread(1) }),
        (|b| b.thread_reset(ALL, Thread(5)), ALL, Call::ThreadReset { thread: Thread(5) }),
        (|b| b.finish(ALL), ALL, Call::Finish),
        (|b| b.thread_relinquish(ALL), ALL, Call::ThreadRelinquish),
        (|b| b.thread_sleep(ALL, 3), ALL, Call::ThreadSleep { ticks: 3 }),
        (|b| b.thread_wait_abort(ALL, Thread(6)), ALL, Call::ThreadWaitAbort { thread: Thread(6) }),
        (
            |b| b.thread_priority_change(ALL, Thread(6), 3),
            ALL,
            Call::ThreadPriorityChange { thread: Thread(6), priority: 3 },
        ),
        (
            |b| b.thread_preemption_change(ALL, Thread(6), 3),
            ALL,
            Call::ThreadPreemptionChange { thread: Thread(6), threshold: 3 },
        ),
        (|b| b.time_get(ALL), ALL, Call::TimeGet),
        (|b| b.time_set(ALL, 9), ALL, Call::TimeSet { time: 9 }),
        (|b| b.tick(Caller::Interrupt), Caller::Interrupt, Call::Tick),
        (
            |b| b.semaphore_create(ALL, Semaphore(3), 4),
            ALL,
            Call::SemaphoreCreate { semaphore: Semaphore(3), count: 4 },
        ),
        (
            |b| b.semaphore_delete(ALL, SEMAPHORE),
            ALL,
            Call::SemaphoreDelete { semaphore: SEMAPHORE },
        ),
        (
            |b| b.semaphore_get(ALL, Semaphore(2), Wait::NONE),
            ALL,
            Call::SemaphoreGet { semaphore: Semaphore(2), wait: Wait::NONE },
        ),
        (|b| b.semaphore_put(ALL, SEMAPHORE), ALL, Call::SemaphorePut { semaphore: SEMAPHORE }),
        (
            |b| b.semaphore_ceiling_put(ALL, Semaphore(2), 4),
            ALL,
            Call::SemaphoreCeilingPut { semaphore: Semaphore(2), ceiling: 4 },
        ),
        (
            |b| b.semaphore_prioritize(ALL, SEMAPHORE),
            ALL,
            Call::SemaphorePrioritize { semaphore: SEMAPHORE },
        ),
        (|b| b.queue_create(ALL, Queue(3), 3, 9), ALL, queue),
        (|b| b.queue_delete(ALL, QUEUE), ALL, Call::QueueDelete { queue: QUEUE }),
        (
            |b| b.queue_send(ALL, Queue(2), &[5], Wait::NONE),
            ALL,
            Call::QueueSend { queue: Queue(2), message: &[5], wait: Wait::NONE },
        ),
        (
            |b| b.queue_front_send(ALL, Queue(2), &[5], Wait::NONE),
            ALL,
            Call::QueueFrontSend { queue: Queue(2), message: &[5], wait: Wait::NONE },
        ),
        (
            |b| b.queue_receive(ALL, Queue(2), Wait::NONE),
            ALL,
            Call::QueueReceive { queue: Queue(2), wait: Wait::NONE },
        ),
        (|b| b.queue_flush(ALL, Queue(2)), ALL, Call::QueueFlush { queue: Queue(2) }),
        (|b| b.queue_prioritize(ALL, QUEUE), ALL, Call::QueuePrioritize { queue: QUEUE }),
        (|b| b.event_flags_create(ALL, Group(3)), ALL, Call::EventFlagsCreate { group: Group(3) }),
        (|b| b.event_flags_delete(ALL, GROUP), ALL, Call::EventFlagsDelete { group: GROUP }),
        (
            |b| b.event_flags_set(ALL, GROUP, 5, SetOption::Or),
            ALL,
            Call::EventFlagsSet { group: GROUP, flags: 5, option: SetOption::Or },
        ),
        (|b| b.event_flags_get(ALL, GROUP, 6, GetOption::And, Wait::ticks(4)), ALL, get),
        (|b| b.block_pool_create(ALL, Pool(3), 4, 64), ALL, pool),
        (|b| b.block_pool_delete(ALL, POOL), ALL, Call::BlockPoolDelete { pool: POOL }),
        (
            |b| b.block_allocate(ALL, Pool(2), Wait::NONE),
            ALL,
            Call::BlockAllocate { pool: Pool(2), wait: Wait::NONE },
        ),
        (|b| b.block_release(ALL, Pool(2), 0), ALL, Call::BlockRelease { pool: Pool(2), block: 0 }),
        (|b| b.block_pool_prioritize(ALL, POOL), ALL, Call::BlockPoolPrioritize { pool: POOL }),
        (|b| b.read_state(ALL, Thread(8)), ALL, Call::ReadState { thread: Thread(8) }),
        (|b| b.read_words(ALL, Thread(5)), ALL, Call::ReadWords { thread: Thread(5) }),
    ]
}

#[test]
fn methods_make_the_calls_of_their_names() {
    let before = board();
    let mut numbers = Vec::new();
    for (method, caller, call) in methods() {
        let (mut by_method, mut by_call) = (before.clone(), before.clone());
        let reply = method(&mut by_method);
        assert_eq!(reply, by_call.call(caller, call), "{call:?}");
        assert_eq!(by_method, by_call, "{call:?}");
        assert!(reply.status.is_carried_out(), "{call:?}: {}", reply.status);
        // A read or a clock get changes nothing.
        assert_eq!(before == by_call, matches!(call.number(), 13 | 38 | 39), "{call:?}");
        numbers.push(call.number());
    }
    assert_eq!(numbers, (1..40).collect::<Vec<u32>>());
}

#[test]
fn a_put_at_the_largest_count_changes_nothing() {
    let full = Semaphore(3);
    let mut board = board();
    board.semaphore_create(Caller::StartUp, full, u32::MAX - 1);
    assert_eq!(board.semaphore_put(Caller::Interrupt, full).status, Status::Success);
    let before = board.clone();
    let refused =
        Reply { status: Status::CeilingExceeded, words: [0; 16], next: Some(Thread(0)), ended: 0 };
    for caller in [Caller::StartUp, Caller::Interrupt, Caller::Thread] {
        assert_eq!(board.semaphore_put(caller, full), refused);
        assert_eq!(board.semaphore_ceiling_put(caller, full, u32::MAX), refused);
        assert_eq!(board, before);
    }
    // A waiter of another semaphore is served as ever, and one get makes room again.
    assert_eq!(board.semaphore_put(Caller::Interrupt, SEMAPHORE).ended, 1);
    assert_eq!(board.semaphore_prioritize(Caller::Interrupt, full).status, Status::Success);
    assert_eq!(board.semaphore_get(Caller::Interrupt, full, Wait::NONE).status, Status::Success);
    assert_eq!(board.semaphore_put(Caller::Thread, full).status, Status::Success);
    assert!(board.tables().to_string().contains("sem 3 count=4294967295: \n"));
}

/// Priority, threshold and mark of a thread.
fn levels(board: &Board, thread: Thread) -> (u8, u8, bool) {
    let tables = board.tables();
    let record = tables.threads[thread.0 as usize].as_ref().unwrap();
    (record.priority, record.threshold, record.marked)
}

#[test]
fn a_lowered_runner_gives_way_at_once() {
    let (first, second) = (Thread(0), Thread(1));
    let mut board = Board::new();
    board.thread_create(Caller::StartUp, first, 5, 5, Start::Auto);
    board.thread_create(Caller::StartUp, second, 7, 7, Start::Auto);
    let before = board.clone();
    for (caller, thread, priority, status) in [
        (Caller::Thread, Thread(2), 32, Status::ThreadError),
        (Caller::Thread, Thread(u32::MAX), 10, Status::ThreadError),
        (Caller::Interrupt, first, 32, Status::PriorityError),
        (Caller::Thread, first, u32::MAX, Status::PriorityError),
        (Caller::Thread, first, 256 + 10, Status::PriorityError),
        (Caller::Interrupt, first, 10, Status::CallerError),
        (Caller::StartUp, first, 10, Status::CallerError),
    ] {
        let refused = Reply { status, words: [0; 16], next: Some(first), ended: 0 };
        assert_eq!(board.thread_priority_change(caller, thread, priority), refused);
        assert_eq!(board, before);
    }
    let reply = board.thread_priority_change(Caller::Thread, first, 10);
    assert_eq!((reply.status, reply.words[0]), (Status::Success, 5));
    assert_eq!((reply.next, reply.ended), (Some(second), 0));
    assert_eq!(levels(&board, first), (10, 10, false));
}

#[test]
fn a_priority_change_gives_up_the_threshold() {
    let (first, second) = (Thread(0), Thread(1));
    for (priority, next) in [(8, second), (10, second), (5, first), (3, first)] {
        let mut board = Board::new();
        board.thread_create(Caller::StartUp, first, 10, 3, Start::Auto);
        board.thread_create(Caller::StartUp, second, 5, 5, Start::Auto);
        assert_eq!(board.time_get(Caller::StartUp).next, Some(first));
        let reply = board.thread_priority_change(Caller::Thread, first, priority);
        assert_eq!(reply.next, Some(next), "to {priority}");
        assert_eq!(levels(&board, first), (priority as u8, priority as u8, false));
    }
}

#[test]
fn boards_are_values() {
    let first = board();
    let mut second = first.clone();
    second.tick(Caller::Interrupt);
    assert!(first != second && first == board());
    let moved = std::thread::spawn(move || second.time_get(Caller::StartUp).words[0]);
    assert_eq!(moved.join().unwrap(), 1001);
}
