//! The roll as a run-time check: it holds on right runs and notices wrong ones.

mod common;
use common::*;
use ordinary::{Outcome, Record, Roll, Rolls, Status, ThreadNo};

/// Threads 0, 1, 2 (timed: 5, forever, 2) wait on semaphore 0; 3 runs.
fn waiting() -> Board {
    let mut board = Board::new();
    board.ok(STARTUP, 16, &[0, 0]);
    for wait in [5, FOREVER, 2] {
        let thread = board.tables.threads.iter().position(|thread| !thread.created).unwrap();
        board.thread(thread as u32, 10);
        board.wait(18, &[0, wait]);
    }
    board.thread(3, 10);
    board
}

/// Makes a call and feeds it to the roll.
fn feed(board: &mut Board, roll: &mut Roll, caller: u32, call: u32, args: [u32; 4]) -> bool {
    let outcome = board.call(caller, call, &args);
    let record = Record { call, caller, args };
    roll.follow(&record, &area(), &outcome, &board.tables).unwrap()
}

#[test]
fn a_roll_ends_when_its_thread_is_served() {
    let mut board = waiting();
    let mut roll = Roll::start(&board.tables, ThreadNo(1)).unwrap();
    assert!(feed(&mut board, &mut roll, INTERRUPT, 19, [0; 4]));
    assert!(feed(&mut board, &mut roll, INTERRUPT, 15, [0; 4]));
    assert!(feed(&mut board, &mut roll, THREAD, 18, [0, 0, 0, 0])); // refused
    assert!(feed(&mut board, &mut roll, INTERRUPT, 19, [1, 0, 0, 0])); // no such one
    assert!(!feed(&mut board, &mut roll, INTERRUPT, 20, [0, 1, 0, 0]));
}

#[test]
fn a_roll_ends_by_timeout_abort_terminate_or_prioritise() {
    for (caller, call, args) in [
        (INTERRUPT, 10, [2, 0, 0, 0]),
        (THREAD, 5, [2, 0, 0, 0]),
        (INTERRUPT, 21, [0; 4]),
        (THREAD, 17, [0; 4]),
    ] {
        let mut board = waiting();
        let mut roll = Roll::start(&board.tables, ThreadNo(2)).unwrap();
        assert!(feed(&mut board, &mut roll, INTERRUPT, 10, [0; 4]));
        assert!(!feed(&mut board, &mut roll, caller, call, args));
    }
    let mut board = waiting();
    let mut roll = Roll::start(&board.tables, ThreadNo(2)).unwrap();
    assert!(feed(&mut board, &mut roll, INTERRUPT, 15, [0; 4]));
    assert!(!feed(&mut board, &mut roll, INTERRUPT, 15, [0; 4]));
}

/// Threads 0, 1, 2 (timed: 5, forever, 2) wait on pool 0 of one block, which
/// is in use; 3 runs. Pool 1 has a used block too.
fn waiting_for_blocks() -> Board {
    let mut board = Board::new();
    for pool in 0..2 {
        board.ok(STARTUP, 33, &[pool, 4, 8]);
        board.ok(STARTUP, 35, &[pool, 0]);
    }
    for (thread, wait) in [5, FOREVER, 2].into_iter().enumerate() {
        board.thread(thread as u32, 10);
        board.wait(35, &[0, wait]);
    }
    board.thread(3, 10);
    board
}

#[test]
fn the_roll_of_a_pool_counts_its_releases() {
    let mut board = waiting_for_blocks();
    let mut roll = Roll::start(&board.tables, ThreadNo(2)).unwrap();
    assert!(feed(&mut board, &mut roll, INTERRUPT, 36, [0; 4]));
    assert!(feed(&mut board, &mut roll, INTERRUPT, 36, [1, 0, 0, 0])); // another pool
    assert!(feed(&mut board, &mut roll, INTERRUPT, 36, [0, 1, 0, 0])); // no such block
    assert!(feed(&mut board, &mut roll, INTERRUPT, 37, [1, 0, 0, 0]));
    assert!(feed(&mut board, &mut roll, THREAD, 34, [1, 0, 0, 0]));
    assert!(feed(&mut board, &mut roll, INTERRUPT, 15, [0; 4]));
    assert!(feed(&mut board, &mut roll, INTERRUPT, 36, [0; 4]));
    assert!(!feed(&mut board, &mut roll, INTERRUPT, 36, [0; 4]));
    for (caller, call) in [(INTERRUPT, 37), (THREAD, 34)] {
        let mut board = waiting_for_blocks();
        let mut roll = Roll::start(&board.tables, ThreadNo(2)).unwrap();
        assert!(!feed(&mut board, &mut roll, caller, call, [0; 4]));
    }
}

#[test]
fn wrong_runs_of_a_pool_are_noticed() {
    let board = waiting_for_blocks();
    let follow = |record: Record, status: u32, board: &Board| {
        let mut roll = Roll::start(&waiting_for_blocks().tables, ThreadNo(0)).unwrap();
        let (status, next) = (Status(status), board.tables.runner());
        let outcome = Outcome { status, words: [0; 16], next, ended: 0 };
        roll.follow(&record, &area(), &outcome, &board.tables).map_err(|error| error.what)
    };
    let late = follow(Record { call: 35, caller: INTERRUPT, args: [0; 4] }, 0, &board);
    assert_eq!(late, Err("a later call was served while the thread waited"));
    let release = Record { call: 36, caller: INTERRUPT, args: [0; 4] };
    let unserved = follow(release, 0, &board);
    assert_eq!(unserved, Err("a thread that was struck out still stands in line"));
    let mut served = board.clone();
    served.ok(INTERRUPT, 36, &[0, 0]);
    assert_eq!(follow(release, 0, &served), Ok(false));
    served.tables.threads[0].held_words[0] = 1;
    let wrong_block = follow(release, 0, &served);
    assert_eq!(wrong_block, Err("the served thread does not hold what the giving call gave"));
}

#[test]
fn no_roll_for_senders_flags_waiters_and_others() {
    let mut board = Board::new();
    board.ok(STARTUP, 22, &[0, 1, 1]);
    board.ok(STARTUP, 24, &[0, 0, 0]);
    board.ok(STARTUP, 29, &[0]);
    for thread in 0..4 {
        board.thread(thread, 10);
    }
    board.wait(24, &[0, FOREVER, 0]);
    board.wait(32, &[0, 1, 0, FOREVER]);
    board.wait(9, &[5]);
    for thread in 0..5 {
        assert!(Roll::start(&board.tables, ThreadNo(thread)).is_none());
    }
}

/// What the roll says of an answer that the kernel did not give.
fn objection(call: u32, args: [u32; 4], status: u32, change: fn(&mut Board)) -> &'static str {
    let mut board = waiting();
    let mut roll = Roll::start(&board.tables, ThreadNo(1)).unwrap();
    change(&mut board);
    let outcome =
        Outcome { status: Status(status), words: [0; 16], next: board.tables.runner(), ended: 0 };
    let record = Record { call, caller: INTERRUPT, args };
    roll.follow(&record, &area(), &outcome, &board.tables).unwrap_err().what
}

#[test]
fn wrong_runs_are_noticed() {
    let late = objection(18, [0; 4], 0, |_| {});
    assert_eq!(late, "a later call was served while the thread waited");
    let unserved = objection(19, [0; 4], 0, |_| {});
    assert_eq!(unserved, "the line does not begin with the roll");
    let wrong_one = objection(19, [0; 4], 0, |board| {
        board.ok(INTERRUPT, 10, &[1]);
    });
    assert_eq!(wrong_one, "the line does not begin with the roll");
    let gone = objection(13, [0; 4], 0, |board| {
        board.ok(INTERRUPT, 10, &[0]);
    });
    assert_eq!(gone, "the line does not begin with the roll");
    let reordered = objection(13, [0; 4], 0, |board| {
        board.ok(THREAD, 11, &[1, 5]);
        board.ok(INTERRUPT, 21, &[0]);
    });
    assert_eq!(reordered, "the line does not begin with the roll");
}

#[test]
fn wrong_held_words_are_noticed() {
    let mut board = Board::new();
    board.ok(STARTUP, 22, &[0, 2, 2]);
    board.thread(0, 10);
    board.wait(26, &[0, FOREVER]);
    let mut rolls = Rolls::new(&board.tables);
    let record = Record { call: 24, caller: INTERRUPT, args: [0, 0, 7, 0] };
    let outcome = board.ok(INTERRUPT, 24, &record.args);
    assert_eq!(rolls.clone().follow(&record, &area(), &outcome, &board.tables), Ok(()));
    board.tables.threads[0].held_words[1] += 1;
    let error = rolls.follow(&record, &area(), &outcome, &board.tables).unwrap_err();
    assert_eq!(error.what, "the served thread does not hold what the giving call gave");
}
