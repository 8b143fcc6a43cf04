//! The accounts as a run-time check: they hold on right runs and notice wrong
//! ones.

mod common;
use common::*;
use ordinary::{Accounts, Record, Status};

/// Makes a call and books it; `change` may spoil the tables in between.
fn book(
    board: &mut Board,
    accounts: &mut Accounts,
    (caller, call, args): (u32, u32, [u32; 4]),
    change: fn(&mut Board),
) -> Result<(), &'static str> {
    let before = board.tables.clone();
    let outcome = board.call(caller, call, &args);
    change(board);
    accounts.follow(&Record { call, caller, args }, &outcome, &before, &board.tables)
}

/// Two pools and two semaphores: a put that is refused at the largest count,
/// waits that are served or time out, refused releases, and a pool that is
/// created again.
const CALLS: [(u32, u32, [u32; 4]); 26] = [
    (STARTUP, 1, [0, 10, 10, 1]),
    (STARTUP, 1, [1, 10, 10, 1]),
    (STARTUP, 1, [2, 10, 10, 1]),
    (STARTUP, 33, [0, 4, 16, 0]),
    (STARTUP, 33, [1, 16, 100, 0]),
    (STARTUP, 16, [0, 0xFFFF_FFFF, 0, 0]),
    (INTERRUPT, 19, [0; 4]),
    (INTERRUPT, 18, [0; 4]),
    (INTERRUPT, 19, [0; 4]),
    (INTERRUPT, 19, [0; 4]),
    (STARTUP, 16, [1, 0, 0, 0]),
    (INTERRUPT, 35, [1, 0, 0, 0]),
    (INTERRUPT, 35, [0; 4]),
    (INTERRUPT, 35, [0; 4]),
    (THREAD, 35, [0, FOREVER, 0, 0]),
    (THREAD, 35, [0, 1, 0, 0]),
    (INTERRUPT, 37, [0; 4]),
    (INTERRUPT, 36, [0, 1, 0, 0]),
    (INTERRUPT, 36, [1, 1, 0, 0]),
    (INTERRUPT, 15, [0; 4]),
    (INTERRUPT, 36, [0, 1, 0, 0]),
    (INTERRUPT, 36, [0, 1, 0, 0]),
    (THREAD, 18, [1, FOREVER, 0, 0]),
    (INTERRUPT, 19, [1, 0, 0, 0]),
    (THREAD, 34, [0; 4]),
    (STARTUP, 33, [0, 4, 8, 0]),
];

#[test]
fn accounts_hold_on_a_right_run() {
    let (mut board, mut accounts) = (Board::new(), Accounts::default());
    for call in CALLS {
        assert_eq!(book(&mut board, &mut accounts, call, |_| {}), Ok(()), "{call:?}");
    }
    assert_eq!(board.tables.pools[0].free_count, 1);
    assert_eq!(board.tables.pools[1].free_count, 4);
    assert_eq!(board.tables.semaphores[0].count, 0xFFFF_FFFF);
    assert_eq!(board.tables.semaphores[1].count, 0);
}

#[test]
fn a_refused_put_is_no_put() {
    let (mut board, mut accounts) = (Board::new(), Accounts::default());
    let create = (STARTUP, 16, [0, 0xFFFF_FFFF, 0, 0]);
    let put = (INTERRUPT, 19, [0; 4]);
    book(&mut board, &mut accounts, create, |_| {}).unwrap();
    book(&mut board, &mut accounts, put, |_| {}).unwrap();
    // A put that wraps around, and one that is said to be done and is not.
    let before = board.tables.clone();
    let mut done = board.call(put.0, put.1, &put.2);
    assert_eq!(done.status, Status::CEILING_EXCEEDED);
    done.status = Status::SUCCESS;
    let record = Record { call: put.1, caller: put.0, args: put.2 };
    let error = Err("a count is not its start plus puts less served gets");
    let mut wrapped = before.clone();
    wrapped.semaphores[0].count = 0;
    for after in [&wrapped, &before] {
        assert_eq!(accounts.clone().follow(&record, &done, &before, after), error);
    }
}

#[test]
fn wrong_numbers_are_noticed_after_each_call() {
    let blocks = "free blocks are not the total plus releases less allocates";
    let count = "a count is not its start plus puts less served gets";
    let (mut board, mut accounts) = (Board::new(), Accounts::default());
    for call in CALLS {
        let spoiled = |change| book(&mut board.clone(), &mut accounts.clone(), call, change);
        if board.tables.pools[0].created && call.1 != 34 {
            let free = spoiled(|board| board.tables.pools[0].free_count ^= 1);
            assert_eq!(free, Err(blocks), "{call:?}");
        }
        if board.tables.semaphores[0].created {
            let counted = spoiled(|board| board.tables.semaphores[0].count ^= 1);
            assert_eq!(counted, Err(count), "{call:?}");
        }
        book(&mut board, &mut accounts, call, |_| {}).unwrap();
    }
}

#[test]
fn a_wait_that_only_seems_served_is_noticed() {
    let (mut board, mut accounts) = (Board::new(), Accounts::default());
    for call in &CALLS[..16] {
        book(&mut board, &mut accounts, *call, |_| {}).unwrap();
    }
    // The wait of thread 1 runs out, and it holds 0x00 in place of 0x10.
    let tick = (INTERRUPT, 15, [0; 4]);
    let error = book(&mut board, &mut accounts, tick, |board| {
        board.tables.threads[1].held_status = Status::SUCCESS;
    });
    assert_eq!(error, Err("free blocks are not the total plus releases less allocates"));
}
