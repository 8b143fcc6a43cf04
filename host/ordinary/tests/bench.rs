//! The worked cases of docs/RULES.md, chapter 15.

mod common;
use common::*;
use ordinary::PoolNo;

#[test]
fn p1_clock_wraps() {
    let mut board = Board::new();
    board.ok(INTERRUPT, 14, &[4_294_967_295]);
    board.tick();
    assert_eq!(board.ok(INTERRUPT, 13, &[]).words[0], 0);
}

#[test]
fn p2_put_at_the_largest_count() {
    let mut board = Board::new();
    board.thread(0, 10);
    board.ok(STARTUP, 16, &[0, 0xFFFF_FFFE]);
    board.ok(INTERRUPT, 19, &[0]);
    for caller in [STARTUP, INTERRUPT, THREAD] {
        board.refused(caller, 19, &[0], 0x21);
        assert_eq!(board.tables.semaphores[0].count, 0xFFFF_FFFF);
    }
}

#[test]
fn p3_interrupted_threshold_returns() {
    let mut board = Board::new();
    board.ok(STARTUP, 1, &[0, 10, 5, 1]);
    board.ok(STARTUP, 1, &[1, 7, 7, 0]);
    board.ok(STARTUP, 1, &[2, 4, 4, 0]);
    assert_eq!(board.ok(INTERRUPT, 3, &[1]).next.unwrap().0, 0);
    assert_eq!(board.ok(INTERRUPT, 3, &[2]).next.unwrap().0, 2);
    assert!(board.marked(0));
    assert_eq!(board.ok(THREAD, 7, &[]).next.unwrap().0, 0);
    assert!(!board.marked(0));
}

#[test]
fn p4_set_tests_all_waiters_against_the_same_flags() {
    let mut board = Board::new();
    for thread in 0..3 {
        board.thread(thread, 10);
    }
    board.ok(STARTUP, 29, &[0]);
    board.wait(32, &[0, 1, 1, FOREVER]);
    board.wait(32, &[0, 1, 0, FOREVER]);
    board.wait(32, &[0, 3, 2, FOREVER]);
    let outcome = board.ok(INTERRUPT, 31, &[0, 1, 0]);
    assert_eq!(outcome.ended, 2);
    assert_eq!(board.tables.groups[0].flags, 0);
    assert_eq!(board.group_line(0), [2]);
    for thread in 0..2 {
        assert_eq!(board.held_status(thread), 0);
        assert_eq!(board.held_words(thread), padded(&[1]));
    }
}

#[test]
fn p5_a_request_of_zero_is_never_met() {
    for option in 0..4 {
        let mut board = Board::new();
        board.ok(STARTUP, 29, &[0]);
        board.ok(STARTUP, 31, &[0, 0xFFFF_FFFF, 0]);
        board.refused(STARTUP, 32, &[0, 0, option, 0], 0x07);
    }
}

#[test]
fn p6_capacity_is_rounded_down() {
    let mut board = Board::new();
    board.ok(STARTUP, 22, &[0, 4, 10]);
    assert_eq!(board.tables.queues[0].capacity, 2);
    board.refused(STARTUP, 22, &[1, 4, 3], 0x05);
}

#[test]
fn p7_front_sender_goes_past_the_store() {
    let mut board = Board::new();
    for thread in 0..2 {
        board.thread(thread, 10);
    }
    board.thread(2, 20);
    board.ok(STARTUP, 22, &[0, 1, 1]);
    board.ok(THREAD, 24, &[0, 0, 0]); // A
    board.wait(24, &[0, FOREVER, 1]); // B
    board.wait(25, &[0, FOREVER, 2]); // C
    assert_eq!(board.queue_line(0), [1, 0]);
    let received = [0, 1, 2].map(|_| board.ok(INTERRUPT, 26, &[0, 0]).words[0]);
    assert_eq!(received, [102, 100, 101]);
}

#[test]
fn p8_blocks_and_their_bytes() {
    let mut board = Board::new();
    board.ok(STARTUP, 33, &[0, 16, 100]);
    assert_eq!(board.tables.pools[0].blocks, 5);
    for block in 0..3 {
        assert_eq!(board.ok(STARTUP, 35, &[0, 0]).words[0], block);
    }
    let mut bytes: Vec<u8> = (0..100).collect();
    let part = board.tables.block_part(PoolNo(0), 2, &mut bytes);
    assert_eq!(part, (44..60).collect::<Vec<u8>>());
    part.fill(0xEE);
    assert_eq!(bytes[43], 43);
    assert_eq!(bytes[60], 60);
    board.ok(INTERRUPT, 36, &[0, 2]);
    board.refused(INTERRUPT, 36, &[0, 2], 0x03);
}

#[test]
fn p9_prioritise_moves_one_waiter() {
    let mut board = Board::new();
    board.ok(STARTUP, 16, &[0, 0]);
    // The runner waits each time, so the order of waiting is 0, 1, 2.
    for (thread, priority) in [(0, 20), (1, 5), (2, 5)] {
        board.thread(thread, priority);
        board.wait(18, &[0, FOREVER]);
    }
    assert_eq!(board.semaphore_line(0), [0, 1, 2]);
    board.ok(INTERRUPT, 21, &[0]);
    assert_eq!(board.semaphore_line(0), [1, 0, 2]);
}

#[test]
fn p10_ceiling() {
    let mut board = Board::new();
    board.ok(STARTUP, 16, &[0, 3]);
    board.refused(INTERRUPT, 20, &[0, 3], 0x21);
    board.ok(INTERRUPT, 20, &[0, 4]);
    assert_eq!(board.tables.semaphores[0].count, 4);
}

#[test]
fn a_lowered_runner_gives_way_at_once() {
    let mut board = Board::new();
    board.ok(STARTUP, 1, &[0, 5, 5, 1]);
    board.ok(STARTUP, 1, &[1, 7, 7, 1]);
    assert_eq!(board.ok(THREAD, 11, &[0, 10]).next.unwrap().0, 1);
    assert!(!board.marked(0));
}

#[test]
fn a_raised_runner_gives_up_its_threshold() {
    let mut board = Board::new();
    board.ok(STARTUP, 1, &[0, 10, 3, 1]);
    assert_eq!(board.ok(STARTUP, 1, &[1, 5, 5, 1]).next.unwrap().0, 0);
    assert_eq!(board.ok(THREAD, 11, &[0, 8]).next.unwrap().0, 1);
    assert!(!board.marked(0));
}

#[test]
fn a_timed_get_that_runs_out_holds_no_instance() {
    let mut board = Board::new();
    board.thread(0, 10);
    board.ok(STARTUP, 16, &[0, 0]);
    board.wait(18, &[0, 1]);
    assert_eq!(board.tick().ended, 1);
    assert_eq!(board.ok(INTERRUPT, 38, &[0]).words, padded(&[0, 0x0D]));
}

#[test]
fn an_interrupt_may_not_wait_even_at_count_five() {
    let mut board = Board::new();
    board.ok(STARTUP, 16, &[0, 5]);
    board.refused(INTERRUPT, 18, &[0, 1], 0x04);
    board.refused(STARTUP, 18, &[0, 1], 0x04);
}
