//! Choosing the next thread: preemption thresholds, marks, relinquish.

mod common;
use common::*;

/// Creates a thread that is ready at once.
fn ready(board: &mut Board, number: u32, priority: u32, threshold: u32) {
    board.ok(STARTUP, 1, &[number, priority, threshold, 1]);
}

/// Creates a suspended thread.
fn suspended(board: &mut Board, number: u32, priority: u32, threshold: u32) {
    board.ok(STARTUP, 1, &[number, priority, threshold, 0]);
}

#[test]
fn an_equal_priority_does_not_preempt() {
    let mut board = Board::new();
    ready(&mut board, 0, 10, 10);
    ready(&mut board, 1, 10, 10);
    assert_eq!(board.runner(), Some(0));
    ready(&mut board, 2, 9, 9);
    assert_eq!(board.runner(), Some(2));
    assert_eq!(board.ready(10), [0, 1]);
    assert_eq!(board.tables.marked, 0);
}

#[test]
fn start_up_calls_choose_too() {
    let mut board = Board::new();
    suspended(&mut board, 0, 10, 10);
    assert_eq!(board.runner(), None);
    assert_eq!(board.ok(STARTUP, 3, &[0]).next.unwrap().0, 0);
}

#[test]
fn a_runner_behind_others_keeps_its_place_when_replaced() {
    let mut board = Board::new();
    ready(&mut board, 0, 10, 10);
    ready(&mut board, 1, 10, 10);
    // The runner moves to the end and goes on running.
    board.ok(THREAD, 11, &[0, 10]);
    assert_eq!(board.ready(10), [1, 0]);
    assert_eq!(board.runner(), Some(0));
    ready(&mut board, 2, 5, 5);
    assert_eq!(board.runner(), Some(2));
    assert_eq!(board.ready(10), [1, 0]);
    // Without a mark, the first of the order follows, not the replaced one.
    board.ok(THREAD, 7, &[]);
    assert_eq!(board.runner(), Some(1));
}

#[test]
fn a_runner_whose_own_call_replaces_it_is_marked() {
    let mut board = Board::new();
    ready(&mut board, 0, 10, 5);
    suspended(&mut board, 1, 4, 4);
    board.ok(THREAD, 3, &[1]);
    assert_eq!(board.runner(), Some(1));
    assert!(board.marked(0));
}

#[test]
fn the_threshold_after_the_call_decides() {
    // Raising the threshold value to the priority lets the waiting 7 in,
    // and the replaced runner then has no threshold, so no mark.
    let mut board = Board::new();
    ready(&mut board, 0, 10, 5);
    ready(&mut board, 1, 7, 7);
    assert_eq!(board.runner(), Some(0));
    board.ok(THREAD, 12, &[0, 10]);
    assert_eq!(board.runner(), Some(1));
    assert_eq!(board.tables.marked, 0);
    // A threshold of 8 also lets it in and leaves a mark.
    let mut board = Board::new();
    ready(&mut board, 0, 10, 5);
    ready(&mut board, 1, 7, 7);
    board.ok(THREAD, 12, &[0, 8]);
    assert_eq!(board.runner(), Some(1));
    assert_eq!(board.tables.marked, 1);
}

#[test]
fn a_marked_thread_that_must_give_way_keeps_its_mark() {
    let mut board = Board::new();
    ready(&mut board, 0, 10, 5);
    ready(&mut board, 1, 3, 3);
    assert!(board.marked(0));
    ready(&mut board, 2, 4, 4);
    // 1 finishes: 4 is better than thread 0's threshold.
    board.ok(THREAD, 7, &[]);
    assert_eq!(board.runner(), Some(2));
    assert!(board.marked(0));
    // 7 arrives; 2 finishes: thread 0 returns before it.
    ready(&mut board, 3, 7, 7);
    board.ok(THREAD, 7, &[]);
    assert_eq!(board.runner(), Some(0));
}

#[test]
fn a_priority_equal_to_the_marked_threshold_does_not_come_before() {
    for (priority, next) in [(4, 2), (5, 0), (6, 0)] {
        let mut board = Board::new();
        ready(&mut board, 0, 10, 5);
        ready(&mut board, 1, 3, 3);
        ready(&mut board, 2, priority, priority);
        board.ok(THREAD, 7, &[]);
        assert_eq!(board.runner(), Some(next), "priority {priority}");
    }
}

#[test]
fn a_priority_equal_to_the_threshold_does_not_preempt() {
    for (priority, next) in [(4, 1), (5, 0), (6, 0)] {
        let mut board = Board::new();
        ready(&mut board, 0, 10, 5);
        ready(&mut board, 1, priority, priority);
        assert_eq!(board.runner(), Some(next), "priority {priority}");
    }
}

#[test]
fn only_the_best_marked_thread_is_asked() {
    let mut board = Board::new();
    // 0 has the strong threshold but a worse priority than 1.
    ready(&mut board, 0, 20, 2);
    ready(&mut board, 1, 1, 1); // replaces 0, marked
    board.ok(THREAD, 11, &[1, 12]); // nobody better is ready: still running
    board.ok(THREAD, 12, &[1, 11]);
    ready(&mut board, 3, 15, 15);
    ready(&mut board, 2, 10, 10); // replaces 1, marked
    assert_eq!(board.runner(), Some(2));
    assert_eq!(board.tables.marked, 0b11);
    // 10 finishes: best ready is 12 (thread 1 itself), marked best is 1.
    board.ok(THREAD, 7, &[]);
    assert_eq!(board.runner(), Some(1));
    assert_eq!(board.tables.marked, 0b01);
    // 8 arrives and 9 waits behind it; 1 is marked again.
    ready(&mut board, 4, 8, 8);
    ready(&mut board, 5, 9, 9);
    assert_eq!(board.runner(), Some(4));
    assert_eq!(board.tables.marked, 0b11);
    // 8 finishes: thread 1 (threshold 11) must give way to 9; thread 0,
    // whose threshold 2 would hold off 9, is not asked.
    board.ok(THREAD, 7, &[]);
    assert_eq!(board.runner(), Some(5));
    assert_eq!(board.tables.marked, 0b11);
}

#[test]
fn the_first_marked_in_order_is_asked() {
    let mut board = Board::new();
    ready(&mut board, 0, 10, 8);
    ready(&mut board, 1, 10, 8);
    ready(&mut board, 2, 5, 5); // marks 0
    assert_eq!(board.tables.marked, 0b001);
    board.ok(THREAD, 4, &[0]); // leaves ready: the mark ends
    assert_eq!(board.tables.marked, 0);
    board.ok(THREAD, 3, &[0]); // joins the end, unmarked
    assert_eq!(board.ready(10), [1, 0]);
    board.ok(THREAD, 7, &[]);
    assert_eq!(board.runner(), Some(1));
}

#[test]
fn relinquish_goes_to_the_end_and_gives_up_the_threshold() {
    let mut board = Board::new();
    ready(&mut board, 0, 10, 5);
    ready(&mut board, 1, 10, 10);
    ready(&mut board, 2, 7, 7);
    assert_eq!(board.runner(), Some(0));
    assert_eq!(board.ok(THREAD, 8, &[]).next.unwrap().0, 2);
    assert_eq!(board.ready(10), [1, 0]);
    assert_eq!(board.tables.marked, 0);
    board.ok(THREAD, 7, &[]);
    assert_eq!(board.runner(), Some(1));
}

#[test]
fn relinquish_alone_goes_on() {
    let mut board = Board::new();
    ready(&mut board, 0, 10, 10);
    ready(&mut board, 1, 11, 11);
    assert_eq!(board.ok(THREAD, 8, &[]).next.unwrap().0, 0);
}

#[test]
fn relinquish_asks_the_marked() {
    let mut board = Board::new();
    ready(&mut board, 0, 10, 5);
    ready(&mut board, 1, 4, 4);
    ready(&mut board, 2, 4, 4);
    assert!(board.marked(0));
    // 4 is better than 5, so thread 2 runs and thread 0 keeps its mark.
    assert_eq!(board.ok(THREAD, 8, &[]).next.unwrap().0, 2);
    assert!(board.marked(0));
    // Lowered to 6, thread 2 no longer beats the marked threshold.
    board.ok(THREAD, 4, &[1]);
    board.ok(THREAD, 11, &[2, 6]);
    assert_eq!(board.runner(), Some(2));
    assert_eq!(board.ok(THREAD, 8, &[]).next.unwrap().0, 0);
    assert_eq!(board.tables.marked, 0);
}

#[test]
fn a_mark_survives_while_the_threshold_stays_below() {
    let mut board = Board::new();
    ready(&mut board, 0, 10, 5);
    ready(&mut board, 1, 4, 4);
    assert!(board.marked(0));
    board.ok(THREAD, 12, &[0, 9]);
    assert!(board.marked(0));
    board.ok(THREAD, 12, &[0, 10]);
    assert!(!board.marked(0));
    board.ok(THREAD, 12, &[0, 0]); // lowering never marks
    assert!(!board.marked(0));
}

#[test]
fn a_mark_ends_with_every_priority_change() {
    for priority in 0..32 {
        let mut board = Board::new();
        ready(&mut board, 0, 10, 5);
        ready(&mut board, 1, 0, 0);
        assert!(board.marked(0));
        board.ok(THREAD, 11, &[0, priority]);
        assert_eq!(board.tables.marked, 0, "priority {priority}");
        assert_eq!(board.runner(), Some(1));
        assert_eq!(board.ready(priority as usize).last(), Some(&0));
    }
}

#[test]
fn a_priority_change_sets_the_threshold_whatever_it_was() {
    for threshold in 0..=10 {
        for priority in 0..32 {
            let mut board = Board::new();
            ready(&mut board, 0, 10, threshold);
            suspended(&mut board, 1, 10, threshold);
            for thread in 0..2 {
                let words = board.ok(THREAD, 11, &[thread, priority]).words;
                assert_eq!(words, padded(&[10]));
                let record = &board.tables.threads[thread as usize];
                assert_eq!((record.priority, record.threshold), (priority as u8, priority as u8));
            }
        }
    }
}

#[test]
fn a_lowered_runner_gives_way_to_a_better_one_only() {
    for (priority, next) in [(9, 1), (10, 0), (11, 0)] {
        let mut board = Board::new();
        ready(&mut board, 0, 5, 5);
        ready(&mut board, 1, priority, priority);
        board.ok(THREAD, 11, &[0, 10]);
        assert_eq!(board.runner(), Some(next), "priority {priority}");
        assert_eq!(board.tables.marked, 0);
    }
}

#[test]
fn a_lowered_runner_that_gave_way_has_no_claim_to_return() {
    let mut board = Board::new();
    ready(&mut board, 0, 5, 2);
    ready(&mut board, 1, 10, 10);
    ready(&mut board, 2, 7, 7);
    board.ok(THREAD, 11, &[0, 10]);
    assert_eq!(board.runner(), Some(2));
    assert_eq!(board.ready(10), [1, 0]);
    board.ok(THREAD, 7, &[]);
    assert_eq!(board.runner(), Some(1));
}

#[test]
fn a_raised_runner_loses_its_low_threshold() {
    // The threshold 3 holds off a ready 5. Raised, only the new priority counts.
    for (priority, next) in [(8, 1), (6, 1), (5, 0), (4, 0)] {
        let mut board = Board::new();
        ready(&mut board, 0, 10, 3);
        ready(&mut board, 1, 5, 5);
        assert_eq!(board.runner(), Some(0));
        board.ok(THREAD, 11, &[0, priority]);
        assert_eq!(board.runner(), Some(next), "priority {priority}");
    }
}

#[test]
fn a_refused_priority_change_changes_nothing() {
    let mut board = Board::new();
    ready(&mut board, 0, 10, 3);
    ready(&mut board, 1, 5, 5);
    let before = board.tables.clone();
    for priority in [32, 255, 256, 0x8000_0000, 0xFFFF_FFFF] {
        board.refused(THREAD, 11, &[0, priority], 0x0F);
        board.refused(INTERRUPT, 11, &[0, priority], 0x0F);
    }
    for thread in [2, 31, 32, 256, 0xFFFF_FFFF] {
        board.refused(THREAD, 11, &[thread, 8], 0x0E);
        board.refused(INTERRUPT, 11, &[thread, 32], 0x0E);
    }
    for caller in [STARTUP, INTERRUPT] {
        board.refused(caller, 11, &[0, 31], 0x13);
    }
    assert_eq!(board.tables, before);
}

#[test]
fn a_waiter_keeps_its_place_in_line() {
    let mut board = Board::new();
    board.ok(STARTUP, 16, &[0, 0]);
    for thread in 0..3 {
        ready(&mut board, thread, 10, 4);
        board.wait(18, &[0, FOREVER]);
    }
    ready(&mut board, 3, 20, 20);
    board.ok(THREAD, 11, &[0, 15]);
    board.ok(THREAD, 11, &[2, 1]);
    let line = board.semaphore_line(0);
    assert_eq!(line, [0, 1, 2]);
    assert_eq!(board.tables.threads[0].threshold, 15);
    assert_eq!(board.tables.threads[2].threshold, 1);
}

#[test]
fn changes_answer_the_old_values_in_any_state() {
    let mut board = Board::new();
    suspended(&mut board, 0, 10, 5);
    ready(&mut board, 1, 1, 1);
    assert_eq!(board.ok(THREAD, 12, &[0, 6]).words, padded(&[5]));
    assert_eq!(board.ok(THREAD, 11, &[0, 8]).words, padded(&[10]));
    assert_eq!(board.ok(THREAD, 12, &[0, 7]).words, padded(&[8]));
    board.ok(THREAD, 5, &[0]);
    assert_eq!(board.ok(THREAD, 11, &[0, 3]).words, padded(&[8]));
    assert_eq!(board.ok(THREAD, 12, &[0, 3]).words, padded(&[3]));
}

#[test]
fn priority_change_moves_a_ready_thread_to_the_end() {
    let mut board = Board::new();
    for thread in 0..3 {
        ready(&mut board, thread, 10, 10);
    }
    board.ok(THREAD, 11, &[1, 10]);
    assert_eq!(board.ready(10), [0, 2, 1]);
    board.ok(THREAD, 11, &[1, 5]);
    assert_eq!(board.runner(), Some(1));
    assert_eq!(board.ready(10), [0, 2]);
}

#[test]
fn woken_threads_join_in_the_order_of_their_waits_end() {
    let mut board = Board::new();
    board.ok(STARTUP, 16, &[0, 0]);
    // Threads 0 to 2 wait in the order 2, 1, 0.
    for thread in [2, 1, 0] {
        ready(&mut board, thread, 10, 10);
        board.wait(18, &[0, 5]);
    }
    ready(&mut board, 3, 20, 20);
    let mut ticked = board.clone();
    board.ok(THREAD, 17, &[0]);
    assert_eq!(board.ready(10), [2, 1, 0]); // a delete: line order
    for _ in 0..5 {
        ticked.tick();
    }
    assert_eq!(ticked.ready(10), [0, 1, 2]); // a tick: thread order
    assert_eq!(ticked.runner(), Some(0));
}

#[test]
fn the_last_thread_leaves_nobody_running() {
    let mut board = Board::new();
    ready(&mut board, 0, 10, 10);
    assert_eq!(board.wait(9, &[3]).next, None);
    board.refused(THREAD, 13, &[], 0x102);
    for _ in 0..2 {
        assert_eq!(board.tick().next, None);
    }
    assert_eq!(board.tick().next.unwrap().0, 0);
}
