//! What the services do, one rule a test.

mod common;
use common::*;

/// A board whose threads 0, 1, .. of priority 10 are ready in this order.
fn threads(count: u32) -> Board {
    let mut board = Board::new();
    for thread in 0..count {
        board.thread(thread, 10);
    }
    board
}

#[test]
fn create_with_and_without_start() {
    let mut board = Board::new();
    board.ok(STARTUP, 1, &[31, 31, 0, 0]);
    assert_eq!(board.state(31), 3);
    board.ok(STARTUP, 1, &[0, 0, 0, 1]);
    assert_eq!((board.state(0), board.runner()), (0, Some(0)));
}

#[test]
fn resume_of_a_held_suspension_is_0x19_and_counts_nothing() {
    let mut board = threads(2);
    board.wait(9, &[5]);
    board.ok(THREAD, 4, &[0]);
    let outcome = board.call(INTERRUPT, 3, &[0]);
    assert_eq!((outcome.status.0, outcome.ended), (0x19, 0));
    assert_eq!(outcome.next.unwrap().0, 1);
    board.refused(INTERRUPT, 3, &[0], 0x12);
    assert_eq!(board.state(0), 4);
}

#[test]
fn a_held_suspension_takes_effect_however_the_wait_ends() {
    for way in 0..4 {
        let mut board = threads(2);
        board.ok(STARTUP, 16, &[0, 0]);
        board.wait(18, &[0, 1]);
        board.ok(THREAD, 4, &[0]);
        board.ok(THREAD, 4, &[0]); // a second one has no effect
        assert_eq!(board.state(0), 6);
        let (outcome, held) = match way {
            0 => (board.ok(INTERRUPT, 19, &[0]), 0x00),
            1 => (board.tick(), 0x0D),
            2 => (board.ok(INTERRUPT, 10, &[0]), 0x1A),
            _ => (board.ok(THREAD, 17, &[0]), 0x01),
        };
        assert_eq!(outcome.ended, 1);
        assert_eq!((board.state(0), board.held_status(0)), (3, held));
        board.ok(INTERRUPT, 3, &[0]); // an ordinary suspension now
        assert_eq!(board.state(0), 0);
    }
}

#[test]
fn suspending_a_suspended_thread_or_oneself() {
    let mut board = threads(2);
    let outcome = board.ok(THREAD, 4, &[0]);
    assert_eq!((outcome.next.unwrap().0, board.state(0)), (1, 3));
    let before = board.tables.clone();
    board.ok(INTERRUPT, 4, &[0]);
    assert_eq!(board.tables, before);
}

#[test]
fn terminate_takes_a_waiter_out_of_its_line_without_counting() {
    let mut board = threads(3);
    board.ok(STARTUP, 16, &[0, 0]);
    board.wait(18, &[0, 7]);
    board.wait(18, &[0, 7]);
    assert_eq!(board.ok(THREAD, 5, &[0]).ended, 0);
    assert_eq!(board.semaphore_line(0), [1]);
    assert_eq!((board.state(0), board.held_status(0)), (2, 0));
    // Terminating again changes nothing; a put serves the next waiter.
    let before = board.tables.clone();
    board.ok(THREAD, 5, &[0]);
    assert_eq!(board.tables, before);
    board.ok(INTERRUPT, 19, &[0]);
    assert_eq!(board.state(1), 0);
}

#[test]
fn terminate_of_a_completed_thread_leaves_it_completed() {
    let mut board = threads(2);
    board.ok(THREAD, 7, &[]);
    board.ok(THREAD, 5, &[0]);
    assert_eq!(board.state(0), 1);
}

#[test]
fn terminating_oneself_is_done_at_once() {
    let mut board = threads(2);
    let outcome = board.ok(THREAD, 5, &[0]);
    assert_eq!((outcome.next.unwrap().0, board.state(0)), (1, 2));
}

#[test]
fn finish_terminate_and_reset_clear_held_things() {
    let mut board = threads(3);
    board.ok(STARTUP, 33, &[0, 4, 8]);
    board.ok(STARTUP, 35, &[0, 0]);
    for _ in 0..2 {
        board.wait(35, &[0, 1]);
    }
    board.tick();
    assert_eq!((board.held_status(0), board.held_status(1)), (0x10, 0x10));
    board.ok(THREAD, 5, &[0]);
    board.ok(THREAD, 5, &[1]);
    assert_eq!((board.held_status(0), board.held_status(1)), (0, 0));
    board.tables.threads[0].held_status.0 = 0x33;
    board.tables.threads[0].held_words[3] = 9;
    board.ok(THREAD, 6, &[0]);
    assert_eq!(board.held_status(0), 0);
    assert_eq!(board.held_words(0), [0; 16]);
}

#[test]
fn reset_gives_suspended_with_priority_and_threshold_kept() {
    let mut board = Board::new();
    board.ok(STARTUP, 1, &[0, 10, 5, 1]);
    board.thread(1, 20);
    board.ok(THREAD, 7, &[]);
    board.ok(THREAD, 6, &[0]);
    let thread = &board.tables.threads[0];
    assert_eq!((thread.state as u32, thread.priority, thread.threshold), (3, 10, 5));
    board.ok(THREAD, 3, &[0]);
    assert_eq!(board.runner(), Some(0));
}

#[test]
fn delete_frees_the_number() {
    let mut board = threads(2);
    board.ok(THREAD, 7, &[]);
    board.ok(THREAD, 2, &[0]);
    assert!(!board.tables.threads[0].created);
    board.refused(THREAD, 38, &[0], 0x0E);
    board.thread(0, 3);
    assert_eq!(board.runner(), Some(0));
}

#[test]
fn sleep_runs_out_with_status_zero() {
    let mut board = threads(2);
    board.wait(9, &[2]);
    assert_eq!((board.state(0), board.held_status(0)), (4, 0x101));
    assert_eq!(board.tick().ended, 0);
    assert_eq!(board.tick().ended, 1);
    assert_eq!((board.state(0), board.held_status(0)), (0, 0));
}

#[test]
fn sleep_zero_changes_nothing() {
    let mut board = threads(2);
    board.tables.threads[0].held_status.0 = 0x1A;
    let before = board.tables.clone();
    board.ok(THREAD, 9, &[0]);
    assert_eq!(board.tables, before);
}

#[test]
fn an_endless_sleep_ends_by_abort_only() {
    let mut board = threads(2);
    board.wait(9, &[FOREVER]);
    for _ in 0..50 {
        assert_eq!(board.tick().ended, 0);
    }
    assert_eq!(board.ok(INTERRUPT, 10, &[0]).ended, 1);
    assert_eq!(board.held_status(0), 0x1A);
}

#[test]
fn a_wait_clears_old_held_words_and_a_service_at_once_keeps_them() {
    let mut board = threads(2);
    board.ok(STARTUP, 16, &[0, 1]);
    board.tables.threads[0].held_words[0] = 77;
    board.tables.threads[0].held_status.0 = 0x1A;
    board.ok(THREAD, 18, &[0, FOREVER]); // served at once
    assert_eq!((board.held_status(0), board.held_words(0)[0]), (0x1A, 77));
    board.wait(18, &[0, FOREVER]);
    assert_eq!((board.held_status(0), board.held_words(0)[0]), (0x101, 0));
}

#[test]
fn reads_use_nothing_up() {
    let mut board = threads(2);
    board.ok(STARTUP, 33, &[0, 4, 8]);
    board.ok(STARTUP, 35, &[0, 0]);
    board.wait(35, &[0, FOREVER]);
    assert_eq!(board.ok(INTERRUPT, 38, &[0]).words, padded(&[8, 0x101]));
    board.ok(INTERRUPT, 36, &[0, 0]);
    for _ in 0..2 {
        assert_eq!(board.ok(INTERRUPT, 38, &[0]).words, padded(&[0, 0]));
        assert_eq!(board.ok(INTERRUPT, 39, &[0]).words, padded(&[0]));
    }
}

#[test]
fn setting_the_clock_moves_no_wait() {
    let mut board = threads(1);
    board.wait(9, &[2]);
    board.ok(INTERRUPT, 14, &[0xFFFF_FFFF]);
    assert_eq!(board.tick().ended, 0);
    assert_eq!(board.tables.clock, 0);
    assert_eq!(board.tick().ended, 1);
}

#[test]
fn a_put_serves_the_first_waiter_only() {
    let mut board = threads(3);
    board.ok(STARTUP, 16, &[0, 0]);
    board.wait(18, &[0, FOREVER]);
    board.wait(18, &[0, FOREVER]);
    let outcome = board.ok(THREAD, 19, &[0]);
    assert_eq!(outcome.ended, 1);
    assert_eq!(board.semaphore_line(0), [1]);
    assert_eq!((board.held_status(0), board.held_status(1)), (0, 0x101));
    board.refused(THREAD, 18, &[0, 0], 0x0D);
    assert_eq!(board.ok(THREAD, 20, &[0, 1]).ended, 1);
    assert_eq!(board.tables.semaphores[0].count, 0);
}

#[test]
fn ceiling_put_at_the_top_count() {
    let mut board = Board::new();
    board.ok(STARTUP, 16, &[0, 0xFFFF_FFFF]);
    board.refused(STARTUP, 20, &[0, 0xFFFF_FFFF], 0x21);
    board.refused(STARTUP, 20, &[0, 0], 0x22);
}

#[test]
fn deleting_ends_waits_in_line_order_with_deleted() {
    let mut board = threads(4);
    board.ok(STARTUP, 29, &[0]);
    board.wait(32, &[0, 1, 0, 9]);
    board.wait(32, &[0, 2, 2, FOREVER]);
    board.wait(9, &[1]);
    let outcome = board.ok(THREAD, 30, &[0]);
    assert_eq!(outcome.ended, 2);
    assert_eq!(board.ready(10), [3, 0, 1]);
    assert_eq!((board.held_status(0), board.held_status(1)), (1, 1));
    assert!(!board.tables.groups[0].created);
}

#[test]
fn deleting_a_queue_drops_its_messages_and_those_of_its_senders() {
    let mut board = threads(4);
    board.ok(STARTUP, 22, &[0, 2, 2]);
    board.ok(STARTUP, 24, &[0, 0, 0]);
    board.wait(24, &[0, 9, 2]);
    board.wait(25, &[0, FOREVER, 4]);
    assert_eq!(board.ok(THREAD, 23, &[0]).ended, 2);
    // Line order: the front sender 1 stood first.
    assert_eq!(board.ready(10), [2, 3, 1, 0]);
    for thread in [0, 1] {
        assert_eq!((board.held_status(thread), board.held_words(thread)), (1, [0; 16]));
        assert_eq!(board.tables.threads[thread].message, [0; 16]);
    }
    board.refused(THREAD, 26, &[0, 0], 0x09);
    board.ok(STARTUP, 22, &[0, 1, 3]);
    board.refused(THREAD, 26, &[0, 0], 0x0A);
}

#[test]
fn deleting_a_queue_ends_the_waits_of_its_receivers() {
    let mut board = threads(3);
    board.ok(STARTUP, 22, &[7, 1, 1]);
    board.wait(26, &[7, FOREVER]);
    board.wait(26, &[7, 3]);
    assert_eq!(board.ok(THREAD, 23, &[7]).ended, 2);
    assert_eq!((board.held_status(0), board.held_status(1)), (1, 1));
    assert!(!board.tables.queues[7].created);
}

#[test]
fn an_aborted_sender_takes_its_message_along() {
    for number in [24, 25] {
        let mut board = threads(2);
        board.ok(STARTUP, 22, &[0, 1, 1]);
        board.ok(STARTUP, 24, &[0, 0, 0]);
        board.wait(number, &[0, FOREVER, 1]);
        assert_eq!(board.ok(INTERRUPT, 10, &[0]).ended, 1);
        assert_eq!(board.held_status(0), 0x1A);
        assert_eq!(board.ok(INTERRUPT, 26, &[0, 0]).words[0], 100);
        board.refused(INTERRUPT, 26, &[0, 0], 0x0A);
    }
}

#[test]
fn a_send_goes_straight_to_the_first_receiver() {
    for number in [24, 25] {
        let mut board = threads(3);
        board.ok(STARTUP, 22, &[0, 3, 9]);
        board.wait(26, &[0, FOREVER]);
        board.wait(26, &[0, 5]);
        assert_eq!(board.ok(INTERRUPT, number, &[0, 0, 4]).ended, 1);
        assert_eq!(board.held_words(0), padded(&[104, 105, 106]));
        assert_eq!(board.queue_line(0), [1]);
        assert!(board.stored(0).is_empty());
    }
}

#[test]
fn a_front_send_with_room_goes_to_the_front_of_the_store() {
    let mut board = Board::new();
    board.ok(STARTUP, 22, &[0, 2, 6]);
    board.ok(STARTUP, 24, &[0, 0, 0]);
    board.ok(STARTUP, 24, &[0, 0, 2]);
    board.ok(STARTUP, 25, &[0, 0, 4]);
    assert_eq!(board.stored(0), [[104, 105], [100, 101], [102, 103]]);
    board.refused(STARTUP, 25, &[0, 0, 6], 0x0B);
    assert_eq!(board.ok(STARTUP, 26, &[0, 0]).words, padded(&[104, 105]));
}

#[test]
fn the_store_goes_round() {
    let mut board = Board::new();
    board.ok(STARTUP, 22, &[0, 2, 7]);
    for round in 0..20 {
        board.ok(STARTUP, 24 + round % 2, &[0, 0, round]);
        board.ok(STARTUP, 24, &[0, 0, round + 1]);
        let first = board.ok(STARTUP, 26, &[0, 0]).words[0];
        let second = board.ok(STARTUP, 26, &[0, 0]).words[0];
        assert_eq!((first, second), (100 + round, 101 + round));
    }
}

#[test]
fn a_receive_stores_an_ordinary_sender_behind_the_others() {
    let mut board = threads(3);
    board.ok(STARTUP, 22, &[0, 1, 2]);
    board.ok(STARTUP, 24, &[0, 0, 0]);
    board.ok(STARTUP, 24, &[0, 0, 1]);
    board.wait(24, &[0, FOREVER, 2]);
    board.wait(24, &[0, 3, 3]);
    assert_eq!(board.tables.threads[0].message, padded(&[102]));
    let outcome = board.ok(INTERRUPT, 26, &[0, 0]);
    assert_eq!((outcome.words, outcome.ended), (padded(&[100]), 1));
    assert_eq!(board.stored(0), [[101], [102]]);
    assert_eq!((board.held_status(0), board.held_words(0)), (0, [0; 16]));
    assert_eq!(board.queue_line(0), [1]);
}

#[test]
fn of_several_front_senders_the_last_is_first() {
    let mut board = threads(4);
    board.ok(STARTUP, 22, &[0, 1, 1]);
    board.ok(STARTUP, 24, &[0, 0, 0]);
    for message in 1..4 {
        board.wait(25, &[0, FOREVER, message]);
    }
    assert_eq!(board.queue_line(0), [2, 1, 0]);
    let received = [0; 4].map(|_| board.ok(STARTUP, 26, &[0, 0]).words[0]);
    assert_eq!(received, [103, 102, 101, 100]);
}

#[test]
fn a_prioritised_sender_keeps_its_kind() {
    let mut board = Board::new();
    board.ok(STARTUP, 22, &[0, 1, 1]);
    board.ok(STARTUP, 24, &[0, 0, 0]);
    // 0 (priority 20) is a front sender, 1 (priority 5) an ordinary one.
    board.thread(0, 20);
    board.wait(25, &[0, FOREVER, 1]);
    board.thread(1, 5);
    board.wait(24, &[0, FOREVER, 2]);
    assert_eq!(board.queue_line(0), [0, 1]);
    board.ok(STARTUP, 28, &[0]);
    assert_eq!(board.queue_line(0), [1, 0]);
    // The ordinary sender is first now: oldest message, then stored behind.
    assert_eq!(board.ok(STARTUP, 26, &[0, 0]).words[0], 100);
    assert_eq!(board.stored(0), [[102]]);
    assert_eq!(board.ok(STARTUP, 26, &[0, 0]).words[0], 101);
    assert_eq!(board.stored(0), [[102]]);
}

#[test]
fn flush_empties_and_frees_all_senders() {
    let mut board = threads(4);
    board.ok(STARTUP, 22, &[0, 1, 1]);
    board.ok(STARTUP, 24, &[0, 0, 0]);
    board.wait(24, &[0, 4, 1]);
    board.wait(25, &[0, FOREVER, 2]);
    let outcome = board.ok(INTERRUPT, 27, &[0]);
    assert_eq!(outcome.ended, 2);
    assert!(board.stored(0).is_empty());
    // Line order: the front sender 1 stood first.
    assert_eq!(board.ready(10), [2, 3, 1, 0]);
    assert_eq!((board.held_status(0), board.held_status(1)), (0, 0));
    assert_eq!(board.tables.threads[0].message, [0; 16]);
}

#[test]
fn flush_of_an_empty_queue_leaves_receivers_waiting() {
    let mut board = threads(2);
    board.ok(STARTUP, 22, &[0, 1, 1]);
    board.wait(26, &[0, FOREVER]);
    let before = board.tables.clone();
    assert_eq!(board.ok(INTERRUPT, 27, &[0]).ended, 0);
    assert_eq!(board.tables, before);
}

#[test]
fn queue_timeouts_tell_senders_from_receivers() {
    let mut board = threads(4);
    board.ok(STARTUP, 22, &[0, 1, 1]);
    board.ok(STARTUP, 22, &[1, 1, 1]);
    board.ok(STARTUP, 24, &[1, 0, 0]);
    board.wait(26, &[0, 1]);
    board.wait(24, &[1, 1, 1]);
    board.wait(25, &[1, 1, 1]);
    assert_eq!(board.tick().ended, 3);
    assert_eq!([0, 1, 2].map(|thread| board.held_status(thread)), [0x0A, 0x0B, 0x0B]);
}

#[test]
fn a_message_must_lie_wholly_inside_the_area() {
    let mut board = threads(2);
    board.ok(STARTUP, 22, &[0, 16, 16]);
    board.ok(STARTUP, 24, &[0, 0, 24]); // words 24 to 39 of 40
    for start in [25, 40, 0xFFFF_FFF0, 0xFFFF_FFFF] {
        board.refused(STARTUP, 24, &[0, 0, start], 0x03);
        board.refused(STARTUP, 25, &[0, 1, start], 0x03); // before 0x04
    }
}

#[test]
fn set_clears_the_union_of_the_woken_requests() {
    let mut board = threads(4);
    board.ok(STARTUP, 29, &[0]);
    board.wait(32, &[0, 0b0110, 1, FOREVER]); // OR and clear
    board.wait(32, &[0, 0b1100, 3, FOREVER]); // AND and clear: not met
    board.wait(32, &[0, 0b0011, 3, FOREVER]); // AND and clear
    let outcome = board.ok(INTERRUPT, 31, &[0, 0b1_0011, 0]);
    assert_eq!(outcome.ended, 2);
    assert_eq!(board.tables.groups[0].flags, 0b1_0000);
    assert_eq!(board.held_words(0)[0], 0b1_0011);
    assert_eq!(board.held_words(2)[0], 0b1_0011);
    assert_eq!(board.group_line(0), [1]);
}

#[test]
fn a_waiter_without_clear_leaves_the_flags() {
    for option in [0, 2] {
        let mut board = threads(2);
        board.ok(STARTUP, 29, &[0]);
        board.wait(32, &[0, 0b0011, option, FOREVER]);
        assert_eq!(board.ok(INTERRUPT, 31, &[0, 0b0111, 0]).ended, 1);
        assert_eq!(board.tables.groups[0].flags, 0b0111);
        assert_eq!(board.held_words(0), padded(&[0b0111]));
    }
}

#[test]
fn an_and_request_needs_every_flag() {
    for option in [2, 3] {
        let mut board = threads(2);
        board.ok(STARTUP, 29, &[0]);
        board.wait(32, &[0, 0b0011, option, FOREVER]);
        assert_eq!(board.ok(INTERRUPT, 31, &[0, 0b0101, 0]).ended, 0);
        assert_eq!(board.tables.groups[0].flags, 0b0101);
        assert_eq!(board.ok(INTERRUPT, 31, &[0, 0b0010, 0]).ended, 1);
        let left = if option == 3 { 0b0100 } else { 0b0111 };
        assert_eq!(board.tables.groups[0].flags, left);
    }
}

#[test]
fn set_and_intersects_and_wakes_nobody() {
    let mut board = threads(2);
    board.ok(STARTUP, 29, &[0]);
    board.ok(STARTUP, 31, &[0, 0b111, 0]);
    board.wait(32, &[0, 0b1000, 0, FOREVER]);
    assert_eq!(board.ok(INTERRUPT, 31, &[0, 0b1101, 2]).ended, 0);
    assert_eq!(board.tables.groups[0].flags, 0b101);
    assert_eq!(board.group_line(0), [0]);
}

#[test]
fn get_answers_the_flags_before_its_own_clear() {
    let mut board = threads(1);
    board.ok(STARTUP, 29, &[0]);
    board.ok(STARTUP, 31, &[0, 0b111, 0]);
    assert_eq!(board.ok(THREAD, 32, &[0, 0b1010, 1, 0]).words, padded(&[0b111]));
    assert_eq!(board.tables.groups[0].flags, 0b101);
    assert_eq!(board.ok(THREAD, 32, &[0, 0b101, 2, 0]).words, padded(&[0b101]));
    assert_eq!(board.tables.groups[0].flags, 0b101);
    assert_eq!(board.ok(THREAD, 32, &[0, 0b101, 3, 0]).words, padded(&[0b101]));
    assert_eq!(board.tables.groups[0].flags, 0);
}

#[test]
fn a_met_get_is_served_past_other_waiters() {
    let mut board = threads(3);
    board.ok(STARTUP, 29, &[0]);
    board.ok(STARTUP, 31, &[0, 1, 0]);
    board.wait(32, &[0, 2, 0, FOREVER]);
    assert_eq!(board.ok(THREAD, 32, &[0, 1, 0, FOREVER]).words[0], 1);
    assert_eq!(board.group_line(0), [0]);
}

#[test]
fn a_wait_for_flags_answers_zero_words() {
    let mut board = threads(2);
    board.ok(STARTUP, 29, &[0]);
    board.ok(STARTUP, 31, &[0, 0b100, 0]);
    assert_eq!(board.wait(32, &[0, 0, 0, 3]).words, [0; 16]); // a request of 0 waits
    for _ in 0..2 {
        board.ok(INTERRUPT, 31, &[0, 0xFFFF_FFFF, 0]);
        board.tick();
    }
    assert_eq!(board.tick().ended, 1);
    assert_eq!(board.held_status(0), 0x07);
}

#[test]
fn the_last_released_block_is_given_first() {
    let mut board = Board::new();
    board.ok(STARTUP, 33, &[0, 4, 32]);
    for block in 0..4 {
        assert_eq!(board.ok(STARTUP, 35, &[0, 0]).words[0], block);
    }
    board.refused(STARTUP, 35, &[0, 0], 0x10);
    for block in [2, 0, 3] {
        board.ok(INTERRUPT, 36, &[0, block]);
    }
    assert_eq!(board.tables.pools[0].free_blocks().collect::<Vec<_>>(), [3, 0, 2]);
    assert_eq!(board.ok(STARTUP, 35, &[0, 0]).words[0], 3);
}

#[test]
fn a_release_hands_the_block_to_the_first_waiter() {
    let mut board = threads(3);
    board.ok(STARTUP, 33, &[0, 4, 16]);
    board.ok(STARTUP, 35, &[0, 0]);
    board.ok(STARTUP, 35, &[0, 0]);
    board.wait(35, &[0, FOREVER]);
    board.wait(35, &[0, FOREVER]);
    assert_eq!(board.ok(INTERRUPT, 36, &[0, 1]).ended, 1);
    assert_eq!(board.held_words(0), padded(&[1]));
    assert_eq!(board.pool_line(0), [1]);
    // The block is in use again, by whomever.
    assert_eq!(board.ok(INTERRUPT, 36, &[0, 1]).ended, 1);
    assert_eq!(board.held_words(1), padded(&[1]));
}

#[test]
fn block_parts_of_length_zero() {
    use ordinary::{Link, PoolNo};
    let mut board = Board::new();
    board.ok(STARTUP, 33, &[0, 16, 100]);
    board.ok(STARTUP, 35, &[0, 0]);
    let mut bytes = [0u8; 120];
    let part = |board: &Board, pool, block, bytes: &mut [u8]| {
        board.tables.block_part(PoolNo(pool), block, bytes).len()
    };
    assert_eq!(part(&board, 0, 0, &mut bytes), 16);
    assert_eq!(part(&board, 0, 0, &mut bytes[..100]), 16);
    assert_eq!(part(&board, 0, 0, &mut bytes[..99]), 0);
    for (pool, block) in [(0, 1), (0, 5), (0, 0xFFFF_FFFF), (1, 0), (4, 0), (0xFFFF_FFFF, 0)] {
        assert_eq!(part(&board, pool, block, &mut bytes), 0);
    }
    board.tables.running = Link::to(3);
    assert_eq!(part(&board, 0, 0, &mut bytes), 0);
}

#[test]
fn prioritise_takes_the_first_of_the_best_and_nothing_else() {
    // Priorities in line order; which waiter comes to the front.
    let cases: [(&[u32], &[usize]); 4] =
        [(&[3, 2, 1, 2], &[2, 0, 1, 3]), (&[1, 1, 1], &[0, 1, 2]), (&[9], &[0]), (&[], &[])];
    for (priorities, line) in cases {
        let mut board = Board::new();
        board.ok(STARTUP, 33, &[0, 4, 8]);
        board.ok(STARTUP, 35, &[0, 0]);
        for (thread, &priority) in priorities.iter().enumerate() {
            board.thread(thread as u32, priority);
            board.wait(35, &[0, FOREVER]);
        }
        board.ok(INTERRUPT, 37, &[0]);
        assert_eq!(board.pool_line(0), line);
    }
}

#[test]
fn unused_arguments_are_ignored() {
    let junk = 0xDEAD_BEEF;
    let mut board = threads(1);
    board.ok(STARTUP, 16, &[0, 2, junk, junk]);
    board.ok(THREAD, 18, &[0, 0, junk, junk]);
    board.ok(INTERRUPT, 19, &[0, junk, junk, junk]);
    board.ok(INTERRUPT, 13, &[junk, junk, junk, junk]);
    board.ok(THREAD, 8, &[junk, junk, junk, junk]);
}
