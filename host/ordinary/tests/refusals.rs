//! Refusals: the order of every call's refusals, over every combination.

mod common;
use common::*;
use ordinary::{Link, Status};

/// A call, the tables it meets and the lent words.
#[derive(Clone)]
struct Case {
    board: Board,
    number: u32,
    caller: u32,
    args: [u32; 4],
}

/// Makes one refusal's condition hold.
type Breaker = (u32, fn(&mut Case));

/// Tables with something of every kind:
/// threads 0 (runs) and 1 ready, 2 suspended, 3 completed, 4 terminated,
/// 5 asleep, 6 waiting on semaphore 1, 7 waiting with a held suspension;
/// semaphore 0 with count 3; queue 0 of two-word messages with room and one
/// message, queue 1 empty, queue 2 full; group 0 with flags 1; pool 0 with
/// one used block, pool 1 with none free.
fn furnished() -> Board {
    let mut board = Board::new();
    board.ok(STARTUP, 16, &[0, 3]);
    board.ok(STARTUP, 16, &[1, 0]);
    board.thread(3, 1);
    board.ok(THREAD, 7, &[]);
    board.thread(4, 1);
    board.ok(THREAD, 5, &[4]);
    board.thread(5, 1);
    board.wait(9, &[100]);
    for thread in [6, 7] {
        board.thread(thread, 1);
        board.wait(18, &[1, FOREVER]);
    }
    board.ok(STARTUP, 4, &[7]);
    board.ok(STARTUP, 1, &[2, 15, 15, 0]);
    board.thread(0, 10);
    board.thread(1, 20);
    for (queue, size, storage) in [(0, 2, 4), (1, 2, 2), (2, 2, 2)] {
        board.ok(STARTUP, 22, &[queue, size, storage]);
    }
    board.ok(STARTUP, 24, &[0, 0, 0]);
    board.ok(STARTUP, 24, &[2, 0, 0]);
    board.ok(STARTUP, 29, &[0]);
    board.ok(STARTUP, 31, &[0, 1, 0]);
    board.ok(STARTUP, 33, &[0, 16, 100]);
    board.ok(STARTUP, 33, &[1, 4, 8]);
    board.ok(STARTUP, 35, &[0, 0]);
    board.ok(STARTUP, 35, &[1, 0]);
    assert_eq!(board.runner(), Some(0));
    board
}

fn unsound(case: &mut Case) {
    case.board.tables.marked |= 1 << 31;
}

fn unknown_caller(case: &mut Case) {
    case.caller = 3;
}

fn nobody_runs(case: &mut Case) {
    case.caller = THREAD;
    for thread in [0, 1] {
        // Already suspended when another breaker did it.
        case.board.call(INTERRUPT, 4, &[thread]);
    }
    assert_eq!(case.board.runner(), None);
}

fn by_interrupt(case: &mut Case) {
    case.caller = INTERRUPT;
}

fn by_startup(case: &mut Case) {
    case.caller = STARTUP;
}

/// Semaphore 0, on which nobody waits, has the largest count.
fn largest_count(case: &mut Case) {
    case.board.tables.semaphores[0].count = 0xFFFF_FFFF;
}

fn out_of_range(case: &mut Case) {
    case.args[0] = 0xFFFF_FFFF;
}

/// Tries every combination of broken conditions: the first must be answered,
/// and with none broken the call must be carried out.
fn try_all(number: u32, caller: u32, args: [u32; 4], own: &[Breaker]) {
    let general: [Breaker; 3] = [(0x100, unsound), (0x104, unknown_caller), (0x102, nobody_runs)];
    let breakers: Vec<Breaker> = general.iter().chain(own).copied().collect();
    for subset in 0..1u32 << breakers.len() {
        let mut case = Case { board: furnished(), number, caller, args };
        let chosen = (0..breakers.len()).filter(|&at| subset >> at & 1 == 1);
        // Later rows first, so that an earlier one has the last word on
        // what both of them change.
        for at in chosen.clone().rev() {
            (breakers[at].1)(&mut case);
        }
        let expected = chosen.clone().next().map(|at| breakers[at].0);
        let outcome = case.board.call(case.caller, case.number, &case.args);
        match expected {
            Some(status) => assert_eq!(
                outcome.status,
                Status(status),
                "call {number}, broken {:x?}",
                chosen.map(|at| breakers[at].0).collect::<Vec<_>>()
            ),
            None => assert!(outcome.status.is_carried_out(), "call {number}: {outcome:?}"),
        }
    }
}

impl Case {
    fn arg(&mut self, at: usize, value: u32) {
        self.args[at] = value;
    }
}

#[test]
fn thread_create() {
    let own: [Breaker; 5] = [
        (0x0E, out_of_range),
        (0x0F, |case| case.arg(1, 32)),
        (0x18, |case| case.arg(2, 33)),
        (0x10, |case| case.arg(3, 2)),
        (0x13, by_interrupt),
    ];
    for caller in [STARTUP, THREAD] {
        try_all(1, caller, [8, 31, 31, 1], &own);
    }
    let taken: [Breaker; 2] = [(0x0E, |case| case.arg(0, 3)), (0x13, by_interrupt)];
    try_all(1, STARTUP, [8, 31, 31, 1], &taken);
}

#[test]
fn thread_delete() {
    for wrong in [by_interrupt, by_startup] {
        for present in [0u32, 2, 5, 6] {
            let not_done: fn(&mut Case) = match present {
                0 => |case| case.arg(0, 0),
                2 => |case| case.arg(0, 2),
                5 => |case| case.arg(0, 5),
                _ => |case| case.arg(0, 6),
            };
            let own: [Breaker; 3] = [(0x0E, out_of_range), (0x13, wrong), (0x11, not_done)];
            try_all(2, THREAD, [3, 0, 0, 0], &own);
            try_all(2, THREAD, [4, 0, 0, 0], &own);
        }
    }
}

#[test]
fn thread_resume() {
    for caller in [STARTUP, INTERRUPT, THREAD] {
        for thread in [2, 7] {
            try_all(
                3,
                caller,
                [thread, 0, 0, 0],
                &[(0x0E, out_of_range), (0x12, |case| case.arg(0, 6))],
            );
        }
    }
    for thread in [0, 1, 3, 4, 5, 6] {
        furnished().refused(INTERRUPT, 3, &[thread], 0x12);
    }
}

#[test]
fn thread_suspend() {
    for caller in [STARTUP, INTERRUPT, THREAD] {
        let own: [Breaker; 2] = [(0x0E, out_of_range), (0x14, |case| case.arg(0, 3))];
        for thread in [0, 1, 2, 5, 6, 7] {
            try_all(4, caller, [thread, 0, 0, 0], &own);
        }
    }
    furnished().refused(INTERRUPT, 4, &[4], 0x14);
}

#[test]
fn thread_terminate() {
    for wrong in [by_interrupt, by_startup] {
        for thread in 0..8 {
            try_all(5, THREAD, [thread, 0, 0, 0], &[(0x0E, out_of_range), (0x13, wrong)]);
        }
    }
}

#[test]
fn thread_reset() {
    for wrong in [by_interrupt, by_startup] {
        let own: [Breaker; 3] =
            [(0x0E, out_of_range), (0x13, wrong), (0x20, |case| case.arg(0, 2))];
        for thread in [3, 4] {
            try_all(6, THREAD, [thread, 0, 0, 0], &own);
        }
    }
    for thread in [0, 1, 2, 5, 6, 7] {
        furnished().refused(THREAD, 6, &[thread], 0x20);
    }
}

#[test]
fn finish_relinquish_and_sleep() {
    for number in [7, 8, 9] {
        for wrong in [by_interrupt, by_startup] {
            try_all(number, THREAD, [5, 0, 0, 0], &[(0x13, wrong)]);
        }
    }
}

#[test]
fn wait_abort() {
    for caller in [STARTUP, INTERRUPT, THREAD] {
        for thread in [5, 6, 7] {
            let own: [Breaker; 2] = [(0x0E, out_of_range), (0x1B, |case| case.arg(0, 2))];
            try_all(10, caller, [thread, 0, 0, 0], &own);
        }
    }
    for thread in [0, 1, 2, 3, 4] {
        furnished().refused(INTERRUPT, 10, &[thread], 0x1B);
    }
}

#[test]
fn priority_and_preemption_change() {
    for wrong in [by_interrupt, by_startup] {
        for thread in 0..8 {
            let own: [Breaker; 3] =
                [(0x0E, out_of_range), (0x0F, |case| case.arg(1, 32)), (0x13, wrong)];
            try_all(11, THREAD, [thread, 31, 0, 0], &own);
            let own: [Breaker; 3] =
                [(0x0E, out_of_range), (0x18, |case| case.arg(1, 21)), (0x13, wrong)];
            try_all(12, THREAD, [thread, 0, 0, 0], &own);
        }
    }
}

#[test]
fn clock() {
    for caller in [STARTUP, INTERRUPT, THREAD] {
        try_all(13, caller, [0xFFFF_FFFF; 4], &[]);
        try_all(14, caller, [0xFFFF_FFFF; 4], &[]);
    }
    try_all(15, INTERRUPT, [0xFFFF_FFFF; 4], &[(0x13, by_startup)]);
    furnished().refused(THREAD, 15, &[], 0x13);
}

#[test]
fn semaphores() {
    for caller in [STARTUP, THREAD] {
        try_all(16, caller, [2, 7, 0, 0], &[(0x0C, out_of_range), (0x13, by_interrupt)]);
        let taken: [Breaker; 2] = [(0x0C, |case| case.arg(0, 1)), (0x13, by_interrupt)];
        try_all(16, caller, [2, 7, 0, 0], &taken);
    }
    for wrong in [by_interrupt, by_startup] {
        try_all(17, THREAD, [1, 0, 0, 0], &[(0x0C, out_of_range), (0x13, wrong)]);
        // 0x04 holds although the semaphore has instances.
        let own: [Breaker; 2] = [(0x0C, out_of_range), (0x04, wrong)];
        try_all(18, THREAD, [0, 1, 0, 0], &own);
    }
    for caller in [STARTUP, INTERRUPT, THREAD] {
        let none: [Breaker; 2] = [(0x0C, out_of_range), (0x0D, |case| case.arg(0, 1))];
        try_all(18, caller, [0, 0, 0, 0], &none);
        let put: [Breaker; 2] = [(0x0C, out_of_range), (0x21, largest_count)];
        try_all(19, caller, [0, 0, 0, 0], &put);
        try_all(19, caller, [1, 0, 0, 0], &[(0x0C, out_of_range)]);
        let ceiling: [Breaker; 3] =
            [(0x0C, out_of_range), (0x22, |case| case.arg(1, 0)), (0x21, |case| case.arg(1, 3))];
        try_all(20, caller, [0, 4, 0, 0], &ceiling);
        try_all(21, caller, [1, 0, 0, 0], &[(0x0C, out_of_range)]);
    }
    // At the largest count only the two puts are refused for it.
    let mut board = furnished();
    board.tables.semaphores[0].count = 0xFFFF_FFFF;
    for caller in [STARTUP, INTERRUPT, THREAD] {
        board.refused(caller, 19, &[0], 0x21);
        board.refused(caller, 20, &[0, 0xFFFF_FFFF], 0x21);
        board.refused(caller, 20, &[0, 0], 0x22);
        board.ok(caller, 21, &[0]);
    }
    board.ok(INTERRUPT, 18, &[0, 0]);
    board.ok(INTERRUPT, 20, &[0, 0xFFFF_FFFF]);
    board.ok(THREAD, 17, &[0]);
    let mut board = furnished();
    board.refused(INTERRUPT, 18, &[1, 1], 0x04);
    board.refused(THREAD, 18, &[2, 1], 0x0C);
}

#[test]
fn queues() {
    for caller in [STARTUP, THREAD] {
        let own: [Breaker; 3] =
            [(0x09, out_of_range), (0x05, |case| case.arg(1, 17)), (0x13, by_interrupt)];
        try_all(22, caller, [3, 16, 64, 0], &own);
        let taken: [Breaker; 3] =
            [(0x09, |case| case.arg(0, 2)), (0x05, |case| case.arg(2, 65)), (0x13, by_interrupt)];
        try_all(22, caller, [3, 16, 64, 0], &taken);
    }
    for wrong in [by_interrupt, by_startup] {
        try_all(23, THREAD, [2, 0, 0, 0], &[(0x09, out_of_range), (0x13, wrong)]);
        for number in [24, 25] {
            // 0x04 holds although there is room.
            let own: [Breaker; 3] =
                [(0x09, out_of_range), (0x03, |case| case.arg(2, 39)), (0x04, wrong)];
            try_all(number, THREAD, [0, 1, 38, 0], &own);
        }
        try_all(26, THREAD, [0, 1, 0, 0], &[(0x09, out_of_range), (0x04, wrong)]);
    }
    for caller in [STARTUP, INTERRUPT, THREAD] {
        for number in [24, 25] {
            let full: [Breaker; 3] = [
                (0x09, out_of_range),
                (0x03, |case| case.arg(2, 0xFFFF_FFFF)),
                (0x0B, |case| case.arg(0, 2)),
            ];
            try_all(number, caller, [0, 0, 38, 0], &full);
        }
        let empty: [Breaker; 2] = [(0x09, out_of_range), (0x0A, |case| case.arg(0, 1))];
        try_all(26, caller, [0, 0, 0, 0], &empty);
        for number in [27, 28] {
            try_all(number, caller, [2, 0, 0, 0], &[(0x09, out_of_range)]);
        }
    }
    // 0x04 holds too where the call could not be served at once.
    let mut board = furnished();
    for caller in [STARTUP, INTERRUPT] {
        for wait in [1, FOREVER] {
            board.refused(caller, 24, &[2, wait, 0], 0x04);
            board.refused(caller, 25, &[2, wait, 0], 0x04);
            board.refused(caller, 26, &[1, wait], 0x04);
        }
    }
}

#[test]
fn a_send_to_a_waiting_receiver_is_refused_like_any_other() {
    for number in [24, 25] {
        let mut board = furnished();
        board.wait(26, &[1, FOREVER]);
        board.refused(INTERRUPT, number, &[1, 1, 39], 0x03);
        board.refused(INTERRUPT, number, &[1, 0, 39], 0x03);
        board.refused(INTERRUPT, number, &[1, 1, 38], 0x04);
        assert_eq!(board.queue_line(1), [0]);
        assert_eq!(board.ok(INTERRUPT, number, &[1, 0, 38]).ended, 1);
    }
}

#[test]
fn queue_sizes() {
    let mut board = Board::new();
    let bad = [
        (0, 1),
        (0, 0),
        (0, 64),
        (17, 17),
        (17, 64),
        (1, 0),
        (1, 65),
        (3, 2),
        (4, 3),
        (16, 15),
        (0xFFFF_FFFF, 64),
        (1, 0xFFFF_FFFF),
        (0xFFFF_FFFF, 0xFFFF_FFFF),
        // In bounds if only their last byte counted.
        (0x104, 64),
        (4, 0x140),
    ];
    for (size, storage) in bad {
        board.refused(STARTUP, 22, &[0, size, storage], 0x05);
    }
    for (number, (size, storage)) in [(1, 1), (16, 16), (16, 64), (1, 64)].iter().enumerate() {
        board.ok(STARTUP, 22, &[number as u32, *size, *storage]);
    }
}

#[test]
fn groups() {
    for caller in [STARTUP, THREAD] {
        try_all(29, caller, [1, 0, 0, 0], &[(0x06, out_of_range), (0x13, by_interrupt)]);
        let taken: [Breaker; 2] = [(0x06, |case| case.arg(0, 0)), (0x13, by_interrupt)];
        try_all(29, caller, [1, 0, 0, 0], &taken);
    }
    for wrong in [by_interrupt, by_startup] {
        try_all(30, THREAD, [0, 0, 0, 0], &[(0x06, out_of_range), (0x13, wrong)]);
        // 0x04 holds although the flags are there.
        let own: [Breaker; 3] =
            [(0x06, out_of_range), (0x08, |case| case.arg(2, 4)), (0x04, wrong)];
        try_all(32, THREAD, [0, 1, 3, 1], &own);
    }
    for caller in [STARTUP, INTERRUPT, THREAD] {
        for option in [0, 2] {
            let own: [Breaker; 2] = [(0x06, out_of_range), (0x08, |case| case.arg(2, 1))];
            try_all(31, caller, [0, 1, option, 0], &own);
        }
        for option in 0..4 {
            let own: [Breaker; 3] = [
                (0x06, out_of_range),
                (0x08, |case| case.arg(2, 0xFFFF_FFFF)),
                (0x07, |case| case.arg(1, 6)),
            ];
            try_all(32, caller, [0, 1, option, 0], &own);
        }
    }
    for option in [1, 3, 4, 0x100, 0x102, 0xFFFF_FFFF] {
        furnished().refused(INTERRUPT, 31, &[0, 1, option], 0x08);
    }
    for option in [4, 0x100, 0x103, 0xFFFF_FFFF] {
        furnished().refused(INTERRUPT, 32, &[0, 1, option, 0], 0x08);
    }
    // 0x04 holds too where the flags are not there.
    for caller in [STARTUP, INTERRUPT] {
        for wait in [1, FOREVER] {
            furnished().refused(caller, 32, &[0, 6, 0, wait], 0x04);
        }
    }
}

#[test]
fn pools() {
    for caller in [STARTUP, THREAD] {
        let own: [Breaker; 3] =
            [(0x02, out_of_range), (0x05, |case| case.arg(1, 6)), (0x13, by_interrupt)];
        try_all(33, caller, [2, 8, 100, 0], &own);
        let taken: [Breaker; 3] =
            [(0x02, |case| case.arg(0, 1)), (0x05, |case| case.arg(2, 11)), (0x13, by_interrupt)];
        try_all(33, caller, [2, 8, 100, 0], &taken);
    }
    for wrong in [by_interrupt, by_startup] {
        try_all(34, THREAD, [1, 0, 0, 0], &[(0x02, out_of_range), (0x13, wrong)]);
        // 0x04 holds although there is a free block.
        try_all(35, THREAD, [0, 1, 0, 0], &[(0x02, out_of_range), (0x04, wrong)]);
    }
    for caller in [STARTUP, INTERRUPT, THREAD] {
        let none: [Breaker; 2] = [(0x02, out_of_range), (0x10, |case| case.arg(0, 1))];
        try_all(35, caller, [0, 0, 0, 0], &none);
        for bad in [|case: &mut Case| case.arg(1, 1), |case: &mut Case| case.arg(1, 0x100)] {
            try_all(36, caller, [0, 0, 0, 0], &[(0x02, out_of_range), (0x03, bad)]);
        }
        try_all(37, caller, [1, 0, 0, 0], &[(0x02, out_of_range)]);
    }
    furnished().refused(INTERRUPT, 35, &[1, 1], 0x04);
}

#[test]
fn pool_sizes() {
    let mut board = Board::new();
    let bad = [
        (0, 100),
        (3, 100),
        (6, 100),
        (260, 1000),
        (0xFFFF_FFFC, 0xFFFF_FFFF),
        (4, 7),
        (4, 0xFFFF_FFFF),
        (4, 65 * 8),
        (256, 259),
        (256, 65 * 260),
    ];
    for (block, total) in bad {
        board.refused(STARTUP, 33, &[0, block, total], 0x05);
    }
    let good = [(4, 8, 1), (4, 65 * 8 - 1, 64), (256, 260, 1), (256, 65 * 260 - 1, 64)];
    for (number, (block, total, blocks)) in good.into_iter().enumerate() {
        board.ok(STARTUP, 33, &[number as u32, block, total]);
        assert_eq!(board.tables.pools[number].blocks, blocks);
    }
}

#[test]
fn reads() {
    for caller in [STARTUP, INTERRUPT, THREAD] {
        for number in [38, 39] {
            for thread in 0..8 {
                try_all(number, caller, [thread, 0, 0, 0], &[(0x0E, out_of_range)]);
            }
        }
    }
}

#[test]
fn unknown_calls() {
    for number in [0, 40, 41, 0x8000_0001, 0xFFFF_FFFF] {
        let mut board = furnished();
        board.refused(THREAD, number, &[0, 0, 0, 0], 0x104);
        // Unknown comes before "nobody runs".
        let mut nobody = Board::new();
        nobody.refused(THREAD, number, &[0, 0, 0, 0], 0x104);
    }
    for number in 1..40 {
        furnished().refused(3, number, &[0, 0, 0, 0], 0x104);
        furnished().refused(0xFFFF_FFFF, number, &[0, 0, 0, 0], 0x104);
        Board::new().refused(THREAD, number, &[0, 0, 0, 0], 0x102);
    }
}

#[test]
fn uncreated_numbers_are_refused_like_those_out_of_range() {
    let numbered = [
        (0x0E, &[2, 3, 4, 5, 6, 10, 11, 12, 38, 39][..], 30, 32),
        (0x0C, &[17, 18, 19, 20, 21], 15, 16),
        (0x09, &[23, 24, 25, 26, 27, 28], 7, 8),
        (0x06, &[30, 31, 32], 7, 8),
        (0x02, &[34, 35, 36, 37], 3, 4),
    ];
    for (status, calls, uncreated, beyond) in numbered {
        for &number in calls {
            for object in [uncreated, beyond, 0x100, 0xFFFF_FFFF] {
                furnished().refused(THREAD, number, &[object, 0, 0, 0], status);
            }
        }
    }
}

#[test]
fn unsound_tables_answer_0x100_to_everything() {
    for number in 0..42 {
        for caller in 0..4 {
            let mut board = furnished();
            board.tables.running = Link::NONE;
            board.refused(caller, number, &[0, 0, 0, 0], 0x100);
        }
    }
}
