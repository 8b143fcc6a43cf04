//! A short fixed fuzz of the ordinary kernel against its own checks.

use board_tools::check::Tally;
use board_tools::ended::Reason;
use board_tools::fuzz::{fuzz, tape_seed, Options};
use board_tools::generate::generate;
use ordinary::{Record, State, Status, Tables};
use std::collections::BTreeMap;

fn short_fuzz(seed: u64, count: u64, records: usize) -> Tally {
    let options = Options { seed, from: 0, count, records, proved: None };
    match fuzz(&options, &mut |_, _| {}).unwrap() {
        Ok(tally) => tally,
        Err(found) => panic!("tape {}: {}\n{:?}", found.number, found.what, found.tape),
    }
}

#[test]
fn checks_hold_after_every_call() {
    short_fuzz(1, 1500, 300);
}

#[test]
fn checks_hold_on_long_tapes() {
    short_fuzz(2, 60, 2048);
}

#[test]
fn every_call_is_carried_out_and_refused() {
    let tally = short_fuzz(3, 300, 300);
    assert_eq!(tally.records, 90_000);
    for (call, &(done, refused)) in tally.by_call.iter().enumerate().skip(1) {
        assert!(done >= 30, "call {call} carried out {done} times");
        assert!(refused > 0, "call {call} refused {refused} times");
    }
    assert!(tally.longest_line >= 15, "longest line {}", tally.longest_line);
    assert!(tally.ended() >= 5_000, "{} waits ended", tally.ended());
    for state in [State::Semaphore, State::Queue, State::Flags, State::Block] {
        for reason in [Reason::Served, Reason::TimedOut, Reason::Aborted, Reason::Deleted] {
            let ended = tally.ended_by(state, reason);
            assert!(ended >= 30, "{ended} waits in {state:?} ended by {reason:?}");
        }
    }
}

/// What a call of a pool, or a call about one of its waiters, may meet: a
/// name, and whether it is met.
fn pool_cases(
    before: &Tables,
    record: &Record,
    status: Status,
    after: &Tables,
) -> Vec<(&'static str, bool)> {
    let [number, first, second, _] = record.args;
    let done = |call| record.call == call && status == Status::SUCCESS;
    if [4, 5, 10].contains(&record.call) {
        let waits = before.threads.get(number as usize).map(|thread| thread.state);
        let met = |call| done(call) && waits == Some(State::Block);
        return vec![
            ("suspend of a waiter", met(4)),
            ("terminate of a waiter", met(5)),
            ("abort of a waiter", met(10)),
        ];
    }
    let (Some(pool), Some(pool_after)) =
        (before.pools.get(number as usize), after.pools.get(number as usize))
    else {
        return Vec::new();
    };
    let blocks = pool.blocks as u32;
    let waiters = pool.line.iter(&before.threads).count();
    let refused = |call, with| record.call == call && status == Status(with);
    let fitting = (4..=256).contains(&first) && first % 4 == 0;
    vec![
        ("create, 1 block", done(33) && pool_after.blocks == 1),
        ("create, 64 blocks", done(33) && pool_after.blocks == 64),
        ("create, 65 blocks", refused(33, 5) && fitting && second / (first + 4) == 65),
        ("create, 257 blocks", refused(33, 5) && fitting && second / (first + 4) == 257),
        ("create, no block", refused(33, 5) && fitting && second < first + 4),
        ("create, total near 2^32", refused(33, 5) && fitting && second >= u32::MAX - 7),
        ("create, block near 2^32", refused(33, 5) && first >= u32::MAX - 3),
        ("create, both near 2^32", refused(33, 5) && first.min(second) >= u32::MAX - 7),
        ("delete with waiters", done(34) && waiters > 1),
        ("allocate served at once", done(35)),
        ("allocate that waits", record.call == 35 && status == Status::WAITING),
        ("allocate behind a waiter", waiters > 0 && record.call == 35 && status == Status::WAITING),
        ("allocate refused", refused(35, 0x10)),
        ("allocate refused, others wait", refused(35, 0x10) && waiters > 0),
        ("release that serves", done(36) && waiters > 0),
        ("release that frees", done(36) && waiters == 0),
        ("release of a free block", refused(36, 3) && first < blocks),
        ("release one past the last", refused(36, 3) && first == blocks),
        ("release of block 64", refused(36, 3) && first == 64),
        ("release past a byte", refused(36, 3) && first >= 256 && first % 256 < blocks),
        ("release of block 2^32 - 1", refused(36, 3) && first == u32::MAX),
        ("release refused, others wait", refused(36, 3) && waiters > 0),
        ("prioritise that moves", done(37) && pool.line.first != pool_after.line.first),
        ("prioritise that moves nobody", done(37) && waiters > 1 && pool.line == pool_after.line),
    ]
}

/// What a call of a semaphore may meet, mostly at and next to the largest
/// count: a name, and whether it is met.
fn semaphore_cases(
    before: &Tables,
    record: &Record,
    status: Status,
    after: &Tables,
) -> Vec<(&'static str, bool)> {
    let [number, argument, ..] = record.args;
    let (Some(semaphore), Some(semaphore_after)) =
        (before.semaphores.get(number as usize), after.semaphores.get(number as usize))
    else {
        return Vec::new();
    };
    let largest = semaphore.count == u32::MAX;
    let done = |call| record.call == call && status == Status::SUCCESS;
    let refused = |call, with| record.call == call && status == Status(with);
    let put_refused = largest && refused(19, 0x21);
    vec![
        ("create, the largest count", done(16) && argument == u32::MAX),
        ("put to the largest count", done(19) && semaphore_after.count == u32::MAX),
        ("put refused, start-up", put_refused && record.caller == 0),
        ("put refused, interrupt", put_refused && record.caller == 1),
        ("put refused, thread", put_refused && record.caller == 2),
        ("put that serves", done(19) && !semaphore.line.is_empty()),
        ("ceiling put to the largest count", done(20) && semaphore_after.count == u32::MAX),
        ("ceiling put refused, the largest count", largest && refused(20, 0x21)),
        ("ceiling put refused, smaller", !largest && refused(20, 0x21)),
        ("get from the largest count", largest && done(18)),
        ("prioritise, the largest count", largest && done(21)),
    ]
}

/// What a priority change may meet: of a runner, of a marked thread, of a
/// thread that is not ready, and why it may be refused.
fn priority_cases(
    before: &Tables,
    record: &Record,
    status: Status,
    after: &Tables,
) -> Vec<(&'static str, bool)> {
    if record.call != 11 {
        return Vec::new();
    }
    let [number, priority, ..] = record.args;
    let refused = |with| status == Status(with);
    let mut cases = vec![
        ("refused, number", refused(0x0E)),
        ("refused, priority 32", refused(0x0F) && priority == 32),
        ("refused, priority past a byte", refused(0x0F) && priority > 255),
        ("refused, caller", refused(0x13) && priority < 32),
    ];
    if status != Status::SUCCESS {
        return cases;
    }
    let (thread, at) = (&before.threads[number as usize], number as usize);
    let (old, new) = (thread.priority as u32, priority);
    let runner = before.running.index() == Some(at);
    let stays = runner && after.running.index() == Some(at);
    let goes = runner && !stays;
    let equal = after.ready[priority as usize].iter(&after.threads).count() > 1;
    let low = (thread.threshold as u32) < old;
    cases.extend([
        ("same priority", old == new),
        ("same priority, low threshold", old == new && low),
        ("lowered runner gives way", goes && new > old && !low),
        ("lowered runner with a low threshold gives way", goes && new > old && low),
        ("lowered runner goes on", stays && new > old),
        ("lowered runner goes on beside an equal", stays && new > old && equal),
        ("raised runner gives way", goes && new < old),
        ("raised runner goes on", stays && new < old),
        ("a mark ends", before.marked >> at & 1 == 1),
        ("another one overtakes", !runner && after.running.index() == Some(at)),
        ("of a waiter", thread.state.is_blocked()),
        ("of a suspended thread", thread.state == State::Suspended),
        ("of a finished thread", thread.state.is_finished()),
    ]);
    cases
}

/// The cases of a call by name, and whether it meets them, from the tables
/// before and after it.
type Cases = fn(&Tables, &Record, Status, &Tables) -> Vec<(&'static str, bool)>;

/// Counts the cases that generated tapes meet; each must be met several times.
fn meets_every_case(seed: u64, cases: Cases) {
    let mut seen: BTreeMap<&str, u32> = BTreeMap::new();
    for number in 0..300 {
        let mut before = Tables::new();
        generate(tape_seed(seed, number), 300).run(
            &mut Tables::new(),
            u32::MAX,
            |_, record, outcome, after| {
                for (name, met) in cases(&before, record, outcome.status, after) {
                    *seen.entry(name).or_default() += met as u32;
                }
                before = after.clone();
            },
        );
    }
    assert!(!seen.is_empty());
    for (name, times) in &seen {
        assert!(*times >= 5, "{name}: met {times} times in {seen:?}");
    }
}

#[test]
fn calls_of_pools_meet_every_case() {
    meets_every_case(6, pool_cases);
}

#[test]
fn calls_of_semaphores_meet_every_case() {
    meets_every_case(8, semaphore_cases);
}

#[test]
fn priority_changes_meet_every_case() {
    meets_every_case(9, priority_cases);
}

#[test]
fn the_same_seed_gives_the_same_tape() {
    let seed = tape_seed(7, 3);
    assert_eq!(generate(seed, 300), generate(seed, 300));
    assert_ne!(generate(seed, 300), generate(tape_seed(7, 4), 300));
}
