//! The library against the ordinary kernel: every result and the whole tables
//! after each call, and runs against single calls.

use apachimo::{Board, Reply, Status};
use ordinary::{print, Outcome, Record, Tables, Tape};

/// A small deterministic random number generator (SplitMix64).
struct Rng(u64);

impl Rng {
    fn below(&mut self, bound: u32) -> u32 {
        self.0 = self.0.wrapping_add(0x9E37_79B9_7F4A_7C15);
        let mut z = self.0;
        z = (z ^ (z >> 30)).wrapping_mul(0xBF58_476D_1CE4_E5B9);
        z = (z ^ (z >> 27)).wrapping_mul(0x94D0_49BB_1331_11EB);
        z ^= z >> 31;
        (((z >> 32) * u64::from(bound)) >> 32) as u32
    }

    /// One of the numbers, each as likely.
    fn pick(&mut self, numbers: &[u32]) -> u32 {
        numbers[self.below(numbers.len() as u32) as usize]
    }
}

/// A start with threads and objects, so that most calls find something.
fn set_up(rng: &mut Rng) -> Vec<Record> {
    let mut records = Vec::new();
    let mut add = |call, args| records.push(Record { call, caller: 0, args });
    for thread in 0..4 + rng.below(28) {
        let priority = rng.below(4) * 5;
        add(1, [thread, priority, rng.pick(&[priority, 0]), rng.pick(&[0, 1, 1, 1])]);
    }
    for number in 0..2 {
        let size = 1 + rng.below(4);
        add(16, [number, rng.below(2), 0, 0]);
        add(22, [number, size, size * (1 + rng.below(3)) + rng.below(size), 0]);
        add(29, [number, 0, 0, 0]);
        let bytes = 4 * (1 + rng.below(4));
        add(33, [number, bytes, (bytes + 4) * (1 + rng.below(3)), 0]);
    }
    records
}

/// A call with arguments that mostly mean something.
fn random_record(rng: &mut Rng) -> Record {
    const WAITS: [u32; 5] = [0, 1, 3, u32::MAX, u32::MAX];
    let waits = [18, 24, 25, 26, 32, 35];
    let call = if rng.below(2) == 0 { rng.pick(&waits) } else { rng.below(41) };
    let caller = match call {
        15 => 1,
        _ => rng.pick(&[2, 2, 2, 2, 1, 0]),
    };
    let small = rng.pick(&[0, 0, 1, 1, 2]);
    let args = match call {
        1..=6 | 10 | 38 | 39 => {
            [rng.below(33), rng.below(33), rng.below(33), rng.pick(&[0, 1, 1, 2])]
        }
        11 | 12 => [rng.below(33), rng.below(33), 0, 0],
        9 => [rng.below(4), 0, 0, 0],
        14 => [rng.pick(&[0, 7, u32::MAX]), 0, 0, 0],
        18 | 26 | 35 => [small, rng.pick(&WAITS), 0, 0],
        24 | 25 => [small, rng.pick(&WAITS), rng.below(24), 0],
        31 => [small, 1 << rng.below(4), rng.pick(&[0, 0, 0, 2, 1]), 0],
        32 => [small, 1 + rng.below(15), rng.below(5), rng.pick(&WAITS)],
        _ => [small, rng.below(5), rng.below(40), 0],
    };
    Record { call, caller, args }
}

fn random_tape(seed: u64) -> Tape {
    let mut rng = Rng(seed);
    let mut records = set_up(&mut rng);
    records.extend((0..150).map(|_| random_record(&mut rng)));
    let words = (0..24).map(|_| rng.below(1000)).collect();
    Tape { records, words }
}

/// The ordinary kernel's outcome as a reply.
fn reply_of(outcome: &Outcome) -> Reply {
    Reply {
        status: Status::try_from(outcome.status.0).unwrap(),
        words: outcome.words,
        next: outcome.next.map(|thread| apachimo::Thread(thread.0)),
        ended: outcome.ended,
    }
}

fn printed(tables: &Tables) -> String {
    let mut out = String::new();
    print::tables(&mut out, tables);
    out
}

/// Runs a tape call by call on both sides; gives how many calls were carried out.
fn assert_calls_agree(tape: &Tape) -> usize {
    let mut board = Board::new();
    let mut tables = Tables::new();
    let mut carried_out = 0;
    assert_eq!(board.tables().to_string(), printed(&tables));
    for (index, &Record { call, caller, args }) in tape.records.iter().enumerate() {
        let before = board.clone();
        let reply = board.call_numbered(call, caller, args, &tape.words);
        let outcome = tables.call_numbered(call, caller, args, &tape.words);
        assert_eq!(reply, reply_of(&outcome), "record {index}: {call} {caller} {args:?}");
        assert_eq!(board.tables().to_string(), printed(&tables), "record {index}");
        assert!(reply.status.is_carried_out() || board == before, "record {index}");
        carried_out += usize::from(reply.status.is_carried_out());
    }
    assert!(board.is_sound());
    carried_out
}

#[test]
fn results_and_tables_agree_on_random_tapes() {
    let (mut carried_out, mut all) = (0, 0);
    for seed in 0..150 {
        let tape = random_tape(seed);
        carried_out += assert_calls_agree(&tape);
        all += tape.records.len();
    }
    // Neither nearly all carried out nor nearly all refused.
    assert!(carried_out * 10 > all * 3 && carried_out * 10 < all * 9, "{carried_out} of {all}");
}

#[test]
fn runs_agree_with_single_calls() {
    for seed in 1000..1030 {
        let tape = random_tape(seed);
        let bytes = tape.encode();
        let mut single = Board::new();
        let mut replies = Vec::new();
        for &Record { call, caller, args } in &tape.records {
            replies.push(single.call_numbered(call, caller, args, &tape.words));
        }
        let mut board = Board::new();
        let run = board.run(&bytes, u32::MAX);
        assert_eq!(run.status, Status::Success);
        assert_eq!(run.replies, replies);
        assert_eq!(board, single);
    }
}

#[test]
fn a_limited_run_stops_there() {
    let tape = random_tape(77);
    let (bytes, count) = (tape.encode(), tape.records.len());
    for most in [0, 1, 17, count - 1, count, count + 1] {
        let carried = most.min(count);
        let mut single = Board::new();
        for &Record { call, caller, args } in &tape.records[..carried] {
            single.call_numbered(call, caller, args, &tape.words);
        }
        let mut board = Board::new();
        assert_eq!(board.run(&bytes, most as u32).replies.len(), carried);
        assert_eq!(board, single, "most {most}");
    }
}
