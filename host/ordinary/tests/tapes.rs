//! The tape: decoding, refusal, runs with a limit, and the printed forms.

use ordinary::tape::{run, MAX_RECORDS, MAX_WORDS};
use ordinary::{print, Link, Record, Status, Tables, Tape};

fn record(call: u32, caller: u32, args: [u32; 4]) -> Record {
    Record { call, caller, args }
}

/// The tape `tapes/example.tape`.
fn example() -> Tape {
    Tape {
        records: vec![
            record(1, 0, [0, 10, 10, 1]),
            record(16, 0, [0, 0, 0, 0]),
            record(18, 2, [0, 0, 0, 0]),
        ],
        words: vec![],
    }
}

/// A tape with something of every kind.
fn furnished() -> Tape {
    let records = vec![
        record(1, 0, [0, 10, 10, 1]),
        record(1, 0, [1, 20, 15, 1]),
        record(16, 0, [3, 2, 0, 0]),
        record(22, 0, [1, 2, 5, 0]),
        record(24, 0, [1, 0, 1, 0]),
        record(25, 0, [1, 0, 0, 0]),
        record(29, 0, [2, 0, 0, 0]),
        record(31, 1, [2, 4_294_967_295, 0, 0]),
        record(33, 0, [0, 16, 100, 0]),
        record(35, 0, [0, 0, 0, 0]),
        record(35, 0, [0, 0, 0, 0]),
        record(36, 1, [0, 0, 0, 0]),
        record(24, 2, [1, 7, 1, 0]),
        record(32, 2, [2, 0, 3, 0xFFFF_FFFF]),
        record(99, 7, [1, 2, 3, 4]),
    ];
    Tape { records, words: vec![7, 8, 9] }
}

#[test]
fn example_output() {
    let expected = "calls 3\n0 0 0\n0 0 0\n13 0 0\ndone 3\n";
    assert_eq!(print::replay(&example().encode()), expected);
}

#[test]
fn inspect_of_the_example() {
    let zeros = "0,0,0,0,0,0,0,0,0,0,0,0,0,0,0,0";
    let thread = format!(
        "thread 0 state=0 prio=10 thr=10 mark=0 held=0 status=0 wait=none ticks=0 \
         words={zeros} obj=0 front=0 req=0 opt=0 msg={zeros}\nready 10: 0\n"
    );
    let words = " 0".repeat(16);
    let expected = format!(
        "clock 0\nrunning -\n.\n\
         call 0 1 0 0 10 10 1\nresult 0 0 0{words}\nclock 0\nrunning 0\n{thread}.\n\
         call 1 16 0 0 0 0 0\nresult 0 0 0{words}\nclock 0\nrunning 0\n{thread}sem 0 count=0: \n.\n\
         call 2 18 2 0 0 0 0\nresult 13 0 0{words}\nclock 0\nrunning 0\n{thread}sem 0 count=0: \n.\n"
    );
    assert_eq!(print::inspect(&example().encode()), expected);
}

#[test]
fn inspect_of_every_kind() {
    let text = print::inspect(&furnished().encode());
    let last = text.rsplit("call 14 99 7 1 2 3 4\n").next().unwrap();
    let expected = "\
result 260 - 0 0 0 0 0 0 0 0 0 0 0 0 0 0 0 0 0
clock 0
running -
thread 0 state=5 prio=10 thr=10 mark=0 held=0 status=257 wait=timed ticks=7 words=0,0,0,0,0,0,0,0,0,0,0,0,0,0,0,0 obj=1 front=0 req=0 opt=0 msg=8,9,0,0,0,0,0,0,0,0,0,0,0,0,0,0
thread 1 state=7 prio=20 thr=15 mark=0 held=0 status=257 wait=forever ticks=0 words=0,0,0,0,0,0,0,0,0,0,0,0,0,0,0,0 obj=2 front=0 req=0 opt=3 msg=0,0,0,0,0,0,0,0,0,0,0,0,0,0,0,0
sem 3 count=2: 
queue 1 size=2 storage=5 cap=2 stored=[7,8|8,9]: 0
group 2 flags=4294967295: 1
pool 0 block=16 total=100 blocks=5 free=[0,2,3,4] : 
.
";
    assert_eq!(last, expected);
}

#[test]
fn no_records_and_no_words_are_fine() {
    let bytes = Tape::default().encode();
    assert_eq!(bytes.len(), 16);
    assert_eq!(print::replay(&bytes), "calls 0\ndone 0\n");
    assert_eq!(print::inspect(&bytes), "clock 0\nrunning -\n.\n");
}

#[test]
fn decoding_gives_back_what_was_encoded() {
    for tape in [example(), furnished(), Tape::default()] {
        assert_eq!(Tape::decode(&tape.encode()), Ok(tape));
    }
}

fn assert_refused(bytes: &[u8], what: &str) {
    assert_eq!(Tape::decode(bytes), Err(Status::TAPE_REFUSED), "{what}");
    assert_eq!(print::replay(bytes), "tape refused 259\n", "{what}");
    assert_eq!(print::inspect(bytes), "tape refused 259\n", "{what}");
    // 0x103 comes before 0x100, and changes nothing.
    let mut tables = Tables::new();
    tables.running = Link::to(5);
    let before = tables.clone();
    assert_eq!(run(&mut tables, bytes, 9), Err(Status::TAPE_REFUSED), "{what}");
    assert_eq!(tables, before, "{what}");
}

#[test]
fn refused_tapes() {
    let good = furnished().encode();
    for length in 0..good.len() {
        assert_refused(&good[..length], "truncated");
    }
    assert_refused(&[&good[..], &[0]].concat(), "one byte more");
    assert_refused(&[&good[..], &[0; 4]].concat(), "one word more");
    for word in 0..4 {
        for value in [0, 1, 17, 0x8000_0000, 0xFFFF_FFFF, 0xFFFF_FFF0] {
            let mut bytes = good.clone();
            bytes[4 * word..4 * word + 4].copy_from_slice(&u32::to_le_bytes(value));
            assert_refused(&bytes, "header word changed");
        }
    }
}

#[test]
fn limits_of_records_and_words() {
    let filler = record(13, 0, [0; 4]);
    let most = Tape { records: vec![filler; MAX_RECORDS], words: vec![0; MAX_WORDS] };
    assert_eq!(run(&mut Tables::new(), &most.encode(), u32::MAX), Ok(2048));
    let mut records = most.clone();
    records.records.push(filler);
    assert_refused(&records.encode(), "2,049 records");
    let mut words = most;
    words.words.push(0);
    assert_refused(&words.encode(), "4,001 words");
}

#[test]
fn a_limited_run_does_a_prefix() {
    let tape = furnished();
    let bytes = tape.encode();
    let mut prefix = Tables::new();
    for limit in 0..20 {
        let mut tables = Tables::new();
        let done = run(&mut tables, &bytes, limit).unwrap();
        assert_eq!(done, limit.min(tape.records.len() as u32));
        assert_eq!(tables, prefix);
        if let Some(next) = tape.records.get(limit as usize) {
            prefix.call_numbered(next.call, next.caller, next.args, &tape.words);
        }
    }
}

#[test]
fn on_unsound_tables_every_record_answers_0x100() {
    let tape = furnished();
    let mut tables = Tables::new();
    tables.clock = 7;
    tables.marked = 1;
    let before = tables.clone();
    let mut answers = 0;
    let done = tape.run(&mut tables, u32::MAX, |_, _, outcome, _| {
        assert_eq!((outcome.status, outcome.next), (Status::UNSOUND, None));
        answers += 1;
    });
    assert_eq!((done, answers), (15, 15));
    assert_eq!(tables, before);
}
