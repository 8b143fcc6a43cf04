//! Readable tapes: assembling, listing, and both in turn.

use board_tools::generate::generate;
use board_tools::rng::Rng;
use board_tools::text::assemble::assemble;
use board_tools::text::list::list;
use ordinary::tape::{MAX_RECORDS, MAX_WORDS};
use ordinary::{Record, Tape};

fn tape_of(text: &str) -> Tape {
    assemble(text.as_bytes()).unwrap_or_else(|error| panic!("{error}\n{text}")).tape
}

/// Listing and assembling again gives the same bytes.
fn assert_round_trip(tape: &Tape) {
    let text = list(tape);
    assert_eq!(tape_of(&text).encode(), tape.encode(), "{text}");
}

#[test]
fn the_first_sample_tape() {
    let text = "startup tx_thread_create thread=0 priority=10 threshold=10 start=1\n\
                startup tx_semaphore_create semaphore=0 count=0\n\
                thread tx_semaphore_get semaphore=0 wait=none\n";
    let record = |call, caller, args| Record { call, caller, args };
    let expected =
        [record(1, 0, [0, 10, 10, 1]), record(16, 0, [0, 0, 0, 0]), record(18, 2, [0, 0, 0, 0])];
    assert_eq!(tape_of(text), Tape { records: expected.to_vec(), words: vec![] });
}

#[test]
fn every_form_of_value() {
    let text = "
# comments, empty lines and any order of arguments
interrupt tx_event_flags_set option=and flags=0xFF group=7   # set
thread tx_event_flags_get group=0 flags=255 option=and_clear wait=forever
thread tx_event_flags_get group=0 flags=0x0 option=17 wait=0xFFFFFFFE
thread tx_thread_sleep ticks=forever
\tthread   tx_queue_send queue=0 message=[1, 0x2 3,4 ] wait=none
words [9]
thread tx_queue_front_send queue=0 wait=4294967295 message=[5]
thread tx_queue_send queue=0 wait=1 message=@4000000000
caller=9 call=77 arg0=1 arg3=4
caller=4294967295 call=18 semaphore=3 wait=forever
startup tick arg1=2\r
";
    let tape = tape_of(text);
    let expected = [
        (31, 1, [7, 255, 2, 0]),
        (32, 2, [0, 255, 3, 0xFFFF_FFFF]),
        (32, 2, [0, 0, 17, 0xFFFF_FFFE]),
        (9, 2, [0xFFFF_FFFF, 0, 0, 0]),
        (24, 2, [0, 0, 0, 0]),
        (25, 2, [0, 0xFFFF_FFFF, 5, 0]),
        (24, 2, [0, 1, 4_000_000_000, 0]),
        (77, 9, [1, 0, 0, 4]),
        (18, 0xFFFF_FFFF, [3, 0xFFFF_FFFF, 0, 0]),
        (15, 0, [0, 2, 0, 0]),
    ];
    for (record, (call, caller, args)) in tape.records.iter().zip(expected) {
        assert_eq!(*record, Record { call, caller, args });
    }
    assert_eq!(tape.records.len(), expected.len());
    assert_eq!(tape.words, [1, 2, 3, 4, 9, 5]);
    assert_round_trip(&tape);
}

#[test]
fn lines_are_kept() {
    let text = "\n# one\nstartup tick\n\nwords [1]\nthread finish\n";
    assert_eq!(assemble(text.as_bytes()).unwrap().lines, [3, 6]);
}

#[test]
fn listing_writes_messages_in_place() {
    let text = "# calls: 4, message words: 7
startup   tx_queue_create queue=0 message_words=3 storage_words=6
thread    tx_queue_send queue=0 wait=none message=[1, 2, 3]
words [9]
thread    tx_queue_front_send queue=0 wait=forever message=[4, 5, 6]
thread    tx_queue_send queue=0 wait=7 message=@0
";
    assert_eq!(list(&tape_of(text)), text);
}

#[test]
fn empty_tapes() {
    assert_eq!(tape_of(""), Tape::default());
    assert_round_trip(&Tape::default());
}

#[test]
fn generated_tapes_round_trip() {
    for seed in 0..150 {
        assert_round_trip(&generate(seed, 120));
    }
}

#[test]
fn any_tape_round_trips() {
    let mut rng = Rng::new(7);
    for _ in 0..300 {
        let records = rng.below(40);
        let words = rng.below(70);
        let value = |rng: &mut Rng| match rng.below(3) {
            0 => rng.below(50),
            1 => rng.below(4),
            _ => rng.word(),
        };
        let records = (0..records)
            .map(|_| Record {
                call: value(&mut rng),
                caller: value(&mut rng),
                args: [0; 4].map(|_| value(&mut rng)),
            })
            .collect();
        let words = (0..words).map(|_| rng.word()).collect();
        assert_round_trip(&Tape { records, words });
    }
}

#[test]
fn the_largest_tape_round_trips() {
    let filler = Record { call: 24, caller: 2, args: [0, 1, 3999, 5] };
    assert_round_trip(&Tape { records: vec![filler; MAX_RECORDS], words: vec![7; MAX_WORDS] });
}

#[test]
fn errors_name_the_place_and_what_was_expected() {
    let cases = [
        ("hello", 1, 1, "expected a caller"),
        ("startup", 1, 8, "expected a service name, found the end of the line"),
        ("\nthread tx_mutex_get", 2, 8, "expected a service name, found `tx_mutex_get`"),
        ("thread finish now", 1, 15, "expected `arg0=` to `arg3=` or the end of the line"),
        ("thread tx_semaphore_get semaphore=0", 1, 36, "expected `wait=`"),
        ("thread tx_semaphore_get semaphore=0 wait=ever", 1, 42, "`none`, `forever` or a number"),
        ("thread tx_semaphore_get semaphore=0 wait", 1, 41, "expected `=` after `wait`"),
        ("thread tx_semaphore_get semaphore=0 wait=", 1, 42, "found the end of the line"),
        ("thread tx_semaphore_get queue=0 wait=1", 1, 25, "expected `semaphore=`, `wait=`"),
        ("thread tx_thread_sleep ticks=none", 1, 30, "`forever` or a number"),
        ("thread tx_thread_sleep ticks=4294967296", 1, 30, "from 0 to 4294967295"),
        ("thread tx_thread_sleep ticks=0x100000000", 1, 30, "from 0 to 4294967295"),
        ("thread tx_thread_sleep ticks=0x", 1, 30, "found `0x`"),
        ("thread tx_thread_sleep ticks=-1", 1, 30, "found `-`"),
        ("thread tx_thread_sleep ticks=+1", 1, 30, "found `+`"),
        ("thread tx_thread_sleep ticks=0x+1", 1, 30, "found `0x`"),
        ("thread tx_thread_sleep ticks=1 ticks=2", 1, 32, "expected each argument once"),
        ("thread tx_thread_sleep ticks=1 arg0=2", 1, 32, "expected each argument once"),
        ("thread tx_queue_send queue=0 wait=0 message=[1, 2", 1, 45, "expected `]`"),
        ("thread tx_queue_send queue=0 wait=0 message=1, 2]", 1, 45, "expected a message"),
        ("thread tx_queue_send queue=0 wait=0 message=[]", 1, 46, "expected at least one word"),
        ("thread tx_queue_send queue=0 wait=0 message=[1 # 2]", 1, 45, "expected `]`"),
        ("thread tx_queue_send queue=0 wait=0 message=[1]]", 1, 48, "found `]`"),
        ("thread tx_queue_send queue=0 wait=0 message=[a]", 1, 46, "expected a number"),
        ("thread tx_queue_send queue=0 wait=0 message=[1,,2]", 1, 48, "expected a number"),
        (
            "thread tx_queue_send queue=0 wait=0 message=[1 2 3 4 5 6 7 8 9 10 11 12 13 14 15 16 17]",
            1,
            85,
            "expected at most 16 words",
        ),
        ("thread tx_queue_send queue=0 wait=0 message=@x", 1, 46, "expected a number"),
        ("interrupt tx_event_flags_set group=0 flags=1 option=or_clear", 1, 53, "`or`, `and`"),
        ("thread tx_event_flags_get group=0 flags=1 option=xor wait=1", 1, 50, "`and_clear`"),
        ("words", 1, 6, "expected `[`"),
        ("words 1 2", 1, 7, "expected `[`"),
        ("words [1] 2", 1, 11, "expected the end of the line"),
        ("caller=x tick", 1, 8, "expected a number"),
        ("startup call=", 1, 14, "expected a number"),
        ("startup call=99 semaphore=1", 1, 17, "expected `arg0=`"),
        ("startup, tick", 1, 8, "expected a service name, found `,`"),
    ];
    for (text, line, column, what) in cases {
        let error = assemble(text.as_bytes()).expect_err(text);
        assert_eq!((error.line, error.column), (line, column), "{text}: {error}");
        assert!(error.what.contains(what), "{text}: {error}");
        assert!(error.what.contains("expected"), "{text}: {error}");
    }
}

#[test]
fn bytes_that_are_no_text() {
    let error = assemble(b"startup tick\nthr\xFFead tick\n").unwrap_err();
    assert_eq!((error.line, error.column), (2, 4));
    assert_eq!(error.what, "expected UTF-8 text");
}

#[test]
fn too_many_calls_or_words() {
    let calls = "startup tx_time_get\n".repeat(MAX_RECORDS);
    assert_eq!(tape_of(&calls).records.len(), MAX_RECORDS);
    let error = assemble((calls + "startup tick").as_bytes()).unwrap_err();
    assert_eq!((error.line, error.column), (2049, 1));
    assert!(error.what.contains("at most 2048 calls"));
    let words = "words [1 2 3 4 5 6 7 8 9 10]\n".repeat(MAX_WORDS / 10);
    assert_eq!(tape_of(&words).words.len(), MAX_WORDS);
    let error = assemble((words + "words [1]").as_bytes()).unwrap_err();
    assert_eq!((error.line, error.column), (401, 1));
    assert!(error.what.contains("at most 4000 message words"));
}

#[test]
fn random_texts_do_not_panic() {
    let mut rng = Rng::new(3);
    let pieces = [
        "startup",
        "thread",
        "interrupt",
        "words",
        "[",
        "]",
        "=",
        "@",
        ",",
        "#",
        "\n",
        " ",
        "1",
        "0x",
        "tx_queue_send",
        "message",
        "wait",
        "forever",
        "caller",
        "call",
        "é",
        "\t",
    ];
    for _ in 0..3000 {
        let count = rng.below(30);
        let text: String =
            (0..count).filter_map(|_| rng.pick(&pieces).copied()).collect::<Vec<_>>().join("");
        let _ = assemble(text.as_bytes());
    }
}
