//! The C header: its numbers against this crate's, its inline functions
//! against the typed calls, and the C programs over the library.

use apachimo::{Call, Caller, GetOption, Group, Pool, Queue, Semaphore, SetOption, Start, Status};
use apachimo::{Thread, Wait, REPLY_WORDS, STATE_BYTES};
use std::collections::HashMap;
use std::fs;
use std::path::{Path, PathBuf};
use std::process::{Command, Output};

/// A path in the repository.
fn repository(path: &str) -> PathBuf {
    Path::new(env!("CARGO_MANIFEST_DIR")).join("../..").join(path)
}

/// Compiles a program of `host/examples-c`, without a warning, and runs it.
fn run_program(name: &str, library: bool) -> Output {
    let source = repository("host/examples-c").join(format!("{name}.c"));
    run_source(name, &source, library)
}

fn run_source(name: &str, source: &Path, library: bool) -> Output {
    let program = Path::new(env!("CARGO_TARGET_TMPDIR")).join(name);
    let mut compiler = Command::new("cc");
    compiler.args(["-std=c99", "-Wall", "-Wextra", "-Werror", "-pedantic", "-O1"]);
    compiler.arg("-I").arg(repository("include")).arg("-o").arg(&program);
    compiler.arg(source);
    if library {
        compiler.arg(env!("APACHIMO_ARCHIVE"));
    }
    let compiled = compiler.output().expect("a C compiler, `cc`, is on the path");
    assert!(compiled.status.success(), "{}", String::from_utf8_lossy(&compiled.stderr));
    Command::new(&program).output().unwrap()
}

fn text(bytes: &[u8]) -> String {
    String::from_utf8(bytes.to_vec()).unwrap()
}

#[test]
fn the_semaphore_example() {
    let expected = "\
thread create        TX_SUCCESS, thread 0 runs
semaphore create     TX_SUCCESS, thread 0 runs
get, no wait         TX_NO_INSTANCE, thread 0 runs
get, without end     APACHIMO_WAITING, nobody runs
put by interrupt     TX_SUCCESS, thread 0 runs
held status          TX_SUCCESS
get, two ticks       APACHIMO_WAITING, nobody runs
tick                 TX_SUCCESS, nobody runs
tick                 TX_SUCCESS, thread 0 runs
held status          TX_NO_INSTANCE
";
    let output = run_program("semaphore", true);
    assert_eq!(text(&output.stdout), expected);
    assert!(output.status.success());
}

/// The first block of a document that is fenced as `kind`.
fn fenced<'a>(document: &'a str, kind: &str) -> &'a str {
    let (_, rest) = document.split_once(&format!("```{kind}\n")).unwrap();
    rest.split_once("```\n").unwrap().0
}

#[test]
fn the_example_of_the_documentation() {
    let document = fs::read_to_string(repository("docs/LIBRARY.md")).unwrap();
    let source = Path::new(env!("CARGO_TARGET_TMPDIR")).join("documented.c");
    fs::write(&source, fenced(&document, "c")).unwrap();
    let output = run_source("documented", &source, true);
    assert_eq!(text(&output.stdout), fenced(&document, "text"));
}

#[test]
fn bad_input_from_c() {
    let output = run_program("boundary", true);
    let printed = text(&output.stdout);
    assert!(output.status.success(), "{printed}");
    assert!(!printed.contains("WRONG") && !printed.contains("CHANGED"), "{printed}");
    // Every case was run: 16 lengths, 5 numbers, 40 on unsound tables, 10 tapes, 4 puts,
    // 7 priority changes, and the rest.
    assert_eq!(printed.lines().count(), 93, "{printed}");
}

/// Every service once, as `services.c` calls them.
fn typed_calls() -> Vec<(Caller, Call<'static>)> {
    use Caller::{Interrupt, StartUp, Thread as Runner};
    let (thread, semaphore, queue) = (Thread(11), Semaphore(11), Queue(11));
    let (group, pool, wait) = (Group(11), Pool(11), Wait::ticks(12));
    let (start, set, get) = (Start::Auto, SetOption::And, GetOption::AndClear);
    vec![
        (StartUp, Call::ThreadCreate { thread, priority: 12, threshold: 13, start }),
        (Interrupt, Call::ThreadDelete { thread }),
        (Runner, Call::ThreadResume { thread }),
        (StartUp, Call::ThreadSuspend { thread }),
        (Interrupt, Call::ThreadTerminate { thread }),
        (Runner, Call::ThreadReset { thread }),
        (StartUp, Call::Finish),
        (Interrupt, Call::ThreadRelinquish),
        (Runner, Call::ThreadSleep { ticks: 11 }),
        (StartUp, Call::ThreadWaitAbort { thread }),
        (Interrupt, Call::ThreadPriorityChange { thread, priority: 12 }),
        (Runner, Call::ThreadPreemptionChange { thread, threshold: 12 }),
        (StartUp, Call::TimeGet),
        (Interrupt, Call::TimeSet { time: 11 }),
        (Runner, Call::Tick),
        (StartUp, Call::SemaphoreCreate { semaphore, count: 12 }),
        (Interrupt, Call::SemaphoreDelete { semaphore }),
        (Runner, Call::SemaphoreGet { semaphore, wait }),
        (StartUp, Call::SemaphorePut { semaphore }),
        (Interrupt, Call::SemaphoreCeilingPut { semaphore, ceiling: 12 }),
        (Runner, Call::SemaphorePrioritize { semaphore }),
        (StartUp, Call::QueueCreate { queue, message_words: 12, storage_words: 13 }),
        (Interrupt, Call::QueueDelete { queue }),
        (Runner, Call::QueueSend { queue, message: &[21, 22, 23], wait }),
        (StartUp, Call::QueueFrontSend { queue, message: &[21, 22], wait }),
        (Interrupt, Call::QueueReceive { queue, wait }),
        (Runner, Call::QueueFlush { queue }),
        (StartUp, Call::QueuePrioritize { queue }),
        (Interrupt, Call::EventFlagsCreate { group }),
        (Runner, Call::EventFlagsDelete { group }),
        (StartUp, Call::EventFlagsSet { group, flags: 12, option: set }),
        (Interrupt, Call::EventFlagsGet { group, flags: 12, option: get, wait: Wait::ticks(14) }),
        (Runner, Call::BlockPoolCreate { pool, block_bytes: 12, total_bytes: 13 }),
        (StartUp, Call::BlockPoolDelete { pool }),
        (Interrupt, Call::BlockAllocate { pool, wait }),
        (Runner, Call::BlockRelease { pool, block: 12 }),
        (StartUp, Call::BlockPoolPrioritize { pool }),
        (Interrupt, Call::ReadState { thread }),
        (Runner, Call::ReadWords { thread }),
    ]
}

/// The line that `services.c` prints for a call. There the start is 14 and
/// both options 13, which the types here do not allow.
fn printed_call(caller: Caller, call: &Call<'_>) -> String {
    let mut arguments = call.arguments();
    match call {
        Call::ThreadCreate { start, .. } => {
            assert_eq!(arguments[3], *start as u32);
            arguments[3] = 14;
        }
        Call::EventFlagsSet { option, .. } => {
            assert_eq!(arguments[2], *option as u32);
            arguments[2] = 13;
        }
        Call::EventFlagsGet { option, .. } => {
            assert_eq!(arguments[2], *option as u32);
            arguments[2] = 13;
        }
        _ => {}
    }
    let numbers = [STATE_BYTES as u32, call.number(), caller as u32];
    let all = numbers.iter().chain(&arguments).chain(call.message());
    all.map(u32::to_string).collect::<Vec<_>>().join(" ")
}

#[test]
fn the_inline_functions_pass_what_the_typed_calls_pass() {
    let calls = typed_calls();
    let numbers: Vec<u32> = calls.iter().map(|(_, call)| call.number()).collect();
    assert_eq!(numbers, (1..40).collect::<Vec<u32>>());
    let output = run_program("services", false);
    let printed = text(&output.stdout);
    let expected: Vec<String> =
        calls.iter().map(|(caller, call)| printed_call(*caller, call)).collect();
    assert_eq!(printed.lines().collect::<Vec<_>>(), expected);
}

/// The header's numbers by name.
fn defined() -> HashMap<String, u32> {
    let header = fs::read_to_string(repository("include/apachimo.h")).unwrap();
    let definition = |line: &str| {
        let (name, value) = line.strip_prefix("#define ")?.split_once(' ')?;
        let number = match value.strip_prefix("0x") {
            Some(digits) => u32::from_str_radix(digits, 16).unwrap(),
            None => value.parse().unwrap(),
        };
        Some((name.to_string(), number))
    };
    header.lines().filter_map(definition).collect()
}

#[test]
fn the_header_has_every_status_with_its_number() {
    let defined = defined();
    for status in Status::ALL {
        assert_eq!(defined.get(status.name()), Some(&status.number()), "{status}");
    }
    assert_eq!(defined["TX_START_ERROR"], Status::START_ERROR.number());
    let header = fs::read_to_string(repository("include/apachimo.h")).unwrap();
    for status in Status::ALL {
        // Named by `apachimo_status_name` too.
        let quoted = format!("\"{}\"", status.name());
        assert_eq!(header.matches(&quoted).count(), 1, "{quoted}");
    }
}

#[test]
fn the_header_has_the_sizes_and_options() {
    let expected = [
        ("APACHIMO_STATE_BYTES", STATE_BYTES as u32),
        ("APACHIMO_REPLY_WORDS", REPLY_WORDS as u32),
        ("APACHIMO_MESSAGE_WORDS", 16),
        ("APACHIMO_TAPE_RECORDS", ordinary::tape::MAX_RECORDS as u32),
        ("APACHIMO_TAPE_WORDS", ordinary::tape::MAX_WORDS as u32),
        ("APACHIMO_THREADS", Thread::LIMIT),
        ("APACHIMO_SEMAPHORES", Semaphore::LIMIT),
        ("APACHIMO_QUEUES", Queue::LIMIT),
        ("APACHIMO_GROUPS", Group::LIMIT),
        ("APACHIMO_POOLS", Pool::LIMIT),
        ("APACHIMO_NOBODY", 32),
        ("APACHIMO_STARTUP", Caller::StartUp as u32),
        ("APACHIMO_INTERRUPT", Caller::Interrupt as u32),
        ("APACHIMO_THREAD", Caller::Thread as u32),
        ("TX_NO_WAIT", Wait::NONE.number()),
        ("TX_WAIT_FOREVER", Wait::FOREVER.number()),
        ("TX_DONT_START", Start::Dont as u32),
        ("TX_AUTO_START", Start::Auto as u32),
        ("TX_OR", GetOption::Or as u32),
        ("TX_OR_CLEAR", GetOption::OrClear as u32),
        ("TX_AND", GetOption::And as u32),
        ("TX_AND_CLEAR", GetOption::AndClear as u32),
        ("TX_OR", SetOption::Or as u32),
        ("TX_AND", SetOption::And as u32),
    ];
    let defined = defined();
    for (name, number) in expected {
        assert_eq!(defined.get(name), Some(&number), "{name}");
    }
}

/// The numbers of a type agree with the places that the ordinary kernel has.
#[test]
fn the_limits_are_the_ordinary_kernels() {
    assert_eq!(Thread::LIMIT as usize, ordinary::ThreadNo::LIMIT);
    assert_eq!(Semaphore::LIMIT as usize, ordinary::SemaphoreNo::LIMIT);
    assert_eq!(Queue::LIMIT as usize, ordinary::QueueNo::LIMIT);
    assert_eq!(Group::LIMIT as usize, ordinary::GroupNo::LIMIT);
    assert_eq!(Pool::LIMIT as usize, ordinary::PoolNo::LIMIT);
}
