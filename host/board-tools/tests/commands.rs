//! The program: good and bad input, exit status, what is written.

use board_tools::generate::generate;
use board_tools::rng::Rng;
use ordinary::print;
use std::fs;
use std::io::Write;
use std::path::PathBuf;
use std::process::{Command, Output, Stdio};

const PROGRAM: &str = env!("CARGO_BIN_EXE_board-tools");

/// A folder for one test's files.
fn folder(name: &str) -> PathBuf {
    let folder = PathBuf::from(env!("CARGO_TARGET_TMPDIR")).join(format!("commands-{name}"));
    let _ = fs::remove_dir_all(&folder);
    fs::create_dir_all(&folder).unwrap();
    folder
}

fn run(args: &[&str], input: &[u8]) -> Output {
    let mut child = Command::new(PROGRAM)
        .args(args)
        .stdin(Stdio::piped())
        .stdout(Stdio::piped())
        .stderr(Stdio::piped())
        .spawn()
        .unwrap();
    let mut stdin = child.stdin.take().unwrap();
    let input = input.to_vec();
    let writer = std::thread::spawn(move || {
        // A program that stops early does not read all.
        let _ = stdin.write_all(&input);
    });
    let output = child.wait_with_output().unwrap();
    writer.join().unwrap();
    output
}

fn assert_bad_input(args: &[&str], input: &[u8], message: &str) {
    let output = run(args, input);
    let error = String::from_utf8_lossy(&output.stderr);
    assert_eq!(output.status.code(), Some(2), "{args:?}: {error}");
    assert!(output.stdout.is_empty(), "{args:?} wrote something");
    assert!(error.contains(message), "{args:?}: {error}");
}

#[test]
fn assemble_and_list_are_inverse() {
    let folder = folder("inverse");
    let (tape, text) = (folder.join("a.tape"), folder.join("a.txt"));
    let again = folder.join("b.tape");
    let bytes = generate(5, 200).encode();
    fs::write(&tape, &bytes).unwrap();
    let path = |path: &PathBuf| path.to_str().unwrap().to_string();
    assert!(run(&["list", &path(&tape), "-o", &path(&text)], b"").status.success());
    assert!(run(&["assemble", &path(&text), "-o", &path(&again)], b"").status.success());
    assert_eq!(fs::read(&again).unwrap(), bytes);
    // The same through standard input and output.
    let listed = run(&["list", "-"], &bytes);
    assert_eq!(listed.stdout, fs::read(&text).unwrap());
    assert_eq!(run(&["assemble", "-"], &listed.stdout).stdout, bytes);
}

#[test]
fn bad_texts_write_nothing() {
    let folder = folder("bad-texts");
    let (text, tape) = (folder.join("bad.txt"), folder.join("bad.tape"));
    let cases: [(&[u8], &str); 6] = [
        (b"startup tx_thread_make thread=0", "line 1, column 9: expected a service name"),
        (b"nobody tick", "line 1, column 1: expected a caller"),
        (b"startup tick\nthread tx_thread_sleep ticks=4294967296", "line 2, column 30: expected"),
        (b"thread tx_queue_send queue=0 wait=0 message=[1, 2", "line 1, column 45: expected `]`"),
        (b"thread tx_queue_send queue=0 wait=0 message=1]", "expected a message"),
        (b"\xFF\xFE\x00", "line 1, column 1: expected UTF-8 text"),
    ];
    for (bytes, message) in cases {
        fs::write(&text, bytes).unwrap();
        let args = ["assemble", text.to_str().unwrap(), "-o", tape.to_str().unwrap()];
        assert_bad_input(&args, b"", message);
        assert_bad_input(&["assemble", "-"], bytes, message);
    }
    // Neither the tape nor anything beside it.
    assert_eq!(fs::read_dir(&folder).unwrap().count(), 1);
}

#[test]
fn an_old_tape_survives_a_bad_text() {
    let folder = folder("old-tape");
    let tape = folder.join("kept.tape");
    fs::write(&tape, b"old").unwrap();
    assert_bad_input(&["assemble", "-", "-o", tape.to_str().unwrap()], b"x", "expected a caller");
    assert_eq!(fs::read(&tape).unwrap(), b"old");
}

#[test]
fn bytes_that_are_no_tape_are_not_listed() {
    let folder = folder("no-tape");
    let out = folder.join("out.txt");
    let good = generate(9, 20).encode();
    let mut rng = Rng::new(11);
    let mut cases: Vec<Vec<u8>> = vec![
        Vec::new(),
        b"startup tick\n".to_vec(),
        good[..good.len() - 1].to_vec(),
        [&good[..], &[0]].concat(),
    ];
    for length in [1, 15, 16, 17, 40, 1000] {
        cases.push((0..length).map(|_| rng.below(256) as u8).collect());
    }
    for at in 0..16 {
        let mut damaged = good.clone();
        damaged[at] ^= 0x80;
        cases.push(damaged);
    }
    for bytes in cases {
        assert_bad_input(&["list", "-", "-o", out.to_str().unwrap()], &bytes, "is not a tape");
    }
    assert_eq!(fs::read_dir(&folder).unwrap().count(), 0);
}

#[test]
fn refusals_are_explained() {
    let header = |words: [u32; 4]| words.map(u32::to_le_bytes).concat();
    let cases = [
        (vec![1, 2, 3], "3 bytes are too few for a header of 16"),
        (header([2049, 16, 0, 49192]), "2049 records are more than 2048"),
        (header([0, 16, 4001, 16]), "4001 message words are more than 4000"),
        (header([0, 20, 0, 16]), "records must start at byte 16, not 20"),
        (header([1, 16, 0, 16]), "message words must start at byte 40, not 16"),
        (header([1, 16, 2, 40]), "the length must be 48 bytes, not 16"),
    ];
    for (bytes, message) in cases {
        assert_bad_input(&["list", "-"], &bytes, message);
    }
}

#[test]
fn replay_and_inspect_print_as_the_proved_programs_do() {
    let bytes = generate(21, 100).encode();
    assert_eq!(run(&["replay", "-"], &bytes).stdout, print::replay(&bytes).as_bytes());
    assert_eq!(run(&["inspect", "-"], &bytes).stdout, print::inspect(&bytes).as_bytes());
    let refused = run(&["replay", "-"], &[0; 15]);
    assert_eq!(refused.stdout, b"tape refused 259\n");
    assert!(refused.status.success());
}

#[test]
fn run_shows_calls_by_name() {
    let text = b"startup tx_thread_create thread=0 priority=10 threshold=10 start=1

startup tx_semaphore_create semaphore=0 count=0
thread tx_semaphore_get semaphore=0 wait=1
interrupt tick
";
    let output = run(&["run", "-", "--tables"], text);
    let shown = String::from_utf8(output.stdout).unwrap();
    for part in [
        "   4  thread    tx_semaphore_get semaphore=0 wait=1",
        "WAITING 0x101",
        "TX_SUCCESS 0x00",
        "nobody",
        "thread 0 timed out on semaphore 0 (TX_NO_INSTANCE)",
        "~ thread 0  state: 0 -> 6",
    ] {
        assert!(shown.contains(part), "{part}\n{shown}");
    }
}

#[test]
fn lanes_are_a_whole_picture() {
    let folder = folder("lanes");
    let svg = folder.join("run.svg");
    for (seed, records) in [(1, 0), (2, 30), (3, 100), (4, 300), (5, 2048)] {
        let bytes = generate(seed, records).encode();
        let output = run(&["run", "-", "--lanes", svg.to_str().unwrap()], &bytes);
        assert!(output.status.success());
        let picture = fs::read_to_string(&svg).unwrap();
        assert!(picture.starts_with("<svg ") && picture.ends_with("</svg>\n"));
        assert_eq!(picture.matches("<text").count(), picture.matches("</text>").count());
        assert!(!picture.contains("NaN"));
    }
}

#[test]
fn usage_errors() {
    assert_bad_input(&[], b"", "expected a command");
    assert_bad_input(&["frob"], b"", "unknown command `frob`");
    assert_bad_input(&["list"], b"", "expected one tape");
    assert_bad_input(&["list", "a", "b"], b"", "expected only one tape");
    assert_bad_input(&["list", "--fast", "a"], b"", "unknown option `--fast`");
    assert_bad_input(&["list", "no-such-file"], b"", "cannot read no-such-file");
    assert_bad_input(&["assemble", "a", "-o"], b"", "-o needs a value");
    assert_bad_input(&["fuzz", "1"], b"", "expected SEED and COUNT");
    assert_bad_input(&["fuzz", "1", "x"], b"", "COUNT must be a number");
    assert_bad_input(&["fuzz", "1", "1", "--records", "2049"], b"", "at most 2048");
    assert_bad_input(&["fuzz", "1", "1", "--inspect", "nowhere"], b"", "no proved program at");
    assert_bad_input(&["compare", "--inspect", "nowhere", "-"], b"", "no proved program at");
    assert_bad_input(&["compare"], b"", "expected one tape or more");
    assert_bad_input(&["compare", "--library", "--inspect", "x", "-"], b"", "exclude each other");
    assert_bad_input(&["fuzz", "1", "1", "--library", "--alone"], b"", "--alone excludes");
}

#[test]
fn help() {
    let output = run(&["--help"], b"");
    assert!(output.status.success());
    let help = String::from_utf8(output.stdout).unwrap();
    let commands =
        ["assemble", "list", "run", "replay", "inspect", "compare", "fuzz", "exercises", "bench"];
    for command in commands {
        assert!(help.contains(&format!("\n  {command} ")), "{command}");
    }
}

#[test]
fn fuzz_alone() {
    let output = run(&["fuzz", "3", "20", "--records", "100", "--alone"], b"");
    assert!(output.status.success());
    let report = String::from_utf8(output.stdout).unwrap();
    assert!(report.contains("hold after each of 2000 calls"), "{report}");
}

#[test]
fn compare_through_the_library() {
    let tape = generate(31, 120).encode();
    let output = run(&["compare", "--library", "-"], &tape);
    assert!(output.status.success(), "{}", String::from_utf8_lossy(&output.stderr));
    assert_eq!(output.stdout, b"-: no difference in 120 records\n");
    let refused = run(&["compare", "--library", "-"], &tape[..tape.len() - 1]);
    assert_eq!(refused.stdout, b"-: no difference, both refuse it\n");
}

#[test]
fn fuzz_through_the_library() {
    let output = run(&["fuzz", "8", "20", "--records", "150", "--library"], b"");
    let report = String::from_utf8(output.stdout).unwrap();
    assert!(output.status.success(), "{report}");
    assert!(report.contains("hold after each of 3000 calls"), "{report}");
    assert!(report.contains("compared with the proved library, no difference"), "{report}");
}
