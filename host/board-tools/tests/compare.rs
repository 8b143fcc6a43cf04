//! Comparison, with stand-ins for the proved program and with the program
//! itself.
#![cfg(unix)]

use apachimo::{Board, Status};
use board_tools::check::{check_tape, Tally};
use board_tools::compare::{compare, compare_bytes, first_difference, Inspect, Proved};
use board_tools::fuzz::{fuzz, Options};
use board_tools::generate::generate;
use board_tools::library;
use board_tools::rng::Rng;
use board_tools::text::assemble::assemble;
use ordinary::{print, Record, Tape};
use std::fs;
use std::io::Write;
use std::path::{Path, PathBuf};
use std::process::{Command, Stdio};
use std::sync::OnceLock;

/// A program that prints what the ordinary kernel does, passed through a filter.
fn stand_in(name: &str, filter: &str) -> Inspect {
    let folder = PathBuf::from(env!("CARGO_TARGET_TMPDIR")).join(format!("compare-{name}"));
    fs::create_dir_all(&folder).unwrap();
    let path = folder.join("inspect");
    let script =
        format!("#!/bin/sh\n'{}' inspect - | {filter}\n", env!("CARGO_BIN_EXE_board-tools"));
    // Another process writes the program: a file that this one had open for writing could still be open in a child of another test, and a
    // file that is open for writing cannot be run.
    let text = folder.join("text");
    fs::write(&text, script).unwrap();
    let copied =
        Command::new("install").args(["-m", "755"]).arg(&text).arg(&path).status().unwrap();
    assert!(copied.success());
    Inspect::at(&path).unwrap()
}

fn fuzz_options(inspect: Inspect) -> Options {
    Options { seed: 4, from: 0, count: 15, records: 200, proved: Some(inspect.into()) }
}

#[test]
fn equal_outputs_have_no_difference() {
    let tape = generate(3, 50);
    let text = print::inspect_tape(&tape);
    assert_eq!(first_difference(&text, &text), None);
}

#[test]
fn the_first_difference_names_its_record() {
    let ordinary = "clock 0\nrunning -\n.\ncall 0 13 0 0 0 0 0\nresult 0 - 0\nclock 0\n.\n";
    let wrong = ordinary.replace("result 0 - 0", "result 0 - 1");
    let difference = first_difference(ordinary, &wrong).unwrap();
    assert_eq!(difference.record, Some(0));
    assert_eq!(difference.ordinary, "result 0 - 0");
    assert_eq!(difference.proved, "result 0 - 1");
    let short = "clock 0\nrunning -\n.\n";
    let difference = first_difference(ordinary, short).unwrap();
    assert_eq!(difference.record, None);
    assert_eq!(difference.ordinary, "call 0 13 0 0 0 0 0");
}

#[test]
fn a_right_program_passes() {
    let inspect = stand_in("right", "cat");
    assert!(fuzz(&fuzz_options(inspect), &mut |_, _| {}).unwrap().is_ok());
}

#[test]
fn a_wrong_status_is_found_and_shrunk() {
    // 0x0D, "no instance", comes out as 0x0C.
    let inspect = stand_in("wrong-status", "sed 's/^result 13 /result 12 /'");
    let found = fuzz(&fuzz_options(inspect), &mut |_, _| {}).unwrap().unwrap_err();
    assert_eq!(found.tape.records.len(), 2, "{:?}", found.tape);
    assert!(found.what.contains("ordinary: result 13 "), "{}", found.what);
    assert!(found.what.contains("proved:   result 12 "), "{}", found.what);
}

#[test]
fn a_wrong_table_is_found_and_shrunk() {
    let inspect = stand_in("wrong-table", "sed 's/held=1/held=0/'");
    let found = fuzz(&fuzz_options(inspect), &mut |_, _| {}).unwrap().unwrap_err();
    // A thread, the object unless it sleeps, a pool's only block taken, the
    // wait, the suspension.
    assert!((3..=5).contains(&found.tape.records.len()), "{:?}", found.tape);
    assert!(found.what.contains("first different word: held=1 / held=0"), "{}", found.what);
}

#[test]
fn a_wrong_free_block_is_found_and_shrunk() {
    let inspect = stand_in("wrong-block", "sed 's/free=\\[1,/free=[2,/'");
    let found = fuzz(&fuzz_options(inspect), &mut |_, _| {}).unwrap().unwrap_err();
    // A pool, and the allocate of block 0.
    let calls: Vec<u32> = found.tape.records.iter().map(|record| record.call).collect();
    assert_eq!(calls, [33, 35], "{:?}", found.tape);
    assert!(found.what.contains("first different word: free=[1,"), "{}", found.what);
}

#[test]
fn the_commands_stop_at_a_difference() {
    let inspect = stand_in("commands", "sed 's/^clock 1$/clock 2/'");
    let folder = inspect.path().parent().unwrap().join("found");
    let _ = fs::remove_dir_all(&folder);
    fs::create_dir_all(&folder).unwrap();
    let program = inspect.path().to_str().unwrap();
    let run = |args: &[&str]| {
        let output = Command::new(env!("CARGO_BIN_EXE_board-tools")).args(args).output().unwrap();
        (output.status.code(), String::from_utf8(output.stderr).unwrap())
    };
    let out = folder.to_str().unwrap();
    let (code, message) =
        run(&["fuzz", "4", "15", "--records", "100", "--inspect", program, "--out", out]);
    assert_eq!(code, Some(1), "{message}");
    assert!(message.contains("records after shrinking: 1,"), "{message}");
    let mut files: Vec<PathBuf> =
        fs::read_dir(&folder).unwrap().map(|entry| entry.unwrap().path()).collect();
    files.sort();
    let [tape, text] = &files[..] else { panic!("{files:?}") };
    let assembled = assemble(&fs::read(text).unwrap()).unwrap();
    assert_eq!(assembled.tape.encode(), fs::read(tape).unwrap());
    // The shrunk tape shows the same difference again, as tape and as text.
    for file in [tape, text] {
        let (code, message) = run(&["compare", "--inspect", program, file.to_str().unwrap()]);
        assert_eq!(code, Some(1), "{message}");
        assert!(message.contains("ordinary: clock 1"), "{message}");
        assert!(message.contains("proved:   clock 2"), "{message}");
    }
}

#[test]
fn a_program_that_fails_is_an_error() {
    let inspect = stand_in("failing", "(cat > /dev/null; echo broken >&2; exit 3)");
    let error = compare(&inspect.into(), &Tape::default()).unwrap_err();
    assert!(error.contains("broken"), "{error}");
    assert!(error.contains('3'), "{error}");
}

/// Has the script `inspect` at the repository's root prove and build the
/// program where it is missing or older than its sources.
fn build_proved() -> Result<(), String> {
    let script = Path::new(env!("CARGO_MANIFEST_DIR")).join("../../inspect");
    let output = Command::new(&script)
        .env_remove("LD_LIBRARY_PATH")
        .stdin(Stdio::null())
        .output()
        .map_err(|error| format!("cannot run {}: {error}", script.display()))?;
    if output.status.success() {
        Ok(())
    } else {
        Err(String::from_utf8_lossy(&output.stderr).into_owned())
    }
}

/// The proved program, built once for all tests. Without the Rattle toolchain
/// there may be none: the notice of that goes past the test harness, which
/// would keep it to itself.
fn proved(test: &str) -> Option<Proved> {
    static BUILT: OnceLock<Result<(), String>> = OnceLock::new();
    let has_toolchain = Command::new("rt").arg("version").output().is_ok();
    if has_toolchain {
        BUILT.get_or_init(build_proved).as_ref().expect("the proved program can be built");
    }
    match Inspect::find() {
        Ok(inspect) => Some(inspect.into()),
        Err(message) => {
            let notice = format!("{test} skipped: {message}\n");
            std::io::stderr().write_all(notice.as_bytes()).unwrap();
            None
        }
    }
}

fn assert_agrees_on_generated_tapes(proved: Proved) {
    let options = Options { seed: 2, from: 0, count: 25, records: 300, proved: Some(proved) };
    if let Err(found) = fuzz(&options, &mut |_, _| {}).unwrap() {
        panic!("{:?}\n{}", found.tape, found.what);
    }
}

/// The tapes and texts in a folder of the repository.
fn stored_tapes(folder: &str) -> Vec<(PathBuf, Tape)> {
    let folder = Path::new(env!("CARGO_MANIFEST_DIR")).join("../..").join(folder);
    let paths = fs::read_dir(folder).unwrap().map(|entry| entry.unwrap().path());
    paths
        .filter_map(|path| {
            let bytes = fs::read(&path).ok()?;
            let tape = match path.extension()?.to_str()? {
                "tape" => Tape::decode(&bytes).unwrap(),
                "txt" => assemble(&bytes).unwrap().tape,
                _ => return None,
            };
            Some((path, tape))
        })
        .collect()
}

fn assert_agrees_on_the_stored_tapes(proved: &Proved) {
    for folder in ["tapes", "tapes/exercises"] {
        let tapes = stored_tapes(folder);
        assert!(tapes.len() > 5, "{} tapes in {folder}", tapes.len());
        for (path, tape) in tapes {
            assert_eq!(compare(proved, &tape).unwrap(), None, "{}", path.display());
            assert_eq!(check_tape(&tape, &mut Tally::default()), Ok(()), "{}", path.display());
        }
    }
}

/// Bytes most of which are no tape.
fn hostile_bytes() -> Vec<Vec<u8>> {
    let good = generate(6, 10).encode();
    let mut rng = Rng::new(5);
    let mut cases: Vec<Vec<u8>> = vec![Vec::new(), good[..15].to_vec(), good[..40].to_vec()];
    cases.push([&good[..], &[0]].concat());
    for _ in 0..20 {
        let length = rng.below(200);
        cases.push((0..length).map(|_| rng.below(256) as u8).collect());
        let mut damaged = good.clone();
        damaged[rng.below(16) as usize] ^= 1 << rng.below(8);
        cases.push(damaged);
    }
    for (n, m) in [(2049, 0), (2048, 4001), (0xFFFF_FFFF, 0xFFFF_FFFF), (0, 0)] {
        let header = [n, 16, m, 24u32.wrapping_mul(n).wrapping_add(16)];
        cases.push(header.map(u32::to_le_bytes).concat());
    }
    cases
}

fn assert_agrees_on_hostile_bytes(proved: &Proved) {
    for bytes in hostile_bytes() {
        assert_eq!(compare_bytes(proved, &bytes).unwrap(), None, "{bytes:?}");
    }
}

fn assert_agrees_on_the_largest_tape(proved: &Proved) {
    let filler = Record { call: 13, caller: 1, args: [0; 4] };
    let tape = Tape { records: vec![filler; 2048], words: vec![0xFFFF_FFFF; 4000] };
    assert_eq!(compare(proved, &tape).unwrap(), None);
}

#[test]
fn the_proved_program_agrees_on_generated_tapes() {
    let Some(proved) = proved("comparison on generated tapes") else { return };
    assert_agrees_on_generated_tapes(proved);
}

#[test]
fn the_proved_program_agrees_on_the_stored_tapes() {
    let Some(proved) = proved("comparison on the stored tapes") else { return };
    assert_agrees_on_the_stored_tapes(&proved);
}

#[test]
fn the_proved_program_agrees_on_hostile_bytes() {
    let Some(proved) = proved("comparison on hostile bytes") else { return };
    assert_agrees_on_hostile_bytes(&proved);
}

#[test]
fn the_proved_program_agrees_on_the_largest_tape() {
    let Some(proved) = proved("comparison on the largest tape") else { return };
    assert_agrees_on_the_largest_tape(&proved);
}

#[test]
fn the_library_agrees_on_generated_tapes() {
    assert_agrees_on_generated_tapes(Proved::Library);
}

#[test]
fn the_library_agrees_on_the_stored_tapes() {
    assert_agrees_on_the_stored_tapes(&Proved::Library);
}

#[test]
fn the_library_agrees_on_hostile_bytes() {
    assert_agrees_on_hostile_bytes(&Proved::Library);
}

#[test]
fn the_library_agrees_on_the_largest_tape() {
    assert_agrees_on_the_largest_tape(&Proved::Library);
}

/// The tables that a generated tape leaves, damaged again and again: a run
/// answers as single calls do, most often with the one reply to unsound tables.
#[test]
fn runs_on_damaged_tables_answer_as_single_calls() {
    let tape = generate(20261217, 200);
    let bytes = tape.encode();
    let mut board = Board::new();
    assert_eq!(board.run(&bytes, u32::MAX).status, Status::Success);
    let mut rng = Rng::new(7);
    let mut unsound = 0;
    for _ in 0..200 {
        let damaged = library::damaged(&board, &mut rng);
        unsound += usize::from(!damaged.is_sound());
        assert_eq!(library::run_against_calls(&damaged, &tape, &bytes), None);
    }
    assert!((100..200).contains(&unsound), "{unsound} of 200 unsound");
}
