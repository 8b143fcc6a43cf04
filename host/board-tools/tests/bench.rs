//! The calls of the measurement, and a short run of it.

use board_tools::bench::agreement;
use board_tools::bench::counts::own_costs;
use board_tools::bench::mix::{mix, Line, CALLS};
use board_tools::bench::sides::Snapshots;
use board_tools::check::{check_tape, Tally};
use board_tools::names::SERVICES;
use ordinary::{Tables, Tape};
use std::fs;
use std::path::PathBuf;
use std::process::Command;

#[test]
fn the_mix_is_a_tape_of_1600_calls() {
    let mix = mix();
    assert_eq!((mix.tape.records.len(), mix.refused.len()), (CALLS, CALLS));
    assert_eq!(Tape::decode(&mix.tape.encode()).as_ref(), Ok(&mix.tape));
}

#[test]
fn every_service_is_carried_out_and_some_calls_are_refused() {
    let mix = mix();
    let mut tally = Tally::default();
    check_tape(&mix.tape, &mut tally).unwrap();
    for call in 1..40 {
        assert!(tally.by_call[call].0 > 0, "call {call}");
    }
    let refused: u64 = tally.by_call.iter().map(|(_, refused)| refused).sum();
    assert!((50..200).contains(&refused), "{refused} refused");
}

#[test]
fn calls_are_refused_where_they_are_meant_to_be() {
    let mix = mix();
    let mut tables = Tables::new();
    mix.tape.run(&mut tables, u32::MAX, |index, record, outcome, _| {
        let status = outcome.status;
        let expected = mix.refused[index];
        assert_eq!(!status.is_carried_out(), expected, "{index}: {record:?} {status}");
    });
}

/// Every length from 0 to 31 occurs before a call on the line.
#[test]
fn lines_have_every_length() {
    let mix = mix();
    let mut lengths = [0u32; 5];
    let mut tables = Tables::new();
    mix.tape.run(&mut tables, u32::MAX, |_, _, _, after| {
        for (line, seen) in Line::ALL.iter().zip(&mut lengths) {
            *seen |= 1u32.checked_shl(line.length(after) as u32).unwrap_or(0);
        }
    });
    assert_eq!(lengths, [u32::MAX; 5]);
}

#[test]
fn both_sides_agree_on_every_result() {
    let tape = mix().tape;
    assert_eq!(agreement::check(&tape, &Snapshots::of(&tape)), Ok(()));
}

#[test]
fn a_service_that_does_not_occur_is_found() {
    let mut tape = mix().tape;
    tape.records.retain(|record| record.call != 37);
    let found = agreement::check(&tape, &Snapshots::of(&tape)).unwrap_err();
    assert_eq!(found, "tx_block_pool_prioritize does not occur");
}

#[test]
fn other_tables_or_results_are_found() {
    let tape = mix().tape;
    let mut snapshots = Snapshots::of(&tape);
    // The clock before the last record: none of the replies shows it.
    let last = tape.records.len() - 1;
    assert_ne!(tape.records[last].call, 13);
    snapshots.tables[last].clock += 1;
    let found = agreement::check(&tape, &snapshots).unwrap_err();
    assert!(found.contains("the tables before it differ"), "{found}");
    // The clock before a record that reads it.
    let mut snapshots = Snapshots::of(&tape);
    let reads = tape.records.iter().position(|record| record.call == 13).unwrap();
    snapshots.blocks[reads][5274] ^= 1;
    let found = agreement::check(&tape, &snapshots).unwrap_err();
    assert_eq!(found, format!("record {reads}: run1 answers otherwise than `step`"));
}

/// A callgrind file with a copy of 30 instructions, and calls whose costs are
/// not their callers' own.
const COUNTED: &str = "\
version: 1
events: Ir
fl=(1) a.rs
fn=(1) answer
10 5
+2 7
cfn=(2) __memcpy_avx_unaligned_erms
calls=2 0
* 30
cfn=(3) other
calls=1 40
-1 11
+4 3

fn=(2)
0 30

fn=(3)
40 11

totals: 56
";

#[test]
fn copies_are_told_from_other_instructions() {
    assert_eq!(own_costs(COUNTED), Ok((56.0, 26.0)));
    let cut = COUNTED.replace("40 11\n", "");
    assert!(own_costs(&cut).unwrap_err().contains("45"), "{:?}", own_costs(&cut));
}

#[test]
fn copied_bytes_are_counted_for_every_service() {
    let output = Command::new(env!("CARGO_BIN_EXE_count-copies")).output().unwrap();
    let text = String::from_utf8(output.stdout).unwrap();
    let numbers = |side: &str| -> Vec<u64> {
        let line = text.lines().find_map(|line| line.strip_prefix(side)).unwrap();
        line.split_whitespace().map(|number| number.parse().unwrap()).collect()
    };
    assert_eq!(numbers("none "), [0; 39]);
    assert!(numbers("call ").len() == 39 && numbers("call ").iter().all(|&bytes| bytes > 0));
    let run = numbers("run1 ").into_iter().zip(numbers("run0 "));
    assert!(run.clone().count() == 39 && run.into_iter().all(|(one, none)| one >= none));
    // Messages of 16 words are copied by the ordinary kernel too.
    assert!(numbers("step ")[23] > 0, "{text}");
}

#[test]
fn a_smoke_run_reports_every_service() {
    let folder = PathBuf::from(env!("CARGO_TARGET_TMPDIR")).join("bench-smoke");
    fs::create_dir_all(&folder).unwrap();
    let chart = folder.join("bench.svg");
    let output = Command::new(env!("CARGO_BIN_EXE_board-tools"))
        .args(["bench", "--smoke", "--svg", chart.to_str().unwrap()])
        .output()
        .unwrap();
    let text = String::from_utf8(output.stdout).unwrap();
    assert!(output.status.success(), "{}", String::from_utf8_lossy(&output.stderr));
    assert!(text.starts_with("Both sides agree on all 1600 calls, and every service occurs.\n"));
    let picture = fs::read_to_string(&chart).unwrap();
    for service in SERVICES {
        let row = |line: &&str| line.split_whitespace().next() == Some(service.name);
        assert_eq!(text.lines().filter(row).count(), 1, "{}", service.name);
        assert!(picture.contains(&format!(">{}</text>", service.name)), "{}", service.name);
    }
    assert!(picture.starts_with("<svg ") && picture.ends_with("</svg>\n"));
    assert!(!picture.contains("NaN") && !picture.contains("inf"), "{picture}");
    assert!(
        text.contains("apachimo_is_sound") && text.contains("One copy of 5432 bytes"),
        "{text}"
    );
}

#[test]
fn bad_options_of_the_measurement() {
    for (args, message) in [
        (&["bench", "x"][..], "bench takes only options"),
        (&["bench", "--rounds", "0"], "--rounds must be 1 to 10000"),
        (&["bench", "--count", "nobody"], "no side `nobody`"),
    ] {
        let output = Command::new(env!("CARGO_BIN_EXE_board-tools")).args(args).output().unwrap();
        let error = String::from_utf8(output.stderr).unwrap();
        assert_eq!(output.status.code(), Some(2), "{error}");
        assert!(output.stdout.is_empty() && error.contains(message), "{error}");
    }
}
