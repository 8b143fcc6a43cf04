//! The student errors: each is found by fuzzing, and its exercise shows it.

use board_tools::exercises::{find, first_difference, symptom, STUDENT_ERRORS};
use board_tools::text::assemble::assemble;
use ordinary::{fault, Outcome, Tape};
use std::fs;
use std::path::PathBuf;

fn exercise(name: &str) -> Tape {
    let folder = PathBuf::from(env!("CARGO_MANIFEST_DIR")).join("../../tapes/exercises");
    let bytes = fs::read(folder.join(format!("{name}.txt"))).unwrap();
    assemble(&bytes).unwrap_or_else(|error| panic!("{name}: {error}")).tape
}

/// Status, next thread and ended waits, as `replay` prints them.
fn answer(outcome: &Outcome) -> (u32, Option<u32>, u32) {
    (outcome.status.0, outcome.next.map(|thread| thread.0), outcome.ended)
}

/// The exercise's last call is the one that shows the error.
fn assert_shows(
    fault: u8,
    name: &str,
    right: (u32, Option<u32>, u32),
    wrong: (u32, Option<u32>, u32),
) {
    let tape = exercise(name);
    let difference = symptom(fault, &tape).unwrap();
    assert_eq!(difference.record, tape.records.len() - 1, "{name}");
    assert_eq!(answer(&difference.right), right, "{name}");
    assert_eq!(answer(&difference.wrong), wrong, "{name}");
}

#[test]
fn flags_already_cleared() {
    let name = "flags-already-cleared";
    assert_shows(fault::FLAGS_ALREADY_CLEARED, name, (0, Some(0), 2), (0, Some(0), 1));
}

#[test]
fn line_sorted() {
    assert_shows(fault::LINE_SORTED, "line-sorted", (0, Some(0), 1), (0, Some(2), 1));
}

#[test]
fn late_get_served() {
    let name = "late-get-served";
    assert_shows(fault::LATE_GET_SERVED, name, (0x0D, Some(0), 0), (0, None, 0));
    // The put before it ends no wait.
    let difference = first_difference(fault::LATE_GET_SERVED, &exercise(name)).unwrap();
    assert_eq!(difference.record, 3);
    assert_eq!((difference.right.ended, difference.wrong.ended), (1, 0));
}

#[test]
fn threshold_forgotten() {
    let name = "threshold-forgotten";
    assert_shows(fault::THRESHOLD_FORGOTTEN, name, (0x101, Some(0), 0), (0x101, Some(2), 0));
}

#[test]
fn lowered_runner_stays() {
    let name = "lowered-runner-stays";
    assert_shows(fault::LOWERED_RUNNER_STAYS, name, (0, Some(1), 0), (0, Some(0), 0));
}

#[test]
fn each_exercise_shows_its_own_error_only() {
    for shown in STUDENT_ERRORS {
        let tape = exercise(shown.name);
        for other in STUDENT_ERRORS {
            let differs = first_difference(other.fault, &tape).is_some();
            // Sorting needs puts, which the late get's error also changes.
            let expected = other.fault == shown.fault
                || (shown.fault, other.fault) == (fault::LINE_SORTED, fault::LATE_GET_SERVED);
            assert_eq!(differs, expected, "{} on {}", other.name, shown.name);
        }
        assert!(first_difference(fault::NONE, &tape).is_none());
    }
}

#[test]
fn fuzzing_finds_each_error_and_shrinks_it() {
    for error in STUDENT_ERRORS {
        let (_, tape) =
            find(error.fault, 1, 40, 300).unwrap_or_else(|| panic!("not found: {}", error.title));
        assert!(symptom(error.fault, &tape).is_some());
        assert!(tape.records.len() <= 14, "{}: {} records", error.title, tape.records.len());
    }
}
