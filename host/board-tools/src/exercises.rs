//! Student errors: where a wrong kernel answers differently from the right
//! one, and short tapes that show it.

use crate::fuzz::tape_seed;
use crate::generate::generate;
use crate::shrink::shrink;
use ordinary::{fault, Outcome, Record, Status, Tables, Tape};

/// A student error.
#[derive(Clone, Copy, Debug)]
pub struct StudentError {
    pub fault: u8,
    /// The exercise's file name, without its ending.
    pub name: &'static str,
    pub title: &'static str,
}

/// The five student errors.
pub const STUDENT_ERRORS: [StudentError; 5] = [
    StudentError {
        fault: fault::FLAGS_ALREADY_CLEARED,
        name: "flags-already-cleared",
        title: "testing later waiters against flags already cleared",
    },
    StudentError {
        fault: fault::LINE_SORTED,
        name: "line-sorted",
        title: "sorting the whole line on prioritise",
    },
    StudentError {
        fault: fault::LATE_GET_SERVED,
        name: "late-get-served",
        title: "serving a late get while another waits",
    },
    StudentError {
        fault: fault::THRESHOLD_FORGOTTEN,
        name: "threshold-forgotten",
        title: "forgetting the interrupted threshold",
    },
    StudentError {
        fault: fault::LOWERED_RUNNER_STAYS,
        name: "lowered-runner-stays",
        title: "letting a lowered runner go on",
    },
];

/// One call by a kernel with the given student error, or by the right one.
fn step(tables: &mut Tables, fault: u8, record: &Record, area: &[u32]) -> Outcome {
    let Record { call, caller, args } = *record;
    match fault {
        fault::FLAGS_ALREADY_CLEARED => {
            tables.step_numbered::<{ fault::FLAGS_ALREADY_CLEARED }>(call, caller, args, area)
        }
        fault::LINE_SORTED => {
            tables.step_numbered::<{ fault::LINE_SORTED }>(call, caller, args, area)
        }
        fault::LATE_GET_SERVED => {
            tables.step_numbered::<{ fault::LATE_GET_SERVED }>(call, caller, args, area)
        }
        fault::THRESHOLD_FORGOTTEN => {
            tables.step_numbered::<{ fault::THRESHOLD_FORGOTTEN }>(call, caller, args, area)
        }
        fault::LOWERED_RUNNER_STAYS => {
            tables.step_numbered::<{ fault::LOWERED_RUNNER_STAYS }>(call, caller, args, area)
        }
        _ => tables.step_numbered::<{ fault::NONE }>(call, caller, args, area),
    }
}

/// A record that the two kernels answer differently.
#[derive(Clone, PartialEq, Eq, Debug)]
pub struct Difference {
    pub record: usize,
    pub right: Outcome,
    pub wrong: Outcome,
}

/// The first record whose answers (status, words, next thread, ended waits)
/// differ.
pub fn first_difference(fault: u8, tape: &Tape) -> Option<Difference> {
    find_difference(fault, tape, |_, _, _, _| true)
}

/// The first record at which the student error itself shows. For the late
/// get that is the get which is served although another thread waits; the
/// put before it already counts its ended waits differently.
pub fn symptom(fault: u8, tape: &Tape) -> Option<Difference> {
    if fault != fault::LATE_GET_SERVED {
        return first_difference(fault, tape);
    }
    find_difference(fault, tape, |before, record, right, wrong| {
        record.call == 18
            && wrong.status == Status::SUCCESS
            && right.status != Status::SUCCESS
            && !before.semaphores[record.args[0] as usize].line.is_empty()
    })
}

fn find_difference(
    fault: u8,
    tape: &Tape,
    wanted: impl Fn(&Tables, &Record, &Outcome, &Outcome) -> bool,
) -> Option<Difference> {
    let mut right_tables = Tables::new();
    let mut wrong_tables = Tables::new();
    for (index, record) in tape.records.iter().enumerate() {
        let before = wrong_tables.clone();
        let right = step(&mut right_tables, fault::NONE, record, &tape.words);
        let wrong = step(&mut wrong_tables, fault, record, &tape.words);
        if right != wrong && wanted(&before, record, &right, &wrong) {
            return Some(Difference { record: index, right, wrong });
        }
    }
    None
}

/// A short tape that shows the student error, with the number of the
/// generated tape that it was shrunk from: the shortest over `count` tapes.
pub fn find(fault: u8, seed: u64, count: u64, records: usize) -> Option<(u64, Tape)> {
    let shrunk = (0..count).filter_map(|number| {
        let tape = generate(tape_seed(seed, number), records);
        symptom(fault, &tape)?;
        let short = shrink(&tape, &mut |tape| symptom(fault, tape).is_some());
        Some((number, short))
    });
    shrunk.min_by_key(|(_, tape)| (tape.records.len(), tape.words.len()))
}
