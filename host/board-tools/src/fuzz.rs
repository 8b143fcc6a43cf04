//! Fuzzing: many generated tapes, checked and compared.

use crate::check::{check_tape, Tally};
use crate::compare::{compare, Proved};
use crate::generate::generate;
use crate::rng::Rng;
use crate::shrink::shrink;
use ordinary::Tape;

/// What to fuzz.
#[derive(Clone, Debug)]
pub struct Options {
    pub seed: u64,
    /// The first tape's number; a run can begin where another stopped.
    pub from: u64,
    pub count: u64,
    pub records: usize,
    /// What to compare with, if anything.
    pub proved: Option<Proved>,
}

/// A tape on which something failed, shrunk.
#[derive(Clone, Debug)]
pub struct Found {
    /// The tape's number.
    pub number: u64,
    pub tape: Tape,
    pub what: String,
}

/// The seed of one tape, so that each can be made again by itself.
pub fn tape_seed(seed: u64, number: u64) -> u64 {
    Rng::new(seed ^ number.wrapping_mul(0xD134_2543_DE82_EF95)).draw()
}

/// Fuzzes; `progress` is told after each tape how many are done. Gives a
/// tally of all calls, or the first failure. An error is one of running the
/// proved side at all.
pub fn fuzz(
    options: &Options,
    progress: &mut dyn FnMut(u64, &Tally),
) -> Result<Result<Tally, Found>, String> {
    let proved = options.proved.as_ref();
    let mut tally = Tally::default();
    for number in options.from..options.from + options.count {
        let tape = generate(tape_seed(options.seed, number), options.records);
        if let Some(what) = failure(proved, &tape, &mut tally)? {
            return Ok(Err(shrink_failure(proved, number, &tape, what)));
        }
        progress(number + 1 - options.from, &tally);
    }
    Ok(Ok(tally))
}

/// What is wrong with a tape's run, if anything.
fn failure(
    proved: Option<&Proved>,
    tape: &Tape,
    tally: &mut Tally,
) -> Result<Option<String>, String> {
    if let Err(failure) = check_tape(tape, tally) {
        return Ok(Some(format!("record {}: {}", failure.record, failure.what)));
    }
    let Some(proved) = proved else { return Ok(None) };
    Ok(compare(proved, tape)?.map(|difference| difference.describe(tape)))
}

fn shrink_failure(proved: Option<&Proved>, number: u64, tape: &Tape, what: String) -> Found {
    let fails = |tape: &Tape| failure(proved, tape, &mut Tally::default());
    let short = shrink(tape, &mut |tape| matches!(fails(tape), Ok(Some(_))));
    let what = match fails(&short) {
        Ok(Some(what)) => what,
        _ => what,
    };
    Found { number, tape: short, what }
}
