//! Before anything is measured: both kernels answer every record alike.

use super::sides::{self, ReplyWords, Snapshots};
use crate::names::SERVICES;
use apachimo::{library, Board, REPLY_WORDS, STATE_BYTES};
use ordinary::{print, Tape};

/// The replies of a side to the whole tape, from nothing created or, where
/// the side wants it, from the tables before each record.
fn replies(name: &str, tape: &Tape, snapshots: &Snapshots) -> Result<Vec<ReplyWords>, String> {
    let mut side = sides::named(name, &tape.words).ok_or(format!("no side {name}"))?;
    let mut replies = vec![[0; REPLY_WORDS]; tape.records.len()];
    for (index, (record, reply)) in tape.records.iter().zip(&mut replies).enumerate() {
        if side.wants_loading() {
            side.load(snapshots, index, record);
        }
        side.answer(record, &tape.words, reply);
    }
    Ok(replies)
}

fn whole_run(tape: &Tape) -> Vec<ReplyWords> {
    let mut state = [0; STATE_BYTES];
    library::start(&mut state);
    let mut replies = vec![[0; REPLY_WORDS]; tape.records.len()];
    library::run(&mut state, &tape.encode(), u32::MAX, replies.as_flattened_mut());
    replies
}

fn same_replies(name: &str, one: &[ReplyWords], other: &[ReplyWords]) -> Result<(), String> {
    match one.iter().zip(other).position(|(one, other)| one != other) {
        None => Ok(()),
        Some(index) => Err(format!("record {index}: {name} answers otherwise than `step`")),
    }
}

fn same_tables(snapshots: &Snapshots) -> Result<(), String> {
    for (index, (block, tables)) in snapshots.blocks.iter().zip(&snapshots.tables).enumerate() {
        let mut printed = String::new();
        print::tables(&mut printed, tables);
        let board = Board::from_bytes(block).map_err(|status| status.to_string())?;
        if board.tables().to_string() != printed {
            return Err(format!("record {index}: the tables before it differ"));
        }
    }
    Ok(())
}

/// Checks that all sides give the same replies and tables, and that every
/// service occurs.
pub fn check(tape: &Tape, snapshots: &Snapshots) -> Result<(), String> {
    let expected = replies("step", tape, snapshots)?;
    for name in ["call", "run1", "tested"] {
        same_replies(name, &replies(name, tape, snapshots)?, &expected)?;
    }
    same_replies("the run of the whole tape", &whole_run(tape), &expected)?;
    same_tables(snapshots)?;
    match SERVICES.iter().find(|service| !occurs(tape, service.number)) {
        None => Ok(()),
        Some(service) => Err(format!("{} does not occur", service.name)),
    }
}

fn occurs(tape: &Tape, call: u32) -> bool {
    tape.records.iter().any(|record| record.call == call)
}
