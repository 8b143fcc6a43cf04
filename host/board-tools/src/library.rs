//! Runs through the proved library, printed as the program `inspect` prints.

use crate::rng::Rng;
use apachimo::{Board, Reply, Status};
use ordinary::{print, Outcome, Record, Tape, ThreadNo};
use std::fmt::Write;

/// How many damaged boards a tape is run on.
const DAMAGED: u64 = 4;

/// What `inspect` prints for a tape's bytes, from the library's calls. The
/// tape is also run as a whole, and on the last tables with a byte damaged;
/// where a run answers otherwise than the single calls do, a line says so,
/// which `inspect` never prints.
pub fn inspect(bytes: &[u8]) -> String {
    let mut whole = Board::new();
    let run = whole.run(bytes, u32::MAX);
    match (run.status, Tape::decode(bytes)) {
        (Status::Success, Ok(tape)) => inspect_tape(&tape, bytes, &whole, &run.replies),
        (status, Ok(_)) => format!("the run answers {status}\n"),
        (status, Err(_)) => print::refused(ordinary::Status(status.number())),
    }
}

fn inspect_tape(tape: &Tape, bytes: &[u8], whole: &Board, replies: &[Reply]) -> String {
    let mut board = Board::new();
    let mut out = board.tables().to_string();
    for (index, record) in tape.records.iter().enumerate() {
        let Record { call, caller, args } = *record;
        let reply = board.call_numbered(call, caller, args, &tape.words);
        print::call(&mut out, index, record);
        print::result(&mut out, &outcome(&reply));
        if replies.get(index) != Some(&reply) {
            add(&mut out, format_args!("the run answers {:?}\n", replies.get(index)));
        }
        add(&mut out, format_args!("{}", board.tables()));
    }
    if board != *whole {
        add(&mut out, format_args!("the run leaves other tables\n{}", whole.tables()));
    }
    let mut rng = Rng::new(bytes.iter().map(|&byte| u64::from(byte)).sum());
    for _ in 0..DAMAGED {
        let damaged = damaged(&board, &mut rng);
        if let Some(what) = run_against_calls(&damaged, tape, bytes) {
            add(&mut out, format_args!("on damaged tables {what}\n"));
        }
    }
    out
}

/// A board with one byte changed.
pub fn damaged(board: &Board, rng: &mut Rng) -> Board {
    let mut bytes = *board.as_bytes();
    let place = rng.draw() as usize % bytes.len();
    bytes[place] ^= 1 << (rng.draw() % 8);
    Board::from_bytes(&bytes).expect("the block has its length")
}

/// Where a run answers otherwise than single calls do on any block, sound or
/// not, or where a refusal for the tables is not the one reply.
pub fn run_against_calls(board: &Board, tape: &Tape, bytes: &[u8]) -> Option<String> {
    let (mut single, mut whole) = (board.clone(), board.clone());
    let run = whole.run(bytes, u32::MAX);
    let sound = board.is_sound();
    let status = if sound { Status::Success } else { Status::TablesUnsound };
    if run.status != status {
        return Some(format!("the run's status is {}", run.status));
    }
    for (index, record) in tape.records.iter().enumerate() {
        let Record { call, caller, args } = *record;
        let reply = single.call_numbered(call, caller, args, &tape.words);
        if !sound && reply != Reply::UNSOUND {
            return Some(format!("call {index} answers {reply:?}"));
        }
        if run.replies.get(index) != Some(&reply) {
            return Some(format!("the run answers {:?} to record {index}", run.replies.get(index)));
        }
    }
    if run.replies.len() != tape.records.len() {
        return Some(format!("the run has {} replies", run.replies.len()));
    }
    if single != whole || (!sound && whole != *board) {
        return Some("the run leaves other tables".to_string());
    }
    None
}

fn add(out: &mut String, text: std::fmt::Arguments<'_>) {
    out.write_fmt(text).expect("a string takes any text");
}

/// A reply of the library as the ordinary kernel's outcome.
pub fn outcome(reply: &Reply) -> Outcome {
    Outcome {
        status: ordinary::Status(reply.status.number()),
        words: reply.words,
        next: reply.next.map(|thread| ThreadNo(thread.0)),
        ended: reply.ended,
    }
}
