//! The printed forms of a run: what `replay` and `inspect` print.

use crate::kernel::Outcome;
use crate::line::Line;
use crate::numbers::ThreadNo;
use crate::status::Status;
use crate::tables::{Tables, FOREVER};
use crate::tape::{Record, Tape};

/// What both programs print for a refused tape.
pub fn refused(status: Status) -> String {
    format!("tape refused {}\n", status.0)
}

/// The output of `replay` for a tape's bytes, from nothing created.
pub fn replay(bytes: &[u8]) -> String {
    let tape = match Tape::decode(bytes) {
        Ok(tape) => tape,
        Err(status) => return refused(status),
    };
    let mut out = format!("calls {}\n", tape.records.len());
    let done = tape.run(&mut Tables::new(), u32::MAX, |_, _, outcome, _| {
        number(&mut out, outcome.status.0);
        out.push(' ');
        next(&mut out, outcome.next);
        out.push(' ');
        number(&mut out, outcome.ended);
        out.push('\n');
    });
    out.push_str(&format!("done {done}\n"));
    out
}

/// The output of `inspect` for a tape's bytes, from nothing created.
pub fn inspect(bytes: &[u8]) -> String {
    match Tape::decode(bytes) {
        Ok(tape) => inspect_tape(&tape),
        Err(status) => refused(status),
    }
}

/// The output of `inspect` for a tape, from nothing created.
pub fn inspect_tape(tape: &Tape) -> String {
    let mut out = String::new();
    let mut start = Tables::new();
    tables(&mut out, &start);
    tape.run(&mut start, u32::MAX, |index, record, outcome, after| {
        call(&mut out, index, record);
        result(&mut out, outcome);
        tables(&mut out, after);
    });
    out
}

/// Appends a decimal number.
pub fn number(out: &mut String, mut value: u32) {
    let mut digits = [0u8; 10];
    let mut at = digits.len();
    loop {
        at -= 1;
        digits[at] = b'0' + (value % 10) as u8;
        value /= 10;
        if value == 0 {
            break;
        }
    }
    digits[at..].iter().for_each(|&digit| out.push(digit as char));
}

fn next(out: &mut String, next: Option<ThreadNo>) {
    match next {
        Some(thread) => number(out, thread.0),
        None => out.push('-'),
    }
}

/// Appends `label` and a number.
fn field(out: &mut String, label: &str, value: u32) {
    out.push_str(label);
    number(out, value);
}

/// Appends numbers with `between` in between.
fn list(out: &mut String, between: char, values: impl Iterator<Item = u32>) {
    for (index, value) in values.enumerate() {
        if index > 0 {
            out.push(between);
        }
        number(out, value);
    }
}

/// Appends an `inspect` call line.
pub fn call(out: &mut String, index: usize, record: &Record) {
    field(out, "call ", index as u32);
    field(out, " ", record.call);
    field(out, " ", record.caller);
    for &arg in &record.args {
        field(out, " ", arg);
    }
    out.push('\n');
}

/// Appends an `inspect` result line.
pub fn result(out: &mut String, outcome: &Outcome) {
    field(out, "result ", outcome.status.0);
    out.push(' ');
    next(out, outcome.next);
    field(out, " ", outcome.ended);
    for &word in &outcome.words {
        field(out, " ", word);
    }
    out.push('\n');
}

/// Appends the tables as `inspect` prints them, down to the line with a dot.
/// The tables must be sound.
pub fn tables(out: &mut String, tables: &Tables) {
    field(out, "clock ", tables.clock);
    out.push_str("\nrunning ");
    next(out, tables.runner());
    out.push('\n');
    for index in 0..tables.threads.len() {
        thread(out, tables, index);
    }
    for (priority, order) in tables.ready.iter().enumerate() {
        if !order.is_empty() {
            field(out, "ready ", priority as u32);
            line(out, tables, order);
        }
    }
    semaphores(out, tables);
    queues(out, tables);
    groups(out, tables);
    pools(out, tables);
    out.push_str(".\n");
}

/// Appends `: `, the threads of a line, and the end of the text line.
fn line(out: &mut String, tables: &Tables, line: &Line) {
    out.push_str(": ");
    list(out, ' ', line.iter(&tables.threads).map(|thread| thread.0));
    out.push('\n');
}

fn thread(out: &mut String, tables: &Tables, index: usize) {
    let thread = &tables.threads[index];
    if !thread.created {
        return;
    }
    let (wait, ticks) = match thread.wait {
        0 => ("none", 0),
        FOREVER => ("forever", 0),
        ticks => ("timed", ticks),
    };
    field(out, "thread ", index as u32);
    field(out, " state=", thread.state as u32);
    field(out, " prio=", thread.priority as u32);
    field(out, " thr=", thread.threshold as u32);
    field(out, " mark=", tables.has_mark(index) as u32);
    field(out, " held=", thread.held_suspension as u32);
    field(out, " status=", thread.held_status.0);
    out.push_str(" wait=");
    out.push_str(wait);
    field(out, " ticks=", ticks);
    out.push_str(" words=");
    list(out, ',', thread.held_words.iter().copied());
    field(out, " obj=", thread.object as u32);
    field(out, " front=", thread.front as u32);
    field(out, " req=", thread.request);
    field(out, " opt=", thread.option as u32);
    out.push_str(" msg=");
    list(out, ',', thread.message.iter().copied());
    out.push('\n');
}

fn semaphores(out: &mut String, tables: &Tables) {
    for (index, semaphore) in tables.semaphores.iter().enumerate() {
        if semaphore.created {
            field(out, "sem ", index as u32);
            field(out, " count=", semaphore.count);
            line(out, tables, &semaphore.line);
        }
    }
}

fn queues(out: &mut String, tables: &Tables) {
    for (index, queue) in tables.queues.iter().enumerate() {
        if queue.created {
            field(out, "queue ", index as u32);
            field(out, " size=", queue.size as u32);
            field(out, " storage=", queue.storage as u32);
            field(out, " cap=", queue.capacity as u32);
            out.push_str(" stored=[");
            for (at, message) in queue.messages().enumerate() {
                if at > 0 {
                    out.push('|');
                }
                list(out, ',', message.iter().copied());
            }
            out.push(']');
            line(out, tables, &queue.line);
        }
    }
}

fn groups(out: &mut String, tables: &Tables) {
    for (index, group) in tables.groups.iter().enumerate() {
        if group.created {
            field(out, "group ", index as u32);
            field(out, " flags=", group.flags);
            line(out, tables, &group.line);
        }
    }
}

fn pools(out: &mut String, tables: &Tables) {
    for (index, pool) in tables.pools.iter().enumerate() {
        if pool.created {
            field(out, "pool ", index as u32);
            field(out, " block=", pool.block_bytes);
            field(out, " total=", pool.total_bytes);
            field(out, " blocks=", pool.blocks as u32);
            out.push_str(" free=[");
            list(out, ',', pool.free_blocks().map(u32::from));
            // The format has a space before this colon, unlike the others.
            out.push_str("] ");
            line(out, tables, &pool.line);
        }
    }
}
