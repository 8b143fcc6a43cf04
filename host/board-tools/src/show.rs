//! A run as a table that a person reads.

use crate::ended::{ended_waits, Ended, Reason};
use crate::names::service_numbered;
use crate::text::list::call_text_with_message;
use ordinary::{print, Outcome, Record, State, Tables, Tape};

/// What to show.
#[derive(Clone, Copy, Debug, Default)]
pub struct Options {
    /// The tables that changed, after each call.
    pub tables: bool,
}

struct Row {
    cells: [String; 6],
    changes: Vec<String>,
}

const HEADS: [&str; 6] = ["line", "call", "status", "answer", "next", "waits ended"];

/// The table of a run from nothing created. `lines` are the text lines of
/// the records; without them records are counted from 1.
pub fn run_table(tape: &Tape, lines: Option<&[usize]>, options: Options) -> String {
    let mut rows = Vec::new();
    let mut before = Tables::new();
    tape.run(&mut Tables::new(), u32::MAX, |index, record, outcome, after| {
        let line = lines.map_or(index + 1, |lines| lines[index]);
        let changes = if options.tables { changes(&before, after) } else { Vec::new() };
        let call = call_text_with_message(record, &before, &tape.words);
        let about = cells(&before, record, outcome, after);
        rows.push(Row { cells: row_cells(line, call, about), changes });
        before = after.clone();
    });
    layout(&rows)
}

fn row_cells(line: usize, call: String, about: [String; 4]) -> [String; 6] {
    let [status, answer, next, ended] = about;
    [line.to_string(), call, status, answer, next, ended]
}

/// Status, answer, next thread and ended waits.
fn cells(before: &Tables, record: &Record, outcome: &Outcome, after: &Tables) -> [String; 4] {
    let next = match outcome.next {
        Some(thread) => format!("thread {thread}"),
        None => "nobody".to_string(),
    };
    let ended: Vec<String> = ended_waits(before, record, after).iter().map(ended_text).collect();
    [
        format!("{} {}", outcome.status.name(record.call), outcome.status),
        answer(record, outcome, before),
        next,
        ended.join("; "),
    ]
}

/// What a wait was for, in words.
pub fn waited_for(state: State, object: u8) -> String {
    match state {
        State::Asleep => "sleep".to_string(),
        State::Queue => format!("queue {object}"),
        State::Semaphore => format!("semaphore {object}"),
        State::Flags => format!("group {object}"),
        State::Block => format!("pool {object}"),
        _ => "nothing".to_string(),
    }
}

/// Who was woken and why, in words.
pub fn ended_text(ended: &Ended) -> String {
    let object = waited_for(ended.from, ended.object);
    // Timeouts of a pool share their number with a start error.
    let status = ended.status.name(35);
    let why = match ended.reason {
        Reason::Served => format!("served by {object}"),
        Reason::SleptOut => "slept out".to_string(),
        Reason::TimedOut => format!("timed out on {object} ({status})"),
        Reason::Aborted => format!("aborted on {object} ({status})"),
        Reason::Deleted => format!("lost {object} ({status})"),
    };
    let suspended = if ended.suspended { ", now suspended" } else { "" };
    format!("thread {} {why}{suspended}", ended.thread)
}

/// The words that the call answers, if it answers any.
fn answer(record: &Record, outcome: &Outcome, before: &Tables) -> String {
    if outcome.status.0 != 0 {
        return String::new();
    }
    let words = &outcome.words;
    match record.call {
        11..=13 | 35 => words[0].to_string(),
        32 => format!("0x{:X}", words[0]),
        26 => {
            let size = before.queues[record.args[0] as usize].size as usize;
            format!("{:?}", &words[..size])
        }
        38 => format!("state {}, held 0x{:02X}", state_name(words[0]), words[1]),
        39 => {
            let used = words.iter().rposition(|&word| word != 0).map_or(1, |last| last + 1);
            format!("{:?}", &words[..used])
        }
        _ => String::new(),
    }
}

fn state_name(state: u32) -> &'static str {
    const NAMES: [&str; 9] = [
        "ready",
        "completed",
        "terminated",
        "suspended",
        "asleep",
        "queue",
        "semaphore",
        "flags",
        "block",
    ];
    NAMES.get(state as usize).copied().unwrap_or("unknown")
}

/// The lines of the tables that changed, field by field.
fn changes(before: &Tables, after: &Tables) -> Vec<String> {
    let (old, new) = (table_lines(before), table_lines(after));
    let find =
        |lines: &[String], wanted: &str| lines.iter().find(|line| key(line) == wanted).cloned();
    let mut changes = Vec::new();
    for line in &new {
        match find(&old, key(line)) {
            None => changes.push(format!("+ {}", shorten(line))),
            Some(old) if old != *line => changes.push(format!("~ {}", changed_fields(&old, line))),
            Some(_) => {}
        }
    }
    for line in &old {
        if find(&new, key(line)).is_none() {
            changes.push(format!("- {}", key(line)));
        }
    }
    changes
}

fn table_lines(tables: &Tables) -> Vec<String> {
    let mut text = String::new();
    print::tables(&mut text, tables);
    text.lines().filter(|line| *line != ".").map(str::to_string).collect()
}

/// What a table line is about: its kind and number.
fn key(line: &str) -> &str {
    let words = if line.starts_with("clock") || line.starts_with("running") { 1 } else { 2 };
    let end = line.match_indices(' ').nth(words - 1).map_or(line.len(), |(at, _)| at);
    line[..end].trim_end_matches(':')
}

/// A new line without fields that are zero or none.
fn shorten(line: &str) -> String {
    let blank = |field: &str| {
        field
            .split_once('=')
            .is_some_and(|(_, value)| value == "none" || value.split(',').all(|part| part == "0"))
    };
    let fields: Vec<&str> = line.split(' ').filter(|field| !blank(field)).collect();
    fields.join(" ")
}

/// The changed fields of a line, with the old values.
fn changed_fields(old: &str, new: &str) -> String {
    let subject = key(new);
    let (old_fields, new_fields) = (fields(old), fields(new));
    let mut parts = vec![subject.to_string()];
    for (name, value) in &new_fields {
        let before = old_fields.iter().find(|(old, _)| old == name).map(|(_, value)| value);
        if before != Some(value) {
            let before = before.map_or("", String::as_str);
            let label = if name.is_empty() { String::new() } else { format!("{name}: ") };
            parts.push(format!("{label}{} -> {}", quiet(before), quiet(value)));
        }
    }
    parts.join("  ")
}

fn quiet(value: &str) -> &str {
    if value.is_empty() {
        "empty"
    } else {
        value
    }
}

/// Named fields of a table line; a line of threads goes under `line`, a bare
/// value under the empty name.
fn fields(line: &str) -> Vec<(String, String)> {
    let rest = line[key(line).len()..].trim_start();
    let (rest, threads) = match rest.split_once(": ").or_else(|| rest.split_once(":")) {
        Some((rest, threads)) => (rest, Some(threads)),
        None => (rest, None),
    };
    let mut fields: Vec<(String, String)> = rest
        .split_whitespace()
        .map(|field| match field.split_once('=') {
            Some((name, value)) => (name.to_string(), value.to_string()),
            None => (String::new(), field.to_string()),
        })
        .collect();
    if let Some(threads) = threads {
        fields.push(("line".to_string(), threads.trim().to_string()));
    }
    fields
}

/// Columns as wide as their widest cell, up to a limit.
fn layout(rows: &[Row]) -> String {
    const WIDEST: usize = 78;
    let mut widths = HEADS.map(str::len);
    for row in rows {
        for (width, cell) in widths.iter_mut().zip(&row.cells) {
            *width = (*width).max(cell.chars().count().min(WIDEST));
        }
    }
    let mut out = String::new();
    push_row(&mut out, &HEADS.map(str::to_string), &widths);
    let rule = widths.map(|width| "-".repeat(width));
    push_row(&mut out, &rule, &widths);
    for row in rows {
        push_row(&mut out, &row.cells, &widths);
        for change in &row.changes {
            out.push_str(&format!("{:indent$}  {change}\n", "", indent = widths[0]));
        }
    }
    out
}

fn push_row(out: &mut String, cells: &[String; 6], widths: &[usize; 6]) {
    let mut line = String::new();
    for (at, (cell, &width)) in cells.iter().zip(widths).enumerate() {
        if at == 0 {
            line.push_str(&format!("{cell:>width$}"));
        } else {
            line.push_str(&format!("  {cell:<width$}"));
        }
    }
    out.push_str(line.trim_end());
    out.push('\n');
}

/// A call's name for a heading: short, without arguments.
pub fn short_name(record: &Record) -> String {
    match service_numbered(record.call) {
        Some(service) => service.name.trim_start_matches("tx_").to_string(),
        None => format!("call {}", record.call),
    }
}
