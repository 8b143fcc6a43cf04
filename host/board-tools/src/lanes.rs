//! A run as an SVG picture: one lane a thread, coloured by state over the
//! calls, with markers where waits end.

use crate::ended::{ended_waits, Ended, Reason};
use crate::show::{ended_text, short_name, waited_for};
use crate::text::list::call_text_with_message;
use ordinary::{Outcome, Record, State, Status, Tables, Tape, ThreadNo};
use std::fmt::Write;
use std::ops::Range;

const FONT: &str = "'Inter','Segoe UI','Helvetica Neue',Arial,'DejaVu Sans',sans-serif";
const INK: &str = "#1f2933";
const FAINT: &str = "#66727f";
const RULE: &str = "#e3e7eb";

const DONE: &str = "#8fd3a3";
const WAITS: &str = "#f4a95d";
const REFUSED: &str = "#d64545";

const LEFT: f64 = 168.0;
const LANE: f64 = 26.0;
const LANE_STEP: f64 = 36.0;
const ANSWER: f64 = 12.0;
const TITLE: f64 = 64.0;

/// How a lane looks for a while.
#[derive(Clone, Copy, PartialEq, Eq, Debug)]
enum Look {
    Absent,
    Running,
    Ready,
    /// Ready, preempted while its threshold was below its priority.
    Preempted,
    Suspended,
    Asleep,
    Queue,
    Semaphore,
    Flags,
    Block,
    Completed,
    Terminated,
}

impl Look {
    const SHOWN: [Look; 11] = [
        Look::Running,
        Look::Ready,
        Look::Preempted,
        Look::Suspended,
        Look::Asleep,
        Look::Semaphore,
        Look::Queue,
        Look::Flags,
        Look::Block,
        Look::Completed,
        Look::Terminated,
    ];

    fn of(tables: &Tables, thread: usize) -> Look {
        let record = &tables.threads[thread];
        if !record.created {
            return Look::Absent;
        }
        match record.state {
            State::Ready if tables.running.index() == Some(thread) => Look::Running,
            State::Ready if tables.is_marked(ThreadNo(thread as u32)) => Look::Preempted,
            State::Ready => Look::Ready,
            State::Completed => Look::Completed,
            State::Terminated => Look::Terminated,
            State::Suspended => Look::Suspended,
            State::Asleep => Look::Asleep,
            State::Queue => Look::Queue,
            State::Semaphore => Look::Semaphore,
            State::Flags => Look::Flags,
            State::Block => Look::Block,
        }
    }

    fn fill(self) -> &'static str {
        match self {
            Look::Absent => "none",
            Look::Running => "#1a7f45",
            Look::Ready => "#b4e0c0",
            Look::Preempted => "url(#preempted)",
            Look::Suspended => "#c3c9d0",
            Look::Asleep => "#d3c4ec",
            Look::Queue => "#86b8ea",
            Look::Semaphore => "#f4a95d",
            Look::Flags => "#f5d864",
            Look::Block => "#74cbc6",
            Look::Completed => "#ffffff",
            Look::Terminated => "#5a6470",
        }
    }

    fn ink(self) -> &'static str {
        match self {
            Look::Running | Look::Terminated => "#ffffff",
            _ => INK,
        }
    }

    fn name(self) -> &'static str {
        match self {
            Look::Absent => "not created",
            Look::Running => "running",
            Look::Ready => "ready",
            Look::Preempted => "preempted, keeps its threshold",
            Look::Suspended => "suspended",
            Look::Asleep => "asleep",
            Look::Queue => "waits on a queue",
            Look::Semaphore => "waits on a semaphore",
            Look::Flags => "waits for flags",
            Look::Block => "waits for a block",
            Look::Completed => "completed",
            Look::Terminated => "terminated",
        }
    }
}

/// What one lane shows after one call.
#[derive(Clone, Copy, PartialEq, Eq, Debug)]
struct Moment {
    look: Look,
    object: u8,
    held_suspension: bool,
    priority: u8,
    threshold: u8,
}

impl Moment {
    fn of(tables: &Tables, thread: usize) -> Moment {
        let record = &tables.threads[thread];
        Moment {
            look: Look::of(tables, thread),
            object: record.object,
            held_suspension: record.held_suspension,
            priority: record.priority,
            threshold: record.threshold,
        }
    }

    /// A label for a stretch of the lane.
    fn label(&self, state: State) -> String {
        match self.look {
            Look::Queue | Look::Semaphore | Look::Flags | Look::Block => {
                waited_for(state, self.object)
            }
            Look::Asleep => "asleep".to_string(),
            Look::Running => "running".to_string(),
            Look::Suspended => "suspended".to_string(),
            _ => String::new(),
        }
    }

    fn state(&self) -> State {
        match self.look {
            Look::Queue => State::Queue,
            Look::Semaphore => State::Semaphore,
            Look::Flags => State::Flags,
            Look::Block => State::Block,
            Look::Asleep => State::Asleep,
            _ => State::Ready,
        }
    }
}

/// One call of the run.
struct Column {
    line: usize,
    record: Record,
    text: String,
    outcome: Outcome,
    clock: u32,
    moments: Vec<Moment>,
    ended: Vec<Ended>,
}

/// Runs the tape and keeps what the picture needs.
fn columns(tape: &Tape, lines: Option<&[usize]>) -> Vec<Column> {
    let mut before = Tables::new();
    let mut columns = Vec::new();
    tape.run(&mut Tables::new(), u32::MAX, |index, record, outcome, after| {
        columns.push(Column {
            line: lines.map_or(index + 1, |lines| lines[index]),
            record: *record,
            text: call_text_with_message(record, &before, &tape.words),
            outcome: *outcome,
            clock: after.clock,
            moments: (0..32).map(|thread| Moment::of(after, thread)).collect(),
            ended: ended_waits(&before, record, after),
        });
        before = after.clone();
    });
    columns
}

/// Draws a run from nothing created. `lines` are the text lines of the
/// records; without them records are counted from 1.
pub fn draw(tape: &Tape, lines: Option<&[usize]>) -> String {
    let columns = columns(tape, lines);
    let threads: Vec<usize> = (0..32)
        .filter(|&thread| columns.iter().any(|column| column.moments[thread].look != Look::Absent))
        .collect();
    let mut picture = Picture::new(&columns, &threads);
    picture.title();
    picture.heads();
    picture.answers();
    picture.lanes();
    picture.clock();
    picture.legend();
    picture.finish()
}

struct Picture<'a> {
    columns: &'a [Column],
    threads: &'a [usize],
    cell: f64,
    /// Calls are named above their columns; else only lines are numbered.
    named: bool,
    width: f64,
    height: f64,
    answers_at: f64,
    lanes_at: f64,
    body: String,
}

impl<'a> Picture<'a> {
    fn new(columns: &'a [Column], threads: &'a [usize]) -> Picture<'a> {
        let cell = match columns.len() {
            0..=40 => 40.0,
            41..=120 => 24.0,
            121..=500 => 11.0,
            _ => 6.0,
        };
        let named = cell >= 20.0;
        let margin = if named { 120.0 } else { 40.0 };
        let answers_at = TITLE + if named { 138.0 } else { 30.0 };
        let lanes_at = answers_at + ANSWER + 16.0;
        let lanes_end = lanes_at + threads.len() as f64 * LANE_STEP;
        Picture {
            columns,
            threads,
            cell,
            named,
            width: (LEFT + columns.len() as f64 * cell + margin).max(1010.0),
            height: lanes_end + 40.0 + 150.0,
            answers_at,
            lanes_at,
            body: String::new(),
        }
    }

    fn x(&self, column: usize) -> f64 {
        LEFT + column as f64 * self.cell
    }

    fn lanes_end(&self) -> f64 {
        self.lanes_at + self.threads.len() as f64 * LANE_STEP - (LANE_STEP - LANE)
    }

    fn put(&mut self, element: std::fmt::Arguments<'_>) {
        self.body.write_fmt(element).expect("writing to a string succeeds");
        self.body.push('\n');
    }

    fn text(&mut self, x: f64, y: f64, size: f64, fill: &str, rest: &str, text: &str) {
        let text = escape(text);
        self.put(format_args!(
            r#"<text x="{x:.1}" y="{y:.1}" font-size="{size}" fill="{fill}"{rest}>{text}</text>"#
        ));
    }

    fn title(&mut self) {
        let calls = self.columns.len();
        let refused =
            self.columns.iter().filter(|column| !column.outcome.status.is_carried_out()).count();
        let ended: u32 = self.columns.iter().map(|column| column.outcome.ended).sum();
        let last = self.columns.last().map_or(0, |column| column.clock);
        self.text(24.0, 32.0, 19.0, INK, r#" font-weight="600""#, "What each thread did");
        let line = format!(
            "Calls: {calls}, refused: {refused}, waits ended: {ended}, clock at the end: {last}. \
             A column shows the state after its call."
        );
        self.text(24.0, 52.0, 12.5, FAINT, "", &line);
    }

    /// Call names, or line numbers, above the columns.
    fn heads(&mut self) {
        let columns = self.columns;
        for (index, column) in columns.iter().enumerate() {
            let x = self.x(index) + self.cell / 2.0;
            let y = self.answers_at - 8.0;
            if self.named {
                let name = format!("{} {}", column.line, short_name(&column.record));
                let ink = caller_ink(column.record.caller);
                let turn = format!(r#" transform="rotate(-52 {x:.1} {y:.1})""#);
                self.text(x, y, 11.5, ink, &turn, &name);
            } else if index % 10 == 0 {
                let line = column.line.to_string();
                self.text(x, y, 10.5, FAINT, r#" text-anchor="middle""#, &line);
            }
        }
        if self.named {
            self.caller_legend();
        }
    }

    fn caller_legend(&mut self) {
        let names = ["by start-up", "by an interrupt", "by the running thread"];
        for (caller, name) in names.into_iter().enumerate() {
            let y = self.answers_at - 58.0 + 16.0 * caller as f64;
            self.text(24.0, y, 11.5, caller_ink(caller as u32), "", name);
        }
    }

    /// One small box a call: done, waiting or refused.
    fn answers(&mut self) {
        let y = self.answers_at;
        self.text(24.0, y + 10.0, 12.0, FAINT, "", "answer");
        let columns = self.columns;
        for (index, column) in columns.iter().enumerate() {
            let status = column.outcome.status;
            let fill = match status {
                Status::SUCCESS | Status::SUSPEND_LIFTED => DONE,
                Status::WAITING => WAITS,
                _ => REFUSED,
            };
            let x = self.x(index) + 1.0;
            let width = self.cell - 2.0;
            let hint = escape(&format!(
                "{}: {} -> {} {status}",
                column.line,
                column.text,
                status.name(column.record.call)
            ));
            self.put(format_args!(
                r#"<rect x="{x:.1}" y="{y:.1}" width="{width:.1}" height="{ANSWER}" rx="2.5" fill="{fill}"><title>{hint}</title></rect>"#
            ));
            if !status.is_carried_out() && self.named {
                let number = status.to_string();
                self.text(
                    x + width / 2.0,
                    y + 9.6,
                    8.5,
                    "#ffffff",
                    r#" text-anchor="middle" font-weight="600""#,
                    number.trim_start_matches("0x"),
                );
            }
        }
    }

    fn lanes(&mut self) {
        let threads = self.threads;
        for (row, &thread) in threads.iter().enumerate() {
            let y = self.lanes_at + row as f64 * LANE_STEP;
            self.lane_label(thread, y);
            let end = self.x(self.columns.len());
            let middle = y + LANE / 2.0;
            self.put(format_args!(
                r#"<line x1="{LEFT}" y1="{middle:.1}" x2="{end:.1}" y2="{middle:.1}" stroke="{RULE}"/>"#
            ));
            self.stretches(thread, y);
            self.markers(thread, y);
        }
    }

    fn lane_label(&mut self, thread: usize, y: f64) {
        let columns = self.columns;
        let created = columns.iter().find(|column| column.moments[thread].look != Look::Absent);
        let Some(moment) = created.map(|column| column.moments[thread]) else { return };
        let name = format!("thread {thread}");
        self.text(24.0, y + 12.0, 13.5, INK, r#" font-weight="600""#, &name);
        let about = if moment.threshold == moment.priority {
            format!("priority {}", moment.priority)
        } else {
            format!("priority {}, threshold {}", moment.priority, moment.threshold)
        };
        self.text(24.0, y + 25.0, 10.5, FAINT, "", &about);
    }

    /// Equal moments side by side, drawn as one.
    fn stretches(&mut self, thread: usize, y: f64) {
        let columns = self.columns;
        let mut start = 0;
        while start < columns.len() {
            let moment = columns[start].moments[thread];
            let same = columns[start..]
                .iter()
                .take_while(|column| same_stretch(&column.moments[thread], &moment))
                .count();
            let marked = columns[start].ended.iter().any(|ended| ended.thread == thread);
            // The label makes room for a marker at the beginning.
            let shift = if marked { 8.0 } else { 0.0 };
            self.stretch(&moment, start..start + same, y, shift);
            start += same;
        }
    }

    fn stretch(&mut self, moment: &Moment, columns: Range<usize>, y: f64, shift: f64) {
        if moment.look == Look::Absent {
            return;
        }
        let (x, width) = (self.x(columns.start), columns.len() as f64 * self.cell);
        let fill = moment.look.fill();
        let outline = match moment.look {
            Look::Completed => r##" stroke="#9aa5b1" stroke-dasharray="3 3""##,
            _ => r##" stroke="#ffffff""##,
        };
        let label = moment.label(moment.state());
        let held = if moment.held_suspension { ", suspension held" } else { "" };
        let hint = escape(&format!(
            "{}{}{held}",
            moment.look.name(),
            if label.is_empty() { String::new() } else { format!(" ({label})") }
        ));
        self.put(format_args!(
            r#"<rect x="{x:.1}" y="{y:.1}" width="{width:.1}" height="{LANE}" rx="3"{outline} fill="{fill}"><title>{hint}</title></rect>"#
        ));
        if moment.held_suspension {
            let at = y + LANE - 5.0;
            self.put(format_args!(
                r#"<rect x="{x:.1}" y="{at:.1}" width="{width:.1}" height="5" fill="url(#held)"/>"#
            ));
        }
        let room = label.len() as f64 * 6.2 + 26.0 + shift;
        if !label.is_empty() && width >= room {
            let ink = moment.look.ink();
            let middle = x + width / 2.0 + shift;
            self.text(middle, y + 17.0, 11.5, ink, r#" text-anchor="middle""#, &label);
        }
    }

    fn markers(&mut self, thread: usize, y: f64) {
        let columns = self.columns;
        for (index, column) in columns.iter().enumerate() {
            for ended in column.ended.iter().filter(|ended| ended.thread == thread) {
                let x = self.x(index) + (self.cell / 2.0).min(8.0);
                let hint = format!("{}: {}", column.line, ended_text(ended));
                let mark = marker(ended.reason, x, y - 1.0);
                self.put(format_args!("<g>{mark}<title>{}</title></g>", escape(&hint)));
            }
        }
    }

    /// Ticks as faint lines, with the clock below.
    fn clock(&mut self) {
        let (top, bottom) = (self.lanes_at - 4.0, self.lanes_end() + 6.0);
        self.text(24.0, bottom + 13.0, 12.0, FAINT, "", "clock");
        let columns = self.columns;
        let mut free = 0.0;
        let mut last = None;
        for (index, column) in columns.iter().enumerate() {
            if last == Some(column.clock) || !column.outcome.status.is_carried_out() {
                continue;
            }
            if last.is_some() || column.clock != 0 {
                let x = self.x(index);
                self.put(format_args!(
                    r##"<line x1="{x:.1}" y1="{top:.1}" x2="{x:.1}" y2="{bottom:.1}" stroke="#9aa5b1" stroke-dasharray="2 4"/>"##
                ));
                if x >= free {
                    let label = column.clock.to_string();
                    self.text(x, bottom + 13.0, 11.0, FAINT, r#" text-anchor="middle""#, &label);
                    free = x + label.len() as f64 * 6.5 + 14.0;
                }
            }
            last = Some(column.clock);
        }
    }

    fn legend(&mut self) {
        let top = self.lanes_end() + 48.0;
        self.put(format_args!(
            r#"<line x1="24" y1="{:.1}" x2="{:.1}" y2="{:.1}" stroke="{RULE}"/>"#,
            top - 14.0,
            self.width - 24.0,
            top - 14.0
        ));
        for (index, look) in Look::SHOWN.into_iter().enumerate() {
            let x = 24.0 + (index % 4) as f64 * 240.0;
            let y = top + (index / 4) as f64 * 24.0;
            let fill = look.fill();
            self.put(format_args!(
                r##"<rect x="{x:.1}" y="{y:.1}" width="26" height="14" rx="3" fill="{fill}" stroke="#9aa5b1" stroke-width="0.6"/>"##
            ));
            self.text(x + 34.0, y + 11.5, 12.0, INK, "", look.name());
        }
        self.held_legend(24.0 + 3.0 * 240.0, top + 48.0);
        self.marker_legend(top + 84.0);
        self.answer_legend(top + 112.0);
    }

    fn answer_legend(&mut self, y: f64) {
        let answers =
            [(DONE, "answer: done"), (WAITS, "answer: now waits"), (REFUSED, "answer: refused")];
        for (index, (fill, name)) in answers.into_iter().enumerate() {
            let x = 24.0 + index as f64 * 160.0;
            self.put(format_args!(
                r#"<rect x="{x:.1}" y="{y:.1}" width="16" height="{ANSWER}" rx="2.5" fill="{fill}"/>"#
            ));
            self.text(x + 24.0, y + 10.5, 12.0, INK, "", name);
        }
    }

    fn held_legend(&mut self, x: f64, y: f64) {
        self.put(format_args!(
            r##"<rect x="{x:.1}" y="{y:.1}" width="26" height="14" rx="3" fill="#f4a95d" stroke="#9aa5b1" stroke-width="0.6"/><rect x="{x:.1}" y="{:.1}" width="26" height="5" fill="url(#held)"/>"##,
            y + 9.0
        ));
        self.text(x + 34.0, y + 11.5, 12.0, INK, "", "with a held suspension");
    }

    fn marker_legend(&mut self, y: f64) {
        let reasons = [
            (Reason::Served, "wait served"),
            (Reason::TimedOut, "wait timed out"),
            (Reason::SleptOut, "slept out"),
            (Reason::Aborted, "wait aborted"),
            (Reason::Deleted, "object deleted"),
        ];
        for (index, (reason, name)) in reasons.into_iter().enumerate() {
            let x = 24.0 + index as f64 * 160.0;
            let mark = marker(reason, x + 8.0, y);
            self.put(format_args!("{mark}"));
            self.text(x + 24.0, y + 11.5, 12.0, INK, "", name);
        }
    }

    fn finish(self) -> String {
        let (width, height) = (self.width, self.height);
        format!(
            r##"<svg xmlns="http://www.w3.org/2000/svg" width="{width:.0}" height="{height:.0}" viewBox="0 0 {width:.0} {height:.0}" font-family="{FONT}">
<defs>
<pattern id="preempted" width="8" height="8" patternUnits="userSpaceOnUse" patternTransform="rotate(45)"><rect width="8" height="8" fill="#b4e0c0"/><rect width="3" height="8" fill="#5fae7a"/></pattern>
<pattern id="held" width="6" height="6" patternUnits="userSpaceOnUse" patternTransform="rotate(45)"><rect width="6" height="6" fill="#c3c9d0"/><rect width="2.5" height="6" fill="#3e4a57"/></pattern>
</defs>
<rect width="{width:.0}" height="{height:.0}" fill="#ffffff"/>
{}</svg>
"##,
            self.body
        )
    }
}

/// The colour of a call's name, by its caller.
fn caller_ink(caller: u32) -> &'static str {
    match caller {
        1 => "#a2480b",
        2 => "#14532d",
        _ => FAINT,
    }
}

/// Whether two moments belong to one stretch: what is drawn is the same.
fn same_stretch(one: &Moment, other: &Moment) -> bool {
    one.look == other.look
        && one.object == other.object
        && one.held_suspension == other.held_suspension
}

/// A marker, its middle at `x`, in the upper part of a lane.
fn marker(reason: Reason, x: f64, y: f64) -> String {
    let c = y + 8.0;
    let edge = r##"stroke="#ffffff" stroke-width="1.2""##;
    match reason {
        Reason::Served => {
            let (low, top, a, b) = (c + 5.5, c - 6.5, x - 6.5, x + 6.5);
            format!(
                r##"<path d="M{a:.1} {low:.1}L{x:.1} {top:.1}L{b:.1} {low:.1}Z" fill="#0b5fa5" {edge}/>"##
            )
        }
        Reason::TimedOut => clock_marker(x, c, "#c81e1e", edge),
        Reason::SleptOut => clock_marker(x, c, "#6b3fa0", edge),
        Reason::Aborted => {
            let (a, b, low, top) = (x - 6.5, x + 6.5, c + 6.5, c - 6.5);
            format!(
                r##"<path d="M{x:.1} {top:.1}L{b:.1} {c:.1}L{x:.1} {low:.1}L{a:.1} {c:.1}Z" fill="#b4430c" {edge}/>"##
            )
        }
        Reason::Deleted => {
            let (a, top) = (x - 5.5, c - 5.5);
            format!(
                r##"<rect x="{a:.1}" y="{top:.1}" width="11" height="11" fill="#1f2933" {edge}/>"##
            )
        }
    }
}

/// A small clock face.
fn clock_marker(x: f64, c: f64, fill: &str, edge: &str) -> String {
    format!(
        r##"<circle cx="{x:.1}" cy="{c:.1}" r="6.5" fill="{fill}" {edge}/><path d="M{x:.1} {:.1}V{c:.1}H{:.1}" fill="none" stroke="#ffffff" stroke-width="1.4"/>"##,
        c - 4.0,
        x + 3.2
    )
}

fn escape(text: &str) -> String {
    text.replace('&', "&amp;").replace('<', "&lt;").replace('>', "&gt;").replace('"', "&quot;")
}
