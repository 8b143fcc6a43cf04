//! The measurement as tables.

use super::counts::Counts;
use super::mix::Mix;
use super::times::{percentile, sorted, Ticks, Times, TABLES_BYTES};
use crate::names::SERVICES;
use std::fmt::Write;

/// The median of the rounds' quotients of times, and the quotients below and
/// above which a tenth of the rounds lie.
#[derive(Clone, Copy, PartialEq, Debug)]
pub struct Ratio {
    pub middle: f64,
    pub low: f64,
    pub high: f64,
}

/// One service, or all of them.
#[derive(Clone, PartialEq, Debug)]
pub struct Row {
    pub name: String,
    pub calls: usize,
    pub refused: usize,
    /// Nanoseconds a call: the ordinary step and tested call, the library's
    /// general call and its step in a run.
    pub step: f64,
    pub tested: f64,
    pub call: f64,
    pub run: f64,
    pub call_by_step: Ratio,
    pub call_by_tested: Ratio,
    pub run_by_step: Ratio,
    /// Instructions a call without copies: call, run, step, tested.
    pub instructions: Option<[f64; 4]>,
    /// All instructions a call, in the same order.
    pub all_instructions: Option<[f64; 4]>,
    /// Bytes copied a call, in the same order.
    pub copied: Option<[f64; 4]>,
}

/// Counted instructions and bytes, where they could be counted.
#[derive(Default)]
pub struct Counted {
    /// All instructions, and those without copies.
    pub instructions: Option<(Counts, Counts)>,
    pub copied: Option<Counts>,
}

/// Everything that is reported.
pub struct Report {
    pub rows: Vec<Row>,
    pub whole: Ratio,
    /// Nanoseconds of the whole tape: the library's run, the ordinary steps.
    pub whole_times: [f64; 2],
    /// Nanoseconds of the soundness tests, the library's and the ordinary one.
    pub tests: [f64; 2],
    /// Nanoseconds of one copy of the kernel's tables.
    pub copy: f64,
    pub rounds: usize,
    /// Why something was not counted.
    pub notes: Vec<String>,
}

/// Sums over some records.
struct Sums<'a> {
    records: &'a [usize],
}

impl Sums<'_> {
    fn of(&self, values: &[f64]) -> f64 {
        self.records.iter().map(|&index| values[index]).sum()
    }

    fn of_round(&self, ticks: &Ticks, round: usize) -> f64 {
        self.records.iter().map(|&index| f64::from(ticks.rounds[round][index])).sum()
    }
}

/// A quotient of sums; the timer cannot tell times below one tick.
fn quotient(one: f64, other: f64) -> f64 {
    one / other.max(1.0)
}

fn ratio(rounds: Vec<f64>) -> Ratio {
    let rounds = sorted(rounds);
    let [low, middle, high] = [10, 50, 90].map(|percent| percentile(&rounds, percent));
    Ratio { middle, low, high }
}

/// The middle cases of every record, by side.
struct Medians {
    call: Vec<f64>,
    run: Vec<f64>,
    step: Vec<f64>,
    tested: Vec<f64>,
}

impl Medians {
    fn new(times: &Times) -> Medians {
        let (run1, run0) = (times.run1.medians(), times.run0.medians());
        Medians {
            call: times.call.medians(),
            run: run1.iter().zip(&run0).map(|(one, none)| one - none).collect(),
            step: times.step.medians(),
            tested: times.tested.medians(),
        }
    }
}

/// What the rows are made from.
pub struct Source<'a> {
    pub mix: &'a Mix,
    pub times: &'a Times,
    pub counted: &'a Counted,
    pub ticks_per_nanosecond: f64,
}

impl Source<'_> {
    fn row(&self, name: &str, medians: &Medians, places: &[usize], records: &[usize]) -> Row {
        let sums = Sums { records };
        let times = self.times;
        let rounds = 0..times.call.rounds.len();
        let by_round = |one: &Ticks, other: &Ticks| {
            let quotient_of =
                |round| quotient(sums.of_round(one, round), sums.of_round(other, round));
            rounds.clone().map(quotient_of).collect::<Vec<f64>>()
        };
        let run_by_round = rounds.clone().map(|round| {
            let run = sums.of_round(&times.run1, round) - sums.of_round(&times.run0, round);
            quotient(run, sums.of_round(&times.step, round))
        });
        let (call, run) = (sums.of(&medians.call), sums.of(&medians.run));
        let (step, tested) = (sums.of(&medians.step), sums.of(&medians.tested));
        let each = |ticks: f64| ticks / self.ticks_per_nanosecond / records.len() as f64;
        let counted = |counts: &Counts| self.per_call(counts, places, records.len());
        let instructions = self.counted.instructions.as_ref();
        Row {
            name: name.to_string(),
            calls: records.len(),
            refused: records.iter().filter(|&&index| self.mix.refused[index]).count(),
            step: each(step),
            tested: each(tested),
            call: each(call),
            run: each(run),
            call_by_step: ratio(by_round(&times.call, &times.step)),
            call_by_tested: ratio(by_round(&times.call, &times.tested)),
            run_by_step: ratio(run_by_round.collect()),
            instructions: instructions.map(|(_, apart)| counted(apart)),
            all_instructions: instructions.map(|(all, _)| counted(all)),
            copied: self.counted.copied.as_ref().map(counted),
        }
    }

    /// Counts a call of some services: call, run, step, tested.
    fn per_call(&self, counts: &Counts, places: &[usize], calls: usize) -> [f64; 4] {
        let sum = |of: &dyn Fn(usize) -> f64| {
            places.iter().map(|&place| of(place)).sum::<f64>() / calls as f64
        };
        [
            sum(&|place| counts.net("call", place)),
            sum(&|place| counts.run_step(place)),
            sum(&|place| counts.net("step", place)),
            sum(&|place| counts.net("tested", place)),
        ]
    }

    /// A row for each service, and one for all.
    fn rows(&self) -> Vec<Row> {
        let medians = Medians::new(self.times);
        let records = &self.mix.tape.records;
        let mut rows = Vec::new();
        for (place, service) in SERVICES.iter().enumerate() {
            let own: Vec<usize> =
                (0..records.len()).filter(|&at| records[at].call == service.number).collect();
            rows.push(self.row(service.name, &medians, &[place], &own));
        }
        let places: Vec<usize> = (0..SERVICES.len()).collect();
        let all: Vec<usize> = (0..records.len()).collect();
        rows.push(self.row("all", &medians, &places, &all));
        rows
    }

    pub fn report(&self, notes: Vec<String>) -> Report {
        let times = self.times;
        let nanoseconds =
            |values: Vec<f64>| percentile(&sorted(values), 50) / self.ticks_per_nanosecond;
        let whole_times =
            [nanoseconds(times.whole_run.clone()), nanoseconds(times.whole_steps.clone())];
        let quotients = times.whole_run.iter().zip(&times.whole_steps);
        let whole = quotients.map(|(run, steps)| quotient(*run, *steps)).collect();
        Report {
            rows: self.rows(),
            whole: ratio(whole),
            whole_times,
            tests: [
                nanoseconds(times.library_test.medians()),
                nanoseconds(times.ordinary_test.medians()),
            ],
            copy: nanoseconds(times.copies.clone()),
            rounds: times.call.rounds.len(),
            notes,
        }
    }
}

const MIX: &str = "\
The mix: 31 threads of eleven priorities, every fourth with a lower threshold,
and an idle one. Five rounds; in each, for a semaphore, a queue's receivers, a
full queue's senders, a flags group and a used-up pool, threads begin to wait
one after another until 31, 8, 16, 3 and again 31 stand in line, and are served
one after another (flags in rounds 2 and 4, and the last six of a semaphore and
of the senders in round 3, by one call). So every length from 0 to 31 occurs.
Between them: prioritise, held suspensions, aborted waits, ticks, calls that
are served at once, thread changes, sleeps, brief objects and threads, and
refusals.
";

const COLUMNS: &str = "\
call:   the library's general call: reads the block, tests the tables, carries
        out the call, writes the block
run:    an untested step in the library's run of a tape: the run of one record
        less the run of none, on the same block
step:   the ordinary kernel without its soundness test
tested: the ordinary kernel with it
Every side writes the reply's 19 words into a lent buffer. Times are means of
each record's median, the timer's own taken off. A quotient is the median of
the rounds' quotients, with their 10th and 90th percentile in brackets.
";

fn cell(ratio: Ratio) -> String {
    format!("{:.1} ({:.1}..{:.1})", ratio.middle, ratio.low, ratio.high)
}

impl Report {
    fn times(&self, out: &mut String) {
        let heads = ["calls", "refused", "step ns", "tested", "run ns", "call ns"];
        let _ = write!(out, "{:<28}", "service");
        for (head, width) in heads.iter().zip([6, 8, 9, 9, 9, 9]) {
            let _ = write!(out, "{head:>width$}");
        }
        let _ = writeln!(out, "  {:<24}{:<24}run / step", "call / step", "call / tested");
        for row in &self.rows {
            let _ = writeln!(
                out,
                "{:<28}{:>6}{:>8}{:>9.1}{:>9.1}{:>9.0}{:>9.0}  {:<24}{:<24}{}",
                row.name,
                row.calls,
                row.refused,
                row.step,
                row.tested,
                row.run,
                row.call,
                cell(row.call_by_step),
                cell(row.call_by_tested),
                cell(row.run_by_step)
            );
        }
    }

    /// A table of counts: call, run, step, tested, and two quotients.
    fn counts(&self, out: &mut String, title: &str, of: fn(&Row) -> Option<[f64; 4]>) {
        if self.rows.iter().all(|row| of(row).is_none()) {
            return;
        }
        let heads = ["call", "run", "step", "tested", "call/step", "run/step"];
        let _ = write!(out, "\n{title:<40}");
        heads.iter().for_each(|head| {
            let _ = write!(out, "{head:>11}");
        });
        out.push('\n');
        for row in &self.rows {
            let Some([call, run, step, tested]) = of(row) else { continue };
            let _ = write!(out, "{:<40}", row.name);
            for count in [call, run, step, tested] {
                let _ = write!(out, "{count:>11.0}");
            }
            for count in [call, run] {
                match step >= 1.0 {
                    true => drop(write!(out, "{:>11.1}", count / step)),
                    false => drop(write!(out, "{:>11}", "-")),
                }
            }
            out.push('\n');
        }
    }

    fn totals(&self, out: &mut String) {
        let [run, steps] = self.whole_times;
        let [library, ordinary] = self.tests;
        let calls = self.rows.last().map_or(0, |row| row.calls);
        let _ = writeln!(
            out,
            "\nThe whole tape of {calls} calls, median of {} rounds: run {:.1} us, ordinary steps {:.1} us, quotient {}",
            self.rounds,
            run / 1000.0,
            steps / 1000.0,
            cell(self.whole)
        );
        let _ = writeln!(
            out,
            "Soundness test: apachimo_is_sound {library:.0} ns, ordinary {ordinary:.0} ns"
        );
        let _ = writeln!(out, "One copy of {TABLES_BYTES} bytes: {:.0} ns", self.copy);
    }

    /// The whole report.
    pub fn text(&self) -> String {
        let calls = self.rows.last().map_or(0, |row| row.calls);
        let agreed = format!("Both sides agree on all {calls} calls, and every service occurs.");
        let mut out = format!("{agreed}\n\n{MIX}\n{COLUMNS}\n");
        self.times(&mut out);
        self.totals(&mut out);
        self.counts(&mut out, "instructions a call, copies apart", |row| row.instructions);
        self.counts(&mut out, "instructions a call, all", |row| row.all_instructions);
        self.counts(&mut out, "bytes copied a call", |row| row.copied);
        for note in &self.notes {
            let _ = writeln!(out, "\n{note}");
        }
        out
    }
}
