//! Times of every record on every side, over many rounds.

use super::sides::{General, OneRun, ReplyWords, Side, Snapshots, Step, Tested};
use super::timer;
use apachimo::{library, REPLY_WORDS, STATE_BYTES};
use ordinary::Tape;
use std::hint::black_box;

/// Bytes of the kernel's own tables, which go by value.
pub const TABLES_BYTES: usize = 5432;

/// Ticks of one side: by round, then by record.
#[derive(Default)]
pub struct Ticks {
    pub rounds: Vec<Vec<u32>>,
}

impl Ticks {
    /// The middle case of each record.
    pub fn medians(&self) -> Vec<f64> {
        let records = self.rounds.first().map_or(0, Vec::len);
        (0..records)
            .map(|index| {
                let all = self.rounds.iter().map(|round| f64::from(round[index]));
                percentile(&sorted(all.collect()), 50)
            })
            .collect()
    }
}

/// All times, in ticks.
#[derive(Default)]
pub struct Times {
    pub call: Ticks,
    pub run1: Ticks,
    pub run0: Ticks,
    pub step: Ticks,
    pub tested: Ticks,
    /// The soundness tests on the tables before each record.
    pub library_test: Ticks,
    pub ordinary_test: Ticks,
    /// Whole tapes, by round: the library's run, and the ordinary steps.
    pub whole_run: Vec<f64>,
    pub whole_steps: Vec<f64>,
    /// Copies of a block of the tables' size.
    pub copies: Vec<f64>,
}

pub fn sorted(mut values: Vec<f64>) -> Vec<f64> {
    values.sort_by(f64::total_cmp);
    values
}

/// The value below which so many of 100 sorted values lie.
pub fn percentile(sorted: &[f64], percent: usize) -> f64 {
    match sorted.len() {
        0 => 0.0,
        count => sorted[(count - 1) * percent / 100],
    }
}

/// What is measured, with the room that it needs.
pub struct Measurement<'a> {
    tape: &'a Tape,
    bytes: Vec<u8>,
    snapshots: &'a Snapshots,
    overhead: u64,
    replies: Vec<ReplyWords>,
}

impl<'a> Measurement<'a> {
    pub fn new(tape: &'a Tape, snapshots: &'a Snapshots) -> Measurement<'a> {
        Measurement {
            tape,
            bytes: tape.encode(),
            snapshots,
            overhead: timer::overhead(),
            replies: vec![[0; REPLY_WORDS]; tape.records.len()],
        }
    }

    /// Ticks of one piece of work, without the timer's own.
    #[inline(always)]
    fn timed(&self, start: u64) -> u64 {
        timer::ticks().saturating_sub(start).saturating_sub(self.overhead)
    }

    /// Times one record on a side.
    #[inline(always)]
    fn record<S: Side>(&mut self, side: &mut S, index: usize) -> u32 {
        let record = &self.tape.records[index];
        if side.wants_loading() {
            side.load(self.snapshots, index, record);
        }
        let reply = &mut self.replies[index];
        let start = timer::ticks();
        side.answer(record, &self.tape.words, reply);
        self.timed(start) as u32
    }

    /// Times every record on a side.
    fn round<S: Side>(&mut self, side: &mut S) -> Vec<u32> {
        side.restart();
        (0..self.tape.records.len()).map(|index| self.record(side, index)).collect()
    }

    /// Times every record in a run of one and in a run of none, one right
    /// behind the other, since only their difference counts.
    fn run_round(&mut self) -> (Vec<u32>, Vec<u32>) {
        let words = &self.tape.words;
        let (mut run1, mut run0) = (OneRun::new(1, words), OneRun::new(0, words));
        (0..self.tape.records.len())
            .map(|index| (self.record(&mut run1, index), self.record(&mut run0, index)))
            .unzip()
    }

    /// Times a test of the tables before each record, which are brought into the
    /// cache first.
    fn test_round<T>(&self, load: impl Fn(usize) -> T, test: impl Fn(&T) -> bool) -> Vec<u32> {
        let records = 0..self.tape.records.len();
        records
            .map(|index| {
                let tables = load(index);
                let start = timer::ticks();
                black_box(test(black_box(&tables)));
                self.timed(start) as u32
            })
            .collect()
    }

    fn whole_run(&mut self) -> f64 {
        let mut state = [0; STATE_BYTES];
        library::start(&mut state);
        let start = timer::ticks();
        library::run(&mut state, &self.bytes, u32::MAX, self.replies.as_flattened_mut());
        self.timed(start) as f64
    }

    fn whole_steps(&mut self) -> f64 {
        let mut side = Step::new();
        let start = timer::ticks();
        black_box(side.tables.soundness().is_ok());
        for (record, reply) in self.tape.records.iter().zip(&mut self.replies) {
            side.answer(record, &self.tape.words, reply);
        }
        self.timed(start) as f64
    }

    fn copy(&self, from: &[u8; TABLES_BYTES], to: &mut [u8; TABLES_BYTES]) -> f64 {
        let start = timer::ticks();
        black_box(&mut *to).copy_from_slice(black_box(&from[..]));
        self.timed(start) as f64
    }

    /// One round of everything; the sides take turns, so that what disturbs
    /// the machine for a while disturbs them alike.
    fn everything(&mut self, times: &mut Times) {
        times.call.rounds.push(self.round(&mut General::new()));
        times.step.rounds.push(self.round(&mut Step::new()));
        times.tested.rounds.push(self.round(&mut Tested::new()));
        let (run1, run0) = self.run_round();
        times.run1.rounds.push(run1);
        times.run0.rounds.push(run0);
        let (blocks, tables) = (&self.snapshots.blocks, &self.snapshots.tables);
        let library_test =
            self.test_round(|index| blocks[index], |block| library::is_sound(block) == 0);
        times.library_test.rounds.push(library_test);
        let ordinary_test =
            self.test_round(|index| tables[index].clone(), |tables| tables.soundness().is_ok());
        times.ordinary_test.rounds.push(ordinary_test);
        times.whole_run.push(self.whole_run());
        times.whole_steps.push(self.whole_steps());
        let (from, mut to) = ([1; TABLES_BYTES], [0; TABLES_BYTES]);
        times.copies.extend((0..100).map(|_| self.copy(&from, &mut to)));
    }

    /// So many rounds, after one that is not counted.
    pub fn rounds(mut self, count: usize) -> Times {
        self.everything(&mut Times::default());
        let mut times = Times::default();
        for _ in 0..count {
            self.everything(&mut times);
        }
        times
    }
}
