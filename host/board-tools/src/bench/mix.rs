//! The calls that are measured: 1,600 of them, the same every time.
//!
//! 31 threads of mixed priorities and an idle one of the worst. Rounds follow
//! each other; in a round, for each kind of line, threads begin to wait one
//! after another until the line has its length, and are then served one after
//! another. Between lines there are calls that are served at once, calls on
//! threads and on the clock, and refusals.

use ordinary::{fault, Record, State, Tables, Tape};

/// How many calls there are.
pub const CALLS: usize = 1600;

const STARTUP: u32 = 0;
const INTERRUPT: u32 = 1;
const THREAD: u32 = 2;
const FOREVER: u32 = ordinary::FOREVER;

/// The thread that never waits, so that somebody always runs.
const IDLE: u32 = 31;

/// The objects that threads wait on, and one of each kind that nobody waits on.
const LINE: u32 = 0;
const SPARE: u32 = 1;
/// The queue on which senders wait.
const FULL: u32 = 2;
/// The number that is created and deleted in every round.
const BRIEF: u32 = 3;

/// How long the lines of a round become.
const ROUNDS: [usize; 5] = [31, 8, 16, 3, 31];

/// A kind of line.
#[derive(Clone, Copy, PartialEq, Eq, Debug)]
pub enum Line {
    Semaphore,
    Receivers,
    Senders,
    Flags,
    Pool,
}

impl Line {
    pub const ALL: [Line; 5] =
        [Line::Semaphore, Line::Receivers, Line::Senders, Line::Flags, Line::Pool];

    /// How many threads stand in the line.
    pub fn length(self, tables: &Tables) -> usize {
        let (state, object) = match self {
            Line::Semaphore => (State::Semaphore, LINE),
            Line::Receivers => (State::Queue, LINE),
            Line::Senders => (State::Queue, FULL),
            Line::Flags => (State::Flags, LINE),
            Line::Pool => (State::Block, LINE),
        };
        let stands = |thread: &&ordinary::Thread| {
            thread.created && thread.state == state && thread.object as u32 == object
        };
        tables.threads.iter().filter(stands).count()
    }
}

/// The calls, and which of them are meant to be refused.
pub struct Mix {
    pub tape: Tape,
    pub refused: Vec<bool>,
}

struct Builder {
    tables: Tables,
    mix: Mix,
}

/// The calls of the measurement.
pub fn mix() -> Mix {
    let words = (0..64).map(|word| 1000 + word).collect();
    let tape = Tape { records: Vec::with_capacity(CALLS), words };
    let mut builder =
        Builder { tables: Tables::new(), mix: Mix { tape, refused: Vec::with_capacity(CALLS) } };
    builder.create_all();
    for (round, &length) in ROUNDS.iter().enumerate() {
        builder.round(round as u32, length);
    }
    builder.fill_up();
    builder.mix
}

impl Builder {
    fn add(&mut self, caller: u32, call: u32, args: &[u32], refused: bool) {
        let mut four = [0; 4];
        four[..args.len()].copy_from_slice(args);
        let words = &self.mix.tape.words;
        self.tables.step_numbered::<{ fault::NONE }>(call, caller, four, words);
        self.mix.tape.records.push(Record { call, caller, args: four });
        self.mix.refused.push(refused);
    }

    /// A call that is carried out.
    fn done(&mut self, caller: u32, call: u32, args: &[u32]) {
        self.add(caller, call, args, false);
    }

    /// A call that is refused.
    fn refused(&mut self, caller: u32, call: u32, args: &[u32]) {
        self.add(caller, call, args, true);
    }

    fn runner(&self) -> u32 {
        self.tables.runner().map_or(IDLE, |thread| thread.0)
    }

    /// The first thread in a state, the idle one where there is none.
    fn first_in(&self, state: State) -> u32 {
        let found = self.tables.threads.iter().position(|thread| thread.state == state);
        found.map_or(IDLE, |index| index as u32)
    }

    /// Threads of eleven priorities, every fourth with a lower threshold, and
    /// some objects of each kind.
    fn create_all(&mut self) {
        for thread in 0..IDLE {
            let priority = 5 + 2 * (thread * 7 % 11);
            let threshold = if thread % 4 == 3 { priority - 2 } else { priority };
            self.done(STARTUP, 1, &[thread, priority, threshold, 1]);
        }
        self.done(STARTUP, 1, &[IDLE, 31, 31, 1]);
        for number in [LINE, SPARE, FULL] {
            self.done(STARTUP, 16, &[number, 0]);
        }
        self.done(STARTUP, 22, &[LINE, 4, 64]);
        self.done(STARTUP, 22, &[SPARE, 2, 16]);
        self.done(STARTUP, 22, &[FULL, 16, 16]);
        for number in [LINE, SPARE] {
            self.done(STARTUP, 29, &[number]);
            self.done(STARTUP, 33, &[number, 16, 100]);
        }
        // The queue with waiting senders is full, the pool with waiters used up.
        self.done(STARTUP, 24, &[FULL, 0, 0]);
        for _ in 0..5 {
            self.done(STARTUP, 35, &[LINE, 0]);
        }
        self.refused(STARTUP, 1, &[0, 10, 10, 1]);
        self.refused(STARTUP, 22, &[BRIEF, 4, 3]);
        self.refused(STARTUP, 33, &[BRIEF, 6, 100]);
    }

    fn round(&mut self, round: u32, length: usize) {
        for line in Line::ALL {
            self.fill(line, round, length);
            self.disturb(line, round);
            self.drain(line, round);
            self.at_once(line);
            self.thread_calls(round);
        }
        self.brief_objects(round);
        self.lifetimes();
    }

    /// Lets running threads wait until the line has its length. Some waits are
    /// timed, but longer than any line lasts.
    fn fill(&mut self, line: Line, round: u32, length: usize) {
        for place in 0..length as u32 {
            if self.runner() == IDLE {
                break;
            }
            let wait = if place % 4 == 1 { 500 + place } else { FOREVER };
            match line {
                Line::Semaphore => self.done(THREAD, 18, &[LINE, wait]),
                Line::Receivers => self.done(THREAD, 26, &[LINE, wait]),
                Line::Senders => {
                    let call = if place % 3 == 2 { 25 } else { 24 };
                    self.done(THREAD, call, &[FULL, wait, place % 32]);
                }
                Line::Flags => self.done(THREAD, 32, &flags_wait(round, place, wait)),
                Line::Pool => self.done(THREAD, 35, &[LINE, wait]),
            }
        }
    }

    /// What happens to a line beside its service: prioritise, a suspension that
    /// is held and lifted, an aborted wait, a tick, and refusals.
    fn disturb(&mut self, line: Line, round: u32) {
        let (state, prioritise, taking): (State, Option<[u32; 2]>, &[u32]) = match line {
            Line::Semaphore => (State::Semaphore, Some([21, LINE]), &[18, LINE, 0]),
            Line::Receivers => (State::Queue, Some([28, LINE]), &[26, LINE, 0]),
            Line::Senders => (State::Queue, Some([28, FULL]), &[24, FULL, 0, 0]),
            Line::Flags => (State::Flags, None, &[32, LINE, 0x8000_0000, 0, 0]),
            Line::Pool => (State::Block, Some([37, LINE]), &[35, LINE, 0]),
        };
        for _ in 0..2 {
            if let Some([call, number]) = prioritise {
                self.done(INTERRUPT, call, &[number]);
            }
        }
        let waiter = self.first_in(state);
        self.done(INTERRUPT, 4, &[waiter]);
        self.done(INTERRUPT, 38, &[waiter]);
        self.done(THREAD, 3, &[waiter]);
        self.done(INTERRUPT, 15, &[]);
        self.refused(INTERRUPT, taking[0], &taking[1..]);
        if round.is_multiple_of(2) {
            self.done(INTERRUPT, 10, &[waiter]);
            self.done(THREAD, 39, &[waiter]);
        }
    }

    /// Serves a line until nobody stands in it.
    fn drain(&mut self, line: Line, round: u32) {
        let mut place = 0;
        while line.length(&self.tables) > 0 {
            // In some rounds one call serves the rest at once.
            let last = round == 2 && line.length(&self.tables) == 6;
            match line {
                Line::Semaphore if last => {
                    self.done(THREAD, 17, &[LINE]);
                    self.done(THREAD, 16, &[LINE, 0]);
                }
                Line::Semaphore if place % 3 == 2 => self.done(INTERRUPT, 20, &[LINE, 5]),
                Line::Semaphore => self.done(INTERRUPT, 19, &[LINE]),
                Line::Receivers => {
                    let call = if place % 3 == 2 { 25 } else { 24 };
                    self.done(INTERRUPT, call, &[LINE, 0, place % 32]);
                }
                Line::Senders if last => {
                    self.done(THREAD, 27, &[FULL]);
                    self.done(THREAD, 24, &[FULL, 0, 5]);
                }
                Line::Senders => self.done(INTERRUPT, 26, &[FULL, 0]),
                Line::Flags => self.done(INTERRUPT, 31, &flags_set(round, place)),
                Line::Pool => self.done(INTERRUPT, 36, &[LINE, place % 5]),
            }
            place += 1;
        }
    }

    /// Calls with nobody in line, mostly served at once.
    fn at_once(&mut self, line: Line) {
        match line {
            Line::Semaphore => self.pairs(&[19, SPARE], &[18, SPARE, 0], &[20, SPARE, 0]),
            Line::Receivers => self.pairs(&[24, SPARE, 0, 7], &[26, SPARE, 0], &[24, SPARE, 0, 63]),
            Line::Senders => {
                self.pairs(&[25, SPARE, 0, 9], &[26, SPARE, 0], &[25, SPARE, FOREVER, 0]);
                self.done(INTERRUPT, 27, &[SPARE]);
            }
            Line::Flags => {
                self.pairs(&[31, SPARE, 6, 0], &[32, SPARE, 2, 1, 0], &[31, SPARE, 1, 1]);
                self.done(INTERRUPT, 31, &[SPARE, 1, 2]);
            }
            Line::Pool => self.pairs(&[35, SPARE, 0], &[36, SPARE, 0], &[36, SPARE, 5]),
        }
    }

    /// Three times a call that gives and one that takes, and a refusal.
    fn pairs(&mut self, first: &[u32], second: &[u32], refused: &[u32]) {
        for _ in 0..3 {
            self.done(THREAD, first[0], &first[1..]);
            self.done(INTERRUPT, second[0], &second[1..]);
        }
        self.refused(INTERRUPT, refused[0], &refused[1..]);
    }

    /// Changes of the running thread, a short sleep, and the clock.
    fn thread_calls(&mut self, round: u32) {
        let runner = self.runner();
        let record = &self.tables.threads[runner as usize];
        let (priority, threshold) = (record.priority as u32, record.threshold as u32);
        self.done(THREAD, 11, &[runner, priority]);
        self.done(THREAD, 12, &[runner, threshold]);
        self.done(THREAD, 8, &[]);
        self.done(THREAD, 9, &[1]);
        self.done(INTERRUPT, 15, &[]);
        self.done(INTERRUPT, 13, &[]);
        if round % 2 == 1 {
            self.done(INTERRUPT, 14, &[1000 * round]);
            self.refused(INTERRUPT, 9, &[1]);
        }
    }

    /// Objects that are created and deleted again.
    fn brief_objects(&mut self, round: u32) {
        self.done(THREAD, 16, &[BRIEF, round]);
        self.done(THREAD, 22, &[BRIEF, 3, 12]);
        self.done(THREAD, 29, &[BRIEF]);
        self.done(THREAD, 33, &[BRIEF, 8, 60]);
        self.refused(INTERRUPT, 17, &[BRIEF]);
        for call in [17, 23, 30, 34] {
            self.done(THREAD, call, &[BRIEF]);
        }
        self.refused(THREAD, 23, &[BRIEF]);
    }

    /// A thread that finishes, one that is terminated, and both started anew.
    fn lifetimes(&mut self) {
        let first = self.runner();
        let record = &self.tables.threads[first as usize];
        let (priority, threshold) = (record.priority as u32, record.threshold as u32);
        self.done(THREAD, 7, &[]);
        let second = (0..IDLE).find(|&thread| thread != first && thread != self.runner());
        let second = second.unwrap_or(IDLE);
        self.refused(THREAD, 2, &[second]);
        self.done(THREAD, 5, &[second]);
        self.done(THREAD, 6, &[second]);
        self.done(THREAD, 3, &[second]);
        self.done(THREAD, 2, &[first]);
        self.done(THREAD, 1, &[first, priority, threshold, 0]);
        self.done(THREAD, 3, &[first]);
    }

    /// Further calls on threads and the clock, up to the full number.
    fn fill_up(&mut self) {
        let mut turn = 0;
        while self.mix.tape.records.len() < CALLS {
            let thread = turn / 8 % IDLE;
            match turn % 8 {
                0 => self.done(INTERRUPT, 4, &[thread]),
                1 => self.done(INTERRUPT, 3, &[thread]),
                2 => self.done(THREAD, 38, &[thread]),
                3 => self.done(INTERRUPT, 13, &[]),
                4 => self.done(THREAD, 8, &[]),
                5 => self.done(INTERRUPT, 15, &[]),
                6 => self.done(THREAD, 39, &[thread]),
                _ => self.refused(INTERRUPT, 3, &[thread]),
            }
            turn += 1;
        }
    }
}

/// A flags get that waits: in even rounds for a flag of its own, in odd ones
/// all wait for the same.
fn flags_wait(round: u32, place: u32, wait: u32) -> [u32; 4] {
    if round.is_multiple_of(2) {
        [LINE, 1 << place, if place.is_multiple_of(2) { 1 } else { 3 }, wait]
    } else {
        [LINE, 1, 1, wait]
    }
}

fn flags_set(round: u32, place: u32) -> [u32; 3] {
    if round.is_multiple_of(2) {
        [LINE, 1 << (place % 32), 0]
    } else {
        [LINE, 1, 0]
    }
}
