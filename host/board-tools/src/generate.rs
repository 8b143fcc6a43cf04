//! Tapes that reach deep states: mostly sensible calls, chosen by looking at
//! the tables that the calls so far have led to, and a share of wild ones.

use crate::rng::Rng;
use ordinary::{fault, Record, State, Tables, Tape, Thread, FOREVER};

const STARTUP: u32 = 0;
const INTERRUPT: u32 = 1;
const THREAD: u32 = 2;

/// The kinds of objects with lines.
#[derive(Clone, Copy, PartialEq, Eq, Debug)]
enum Kind {
    Semaphore,
    Queue,
    Group,
    Pool,
}

impl Kind {
    const ALL: [Kind; 4] = [Kind::Semaphore, Kind::Queue, Kind::Group, Kind::Pool];

    fn limit(self) -> u32 {
        match self {
            Kind::Semaphore => 16,
            Kind::Queue | Kind::Group => 8,
            Kind::Pool => 4,
        }
    }
}

/// What a tape uses, drawn once for each tape.
struct Plan {
    threads: u32,
    priorities: Vec<u32>,
    /// Percent of threads with a threshold below their priority.
    thresholds: u32,
    /// Numbers in use, by kind.
    objects: Vec<(Kind, Vec<u32>)>,
    /// Percent of records that are wild altogether.
    wild: u32,
    /// Percent of sensible records with one thing changed.
    twisted: u32,
}

impl Plan {
    fn new(rng: &mut Rng) -> Plan {
        let threads = if rng.percent(25) { 32 } else { rng.between(2, 24) };
        let count = rng.between(1, 6);
        let priorities = (0..count).map(|_| rng.below(32)).collect();
        let objects = Kind::ALL.iter().map(|&kind| (kind, numbers(rng, kind.limit()))).collect();
        Plan {
            threads,
            priorities,
            thresholds: *rng.pick(&[0, 30, 60]).unwrap_or(&0),
            objects,
            wild: rng.between(1, 5),
            twisted: rng.between(2, 10),
        }
    }
}

/// One to three numbers below the limit.
fn numbers(rng: &mut Rng, limit: u32) -> Vec<u32> {
    let count = rng.between(1, 3);
    (0..count).map(|_| rng.below(limit)).collect()
}

/// Whether waits are built up or ended for the time being.
#[derive(Clone, Copy, PartialEq, Eq)]
enum Phase {
    Filling,
    Draining,
}

struct Generator {
    rng: Rng,
    plan: Plan,
    tables: Tables,
    tape: Tape,
    phase: Phase,
    phase_left: u32,
    focus: Option<(Kind, u32)>,
}

/// A tape of `records` records. The same arguments give the same tape.
pub fn generate(seed: u64, records: usize) -> Tape {
    let mut rng = Rng::new(seed);
    let plan = Plan::new(&mut rng);
    let words = message_words(&mut rng);
    let mut generator = Generator {
        rng,
        plan,
        tables: Tables::new(),
        tape: Tape { records: Vec::with_capacity(records), words },
        phase: Phase::Filling,
        phase_left: 0,
        focus: None,
    };
    for _ in 0..records {
        generator.add_record();
    }
    generator.tape
}

fn message_words(rng: &mut Rng) -> Vec<u32> {
    let count = if rng.percent(5) { rng.below(4) } else { rng.between(16, 120) };
    (0..count).map(|_| if rng.percent(70) { rng.below(1000) } else { rng.word() }).collect()
}

/// A value that is likely to be at some edge.
fn wild_value(rng: &mut Rng) -> u32 {
    const EDGES: [u32; 16] = [
        0,
        1,
        2,
        3,
        4,
        7,
        8,
        15,
        16,
        31,
        32,
        64,
        0x7FFF_FFFF,
        0x8000_0000,
        0xFFFF_FFFE,
        0xFFFF_FFFF,
    ];
    match rng.below(3) {
        0 => rng.below(40),
        1 => *rng.pick(&EDGES).unwrap_or(&0),
        _ => rng.word(),
    }
}

impl Generator {
    fn add_record(&mut self) {
        if self.phase_left == 0 {
            self.change_phase();
        }
        self.phase_left -= 1;
        let record = self.draw();
        self.tables.step_numbered::<{ fault::NONE }>(
            record.call,
            record.caller,
            record.args,
            &self.tape.words,
        );
        self.tape.records.push(record);
    }

    fn change_phase(&mut self) {
        self.phase = if self.rng.percent(55) { Phase::Filling } else { Phase::Draining };
        self.phase_left = self.rng.between(5, 50);
        self.focus = self.draw_object();
    }

    fn draw_object(&mut self) -> Option<(Kind, u32)> {
        let (kind, numbers) = self.rng.pick(&self.plan.objects)?;
        let number = *self.rng.pick(numbers)?;
        Some((*kind, number))
    }

    fn draw(&mut self) -> Record {
        if self.rng.percent(self.plan.wild) {
            return self.wild_record();
        }
        let mut record = self.sensible_record();
        if self.rng.percent(self.plan.twisted) {
            self.twist(&mut record);
        }
        record
    }

    fn wild_record(&mut self) -> Record {
        let call = if self.rng.percent(90) { self.rng.below(42) } else { self.rng.word() };
        let caller =
            if self.rng.percent(90) { self.rng.below(3) } else { wild_value(&mut self.rng) };
        let args = [0; 4].map(|_| wild_value(&mut self.rng));
        Record { call, caller, args }
    }

    /// Changes the caller or one argument.
    fn twist(&mut self, record: &mut Record) {
        if self.rng.percent(40) {
            record.caller = self.rng.below(4);
        } else {
            let at = self.rng.below(4) as usize;
            record.args[at] = wild_value(&mut self.rng);
        }
    }

    /// A record of a call that a program might make now.
    fn sensible_record(&mut self) -> Record {
        let (runs, filling) = (self.tables.running.index().is_some(), self.phase == Phase::Filling);
        let missing = self.uncreated_threads() > 0;
        let create_thread = match (missing, self.tape.records.len()) {
            (false, _) => 0,
            (true, 0..=60) => 40,
            (true, _) => 8,
        };
        let wait = if runs && filling {
            55
        } else if runs {
            8
        } else {
            0
        };
        let give = if filling { 6 } else { 40 };
        let tick = if filling { 5 } else { 12 };
        let weights = [create_thread, wait, give, tick, 9, 9, 5, 3, 2];
        match self.rng.weighted(&weights) {
            0 => self.create_thread(),
            1 => self.waiting_call(),
            2 => self.giving_call(),
            3 => self.clock_call(),
            4 => self.thread_call(),
            5 => self.wake_call(),
            6 => self.try_call(),
            7 => self.line_call(),
            _ => self.read_call(),
        }
    }

    fn uncreated_threads(&self) -> usize {
        let used = &self.tables.threads[..self.plan.threads as usize];
        used.iter().filter(|thread| !thread.created).count()
    }

    /// A caller for a call that anybody may make.
    fn anybody(&mut self) -> u32 {
        if self.tables.running.index().is_some() && self.rng.percent(50) {
            THREAD
        } else if self.rng.percent(15) {
            STARTUP
        } else {
            INTERRUPT
        }
    }

    /// A caller for a create: the running thread or start-up.
    fn creator(&mut self) -> u32 {
        if self.tables.running.index().is_some() && self.rng.percent(50) {
            THREAD
        } else {
            STARTUP
        }
    }

    /// A created thread for which `wanted` holds, or any number.
    fn thread_where(&mut self, wanted: impl Fn(&Thread) -> bool) -> u32 {
        let fitting: Vec<u32> = (0..32)
            .filter(|&at| {
                let thread = &self.tables.threads[at as usize];
                thread.created && wanted(thread)
            })
            .collect();
        match self.rng.pick(&fitting) {
            Some(&thread) => thread,
            None => self.rng.below(self.plan.threads),
        }
    }

    fn any_thread(&mut self) -> u32 {
        self.thread_where(|_| true)
    }

    fn priority(&mut self) -> u32 {
        if self.rng.percent(85) {
            *self.rng.pick(&self.plan.priorities).unwrap_or(&10)
        } else {
            self.rng.below(32)
        }
    }

    fn threshold(&mut self, priority: u32) -> u32 {
        if self.rng.percent(self.plan.thresholds) {
            self.rng.between(0, priority)
        } else {
            priority
        }
    }

    fn create_thread(&mut self) -> Record {
        let free: Vec<u32> = (0..self.plan.threads)
            .filter(|&at| !self.tables.threads[at as usize].created)
            .collect();
        let thread = *self.rng.pick(&free).unwrap_or(&0);
        let priority = self.priority();
        let threshold = self.threshold(priority);
        let start = self.rng.percent(85) as u32;
        Record { call: 1, caller: self.creator(), args: [thread, priority, threshold, start] }
    }

    /// The object in focus, or another one.
    fn object(&mut self) -> Option<(Kind, u32)> {
        if self.rng.percent(75) {
            self.focus
        } else {
            self.draw_object()
        }
    }

    fn is_created(&self, kind: Kind, number: u32) -> bool {
        let at = number as usize;
        match kind {
            Kind::Semaphore => self.tables.semaphores[at].created,
            Kind::Queue => self.tables.queues[at].created,
            Kind::Group => self.tables.groups[at].created,
            Kind::Pool => self.tables.pools[at].created,
        }
    }

    fn create_object(&mut self, kind: Kind, number: u32) -> Record {
        let rng = &mut self.rng;
        let (call, a, b) = match kind {
            Kind::Semaphore => (16, start_count(rng), 0),
            Kind::Queue => {
                let size = if rng.percent(70) { rng.between(1, 4) } else { rng.between(1, 16) };
                let messages = if rng.percent(80) { rng.between(1, 3) } else { rng.between(1, 64) };
                let storage = (size * messages + rng.below(size)).clamp(size, 64.max(size));
                (22, size, storage)
            }
            Kind::Group => (29, 0, 0),
            Kind::Pool => {
                let (bytes, total) =
                    if rng.percent(40) { edge_pool_sizes(rng) } else { pool_sizes(rng) };
                (33, bytes, total)
            }
        };
        Record { call, caller: self.creator(), args: [number, a, b, 0] }
    }

    fn wait_ticks(&mut self) -> u32 {
        match self.rng.weighted(&[40, 45, 12, 3]) {
            0 => FOREVER,
            1 => self.rng.between(1, 6),
            2 => self.rng.between(1, 40),
            _ => FOREVER - self.rng.between(1, 2),
        }
    }

    fn flags(&mut self) -> u32 {
        let mut flags = 0;
        for _ in 0..self.rng.between(1, 3) {
            flags |= 1 << self.rng.below(6);
        }
        flags
    }

    fn message_index(&mut self, queue: u32) -> u32 {
        let size = self.tables.queues[queue as usize].size as u32;
        let words = self.tape.words.len() as u32;
        if words < size || self.rng.percent(4) {
            self.rng.below(words + 2)
        } else {
            self.rng.between(0, words - size)
        }
    }

    /// A call of the running thread that may have to wait.
    fn waiting_call(&mut self) -> Record {
        if self.rng.percent(8) {
            let ticks = if self.rng.percent(10) { 0 } else { self.wait_ticks() };
            return Record { call: 9, caller: THREAD, args: [ticks, 0, 0, 0] };
        }
        let Some((kind, number)) = self.object() else {
            return Record { call: 9, caller: THREAD, args: [self.wait_ticks(), 0, 0, 0] };
        };
        if !self.is_created(kind, number) {
            return self.create_object(kind, number);
        }
        let wait = self.wait_ticks();
        self.taking_call(kind, number, THREAD, wait)
    }

    /// A get, receive or allocate; for a queue also a send, as long as
    /// senders wait or none can.
    fn taking_call(&mut self, kind: Kind, number: u32, caller: u32, wait: u32) -> Record {
        let (call, args) = match kind {
            Kind::Semaphore => (18, [number, wait, 0, 0]),
            Kind::Group => {
                let request = if self.rng.percent(4) { 0 } else { self.flags() };
                (32, [number, request, self.rng.below(4), wait])
            }
            Kind::Pool => (35, [number, wait, 0, 0]),
            Kind::Queue => return self.queue_wait(number, caller, wait),
        };
        Record { call, caller, args }
    }

    fn queue_wait(&mut self, number: u32, caller: u32, wait: u32) -> Record {
        let queue = &self.tables.queues[number as usize];
        let sends = if queue.line.is_empty() {
            50
        } else if queue.stored > 0 {
            90
        } else {
            10
        };
        if self.rng.percent(sends) {
            let call = if self.rng.percent(35) { 25 } else { 24 };
            let message = self.message_index(number);
            Record { call, caller, args: [number, wait, message, 0] }
        } else {
            Record { call: 26, caller, args: [number, wait, 0, 0] }
        }
    }

    /// A call that serves waiters, if there are any.
    fn giving_call(&mut self) -> Record {
        let Some((kind, number)) = self.object() else { return self.clock_call() };
        if !self.is_created(kind, number) {
            return self.create_object(kind, number);
        }
        let caller = self.anybody();
        match kind {
            Kind::Semaphore => self.put(number, caller),
            Kind::Group => {
                let and = self.rng.percent(15);
                let flags = if and { self.rng.below(64) } else { self.flags() };
                Record { call: 31, caller, args: [number, flags, if and { 2 } else { 0 }, 0] }
            }
            Kind::Pool => self.release(number, caller),
            Kind::Queue => self.serve_queue(number, caller),
        }
    }

    fn put(&mut self, number: u32, caller: u32) -> Record {
        let count = self.tables.semaphores[number as usize].count;
        if self.rng.percent(70) {
            Record { call: 19, caller, args: [number, 0, 0, 0] }
        } else {
            let ceiling = count.wrapping_add(self.rng.below(3));
            Record { call: 20, caller, args: [number, ceiling, 0, 0] }
        }
    }

    /// A release of a used block, seldom of a wrong one; where no block is
    /// used, an allocate.
    fn release(&mut self, number: u32, caller: u32) -> Record {
        let pool = &self.tables.pools[number as usize];
        let used: Vec<u32> =
            (0..pool.blocks as u32).filter(|&block| pool.free_set >> block & 1 == 0).collect();
        let block = if self.rng.percent(15) {
            Some(self.unused_block(number))
        } else {
            self.rng.pick(&used).copied()
        };
        match block {
            Some(block) => Record { call: 36, caller, args: [number, block, 0, 0] },
            None => Record { call: 35, caller, args: [number, 0, 0, 0] },
        }
    }

    /// A number that is no used block of a pool: the last released one, or one
    /// out of range, also where its low byte is a block.
    fn unused_block(&mut self, number: u32) -> u32 {
        let pool = &self.tables.pools[number as usize];
        let blocks = pool.blocks as u32;
        let released = pool.free_blocks().next().map_or(blocks, u32::from);
        let low = self.rng.below(blocks);
        *self.rng.pick(&[released, released, blocks, 64, 256 + low, u32::MAX]).unwrap_or(&blocks)
    }

    /// Serves senders by a receive or a flush, receivers by a send.
    fn serve_queue(&mut self, number: u32, caller: u32) -> Record {
        let queue = &self.tables.queues[number as usize];
        let senders = !queue.line.is_empty() && queue.stored > 0;
        if senders || self.rng.percent(30) {
            if self.rng.percent(6) {
                return Record { call: 27, caller, args: [number, 0, 0, 0] };
            }
            return Record { call: 26, caller, args: [number, 0, 0, 0] };
        }
        let call = if self.rng.percent(35) { 25 } else { 24 };
        let message = self.message_index(number);
        Record { call, caller, args: [number, 0, message, 0] }
    }

    /// A get, receive, send or allocate without waiting, by anybody.
    fn try_call(&mut self) -> Record {
        let Some((kind, number)) = self.object() else { return self.clock_call() };
        if !self.is_created(kind, number) {
            return self.create_object(kind, number);
        }
        let caller = self.anybody();
        self.taking_call(kind, number, caller, 0)
    }

    fn clock_call(&mut self) -> Record {
        match self.rng.weighted(&[85, 5, 10]) {
            0 => Record { call: 15, caller: INTERRUPT, args: [0; 4] },
            1 => Record { call: 13, caller: self.anybody(), args: [0; 4] },
            _ => {
                let clock = FOREVER - self.rng.below(3);
                Record { call: 14, caller: self.anybody(), args: [clock, 0, 0, 0] }
            }
        }
    }

    /// Suspend, priority and threshold changes, relinquish, finish,
    /// terminate, reset, delete.
    fn thread_call(&mut self) -> Record {
        let runs = self.tables.running.index().is_some();
        let by_thread = runs as u32;
        let weights = [10, 12 * by_thread, 14 * by_thread, 14 * by_thread, 3, 4, 8, 3];
        match self.rng.weighted(&weights) {
            0 => {
                let blocked = self.rng.percent(50);
                let thread = if blocked {
                    self.thread_where(|thread| thread.state.is_blocked())
                } else {
                    self.any_thread()
                };
                Record { call: 4, caller: self.anybody(), args: [thread, 0, 0, 0] }
            }
            1 => Record { call: 8, caller: THREAD, args: [0; 4] },
            2 => self.change_priority(),
            3 => self.change_threshold(),
            4 => Record { call: 7, caller: THREAD, args: [0; 4] },
            5 => Record { call: 5, caller: THREAD, args: [self.any_thread(), 0, 0, 0] },
            6 => {
                let thread = self.thread_where(|thread| thread.state.is_finished());
                Record { call: 6, caller: THREAD, args: [thread, 0, 0, 0] }
            }
            _ => {
                let thread = self.thread_where(|thread| thread.state.is_finished());
                Record { call: 2, caller: THREAD, args: [thread, 0, 0, 0] }
            }
        }
    }

    /// The runner, or another thread.
    fn runner_or_another(&mut self) -> u32 {
        match self.tables.running.index() {
            Some(runner) if self.rng.percent(50) => runner as u32,
            _ => self.any_thread(),
        }
    }

    /// Often of the runner or of a marked thread; where the threshold is below
    /// the priority, often to a priority between them.
    fn change_priority(&mut self) -> Record {
        let marked = self.tables.marked;
        let thread = if marked != 0 && self.rng.percent(30) {
            marked.trailing_zeros()
        } else {
            self.runner_or_another()
        };
        let record = &self.tables.threads[thread as usize];
        let (threshold, old) = (record.threshold as u32, record.priority as u32);
        let priority = if threshold < old && self.rng.percent(40) {
            self.rng.between(threshold, old)
        } else if self.rng.percent(4) {
            *self.rng.pick(&[32, 255, 256, u32::MAX]).unwrap_or(&32)
        } else {
            self.priority()
        };
        Record { call: 11, caller: THREAD, args: [thread, priority, 0, 0] }
    }

    fn change_threshold(&mut self) -> Record {
        let thread = self.runner_or_another();
        let priority = self.tables.threads[thread as usize].priority as u32;
        let threshold = if self.rng.percent(40) { priority } else { self.rng.between(0, priority) };
        Record { call: 12, caller: THREAD, args: [thread, threshold, 0, 0] }
    }

    /// Resume or wait abort.
    fn wake_call(&mut self) -> Record {
        let caller = self.anybody();
        if self.rng.percent(70) {
            let thread = self
                .thread_where(|thread| thread.state == State::Suspended || thread.held_suspension);
            Record { call: 3, caller, args: [thread, 0, 0, 0] }
        } else {
            let thread = self.thread_where(|thread| thread.state.is_blocked());
            Record { call: 10, caller, args: [thread, 0, 0, 0] }
        }
    }

    /// Prioritise, or seldom a delete.
    fn line_call(&mut self) -> Record {
        let Some((kind, number)) = self.object() else { return self.clock_call() };
        if self.rng.percent(12) {
            let call = match kind {
                Kind::Semaphore => 17,
                Kind::Queue => 23,
                Kind::Group => 30,
                Kind::Pool => 34,
            };
            return Record { call, caller: THREAD, args: [number, 0, 0, 0] };
        }
        let call = match kind {
            Kind::Semaphore => 21,
            Kind::Queue => 28,
            Kind::Pool => 37,
            Kind::Group => return self.giving_call(),
        };
        Record { call, caller: self.anybody(), args: [number, 0, 0, 0] }
    }

    fn read_call(&mut self) -> Record {
        let call = if self.rng.percent(50) { 38 } else { 39 };
        Record { call, caller: self.anybody(), args: [self.any_thread(), 0, 0, 0] }
    }
}

/// Block bytes and total bytes of a pool, mostly one of few blocks.
fn pool_sizes(rng: &mut Rng) -> (u32, u32) {
    let bytes = 4 * if rng.percent(80) { rng.between(1, 8) } else { rng.between(1, 64) };
    let blocks = if rng.percent(85) { rng.between(1, 4) } else { rng.between(1, 64) };
    (bytes, blocks * (bytes + 4) + rng.below(bytes + 4))
}

/// Sizes around the bounds of a pool and around 2^32. Most are refused.
fn edge_pool_sizes(rng: &mut Rng) -> (u32, u32) {
    const BYTES: [u32; 10] = [0, 3, 4, 6, 252, 256, 257, 260, u32::MAX - 3, u32::MAX];
    let bytes = *rng.pick(&BYTES).unwrap_or(&0);
    let block = bytes.wrapping_add(4);
    // One, 64 and 65 blocks, and 257, which a byte takes for one.
    let near_blocks = [1, 64, 65, 257].map(|blocks: u32| block.wrapping_mul(blocks));
    let total = match rng.below(3) {
        0 => rng.pick(&near_blocks).unwrap_or(&0).wrapping_sub(1),
        1 => *rng.pick(&near_blocks).unwrap_or(&0),
        _ => u32::MAX - rng.below(8),
    };
    (bytes, total)
}

/// Mostly 0 or few, often at and next to the largest count.
fn start_count(rng: &mut Rng) -> u32 {
    match rng.weighted(&[50, 25, 20, 5]) {
        0 => 0,
        1 => rng.between(1, 3),
        2 => u32::MAX - rng.below(3),
        _ => rng.word(),
    }
}
