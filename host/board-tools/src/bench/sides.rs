//! The sides that are measured: each answers a record into a lent reply.

use apachimo::{library, REPLY_WORDS, STATE_BYTES};
use ordinary::{fault, Outcome, Record, Tables, Tape};

/// A reply as words: status, sixteen words, next thread or 32, ended waits.
pub type ReplyWords = [u32; REPLY_WORDS];

const NOBODY: u32 = 32;

/// One way to carry out the calls.
pub trait Side {
    /// Back to nothing created.
    fn restart(&mut self);

    /// Takes the tables as they are before a record.
    fn load(&mut self, before: &Snapshots, index: usize, record: &Record);

    /// Whether the tables have to be loaded before every record.
    fn wants_loading(&self) -> bool {
        false
    }

    /// Carries out a record and writes its reply.
    fn answer(&mut self, record: &Record, words: &[u32], reply: &mut ReplyWords);
}

/// The tables before each record, as both kernels have them.
pub struct Snapshots {
    pub blocks: Vec<[u8; STATE_BYTES]>,
    pub tables: Vec<Tables>,
}

impl Snapshots {
    pub fn of(tape: &Tape) -> Snapshots {
        let mut general = General::new();
        let mut step = Step::new();
        let mut reply = [0; REPLY_WORDS];
        let mut snapshots = Snapshots { blocks: Vec::new(), tables: Vec::new() };
        for record in &tape.records {
            snapshots.blocks.push(*general.state);
            snapshots.tables.push(step.tables.clone());
            general.answer(record, &tape.words, &mut reply);
            step.answer(record, &tape.words, &mut reply);
        }
        snapshots
    }
}

/// Nothing at all: what measuring itself costs.
pub struct Nothing;

impl Side for Nothing {
    fn restart(&mut self) {}

    fn load(&mut self, _: &Snapshots, _: usize, _: &Record) {}

    #[inline]
    fn answer(&mut self, record: &Record, words: &[u32], reply: &mut ReplyWords) {
        std::hint::black_box((record, words, reply));
    }
}

/// The library's general call: the block is read, tested, and written again.
pub struct General {
    pub state: Box<[u8; STATE_BYTES]>,
}

impl General {
    pub fn new() -> General {
        let mut side = General { state: Box::new([0; STATE_BYTES]) };
        side.restart();
        side
    }
}

impl Default for General {
    fn default() -> General {
        General::new()
    }
}

impl Side for General {
    fn restart(&mut self) {
        library::start(&mut self.state[..]);
    }

    fn load(&mut self, before: &Snapshots, index: usize, _: &Record) {
        *self.state = before.blocks[index];
    }

    #[inline]
    fn answer(&mut self, record: &Record, words: &[u32], reply: &mut ReplyWords) {
        let Record { call, caller, args } = *record;
        let answer = library::call(&mut self.state[..], call, caller, args, words);
        reply[0] = answer.status;
        reply[1..17].copy_from_slice(&answer.words);
        reply[17] = answer.next;
        reply[18] = answer.ended;
    }
}

/// The library's run of a tape that has this record alone. With a limit of 0
/// nothing is carried out, so that the difference is the step.
pub struct OneRun {
    state: Box<[u8; STATE_BYTES]>,
    tape: Vec<u8>,
    most: u32,
}

impl OneRun {
    pub fn new(most: u32, words: &[u32]) -> OneRun {
        let record = Record { call: 0, caller: 0, args: [0; 4] };
        let tape = Tape { records: vec![record], words: words.to_vec() }.encode();
        let mut side = OneRun { state: Box::new([0; STATE_BYTES]), tape, most };
        side.restart();
        side
    }
}

impl Side for OneRun {
    fn restart(&mut self) {
        library::start(&mut self.state[..]);
    }

    fn load(&mut self, before: &Snapshots, index: usize, record: &Record) {
        *self.state = before.blocks[index];
        let [a, b, c, d] = record.args;
        let fields = [record.call, record.caller, a, b, c, d].map(u32::to_le_bytes);
        self.tape[16..40].copy_from_slice(fields.as_flattened());
    }

    fn wants_loading(&self) -> bool {
        true
    }

    #[inline]
    fn answer(&mut self, _: &Record, _: &[u32], reply: &mut ReplyWords) {
        library::run(&mut self.state[..], &self.tape, self.most, reply);
    }
}

#[inline]
fn put(outcome: &Outcome, reply: &mut ReplyWords) {
    reply[0] = outcome.status.0;
    reply[1..17].copy_from_slice(&outcome.words);
    reply[17] = outcome.next.map_or(NOBODY, |thread| thread.0);
    reply[18] = outcome.ended;
}

/// The ordinary kernel without its soundness test.
#[derive(Default)]
pub struct Step {
    pub tables: Tables,
}

impl Step {
    pub fn new() -> Step {
        Step::default()
    }
}

impl Side for Step {
    fn restart(&mut self) {
        self.tables = Tables::new();
    }

    fn load(&mut self, before: &Snapshots, index: usize, _: &Record) {
        self.tables = before.tables[index].clone();
    }

    #[inline]
    fn answer(&mut self, record: &Record, words: &[u32], reply: &mut ReplyWords) {
        let Record { call, caller, args } = *record;
        let outcome = self.tables.step_numbered::<{ fault::NONE }>(call, caller, args, words);
        put(&outcome, reply);
    }
}

/// The ordinary kernel with its soundness test.
#[derive(Default)]
pub struct Tested {
    tables: Tables,
}

impl Tested {
    pub fn new() -> Tested {
        Tested::default()
    }
}

impl Side for Tested {
    fn restart(&mut self) {
        self.tables = Tables::new();
    }

    fn load(&mut self, before: &Snapshots, index: usize, _: &Record) {
        self.tables = before.tables[index].clone();
    }

    #[inline]
    fn answer(&mut self, record: &Record, words: &[u32], reply: &mut ReplyWords) {
        let Record { call, caller, args } = *record;
        let outcome = self.tables.call_numbered(call, caller, args, words);
        put(&outcome, reply);
    }
}

/// The sides by the names that the counting processes are given.
pub const NAMES: [&str; 6] = ["none", "call", "run1", "run0", "step", "tested"];

/// The side of a name.
pub fn named(name: &str, words: &[u32]) -> Option<Box<dyn Side>> {
    Some(match name {
        "none" => Box::new(Nothing),
        "call" => Box::new(General::new()),
        "run1" => Box::new(OneRun::new(1, words)),
        "run0" => Box::new(OneRun::new(0, words)),
        "step" => Box::new(Step::new()),
        "tested" => Box::new(Tested::new()),
        _ => return None,
    })
}
