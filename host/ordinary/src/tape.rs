//! The call tape: little-endian words, a header of four, records, messages.

use crate::fault;
use crate::kernel::Outcome;
use crate::status::Status;
use crate::tables::Tables;

/// Most records of a tape.
pub const MAX_RECORDS: usize = 2048;
/// Most message words of a tape.
pub const MAX_WORDS: usize = 4000;

const HEADER_BYTES: usize = 16;
const RECORD_BYTES: usize = 24;

/// One call as the tape has it; any numbers.
#[derive(Clone, Copy, PartialEq, Eq, Debug)]
pub struct Record {
    pub call: u32,
    pub caller: u32,
    pub args: [u32; 4],
}

/// A tape's records and message words.
#[derive(Clone, PartialEq, Eq, Debug, Default)]
pub struct Tape {
    pub records: Vec<Record>,
    pub words: Vec<u32>,
}

fn word_at(bytes: &[u8], at: usize) -> u32 {
    u32::from_le_bytes([bytes[at], bytes[at + 1], bytes[at + 2], bytes[at + 3]])
}

/// Where the parts of a tape end, if the tape is not refused.
#[derive(Clone, Copy)]
struct Layout {
    records: usize,
    words: usize,
}

impl Layout {
    fn of(bytes: &[u8]) -> Result<Layout, Status> {
        if bytes.len() < HEADER_BYTES {
            return Err(Status::TAPE_REFUSED);
        }
        let header = [0, 4, 8, 12].map(|at| word_at(bytes, at) as usize);
        let [records, records_at, words, words_at] = header;
        // The limits come first, so that no sum can wrap.
        let refused = records > MAX_RECORDS
            || words > MAX_WORDS
            || records_at != HEADER_BYTES
            || words_at != HEADER_BYTES + RECORD_BYTES * records
            || bytes.len() != words_at + 4 * words;
        if refused {
            Err(Status::TAPE_REFUSED)
        } else {
            Ok(Layout { records, words })
        }
    }
}

impl Record {
    fn decode(bytes: &[u8]) -> Record {
        Record {
            call: word_at(bytes, 0),
            caller: word_at(bytes, 4),
            args: [8, 12, 16, 20].map(|at| word_at(bytes, at)),
        }
    }
}

impl Tape {
    /// Reads a tape, or refuses it with 0x103.
    pub fn decode(bytes: &[u8]) -> Result<Tape, Status> {
        let layout = Layout::of(bytes)?;
        let (records, words) = bytes[HEADER_BYTES..].split_at(RECORD_BYTES * layout.records);
        let words = words.chunks_exact(4).take(layout.words);
        Ok(Tape {
            records: records.chunks_exact(RECORD_BYTES).map(Record::decode).collect(),
            words: words.map(|word| word_at(word, 0)).collect(),
        })
    }

    /// The tape's bytes. A tape over the limits gives bytes that are refused.
    pub fn encode(&self) -> Vec<u8> {
        let words_at = HEADER_BYTES + RECORD_BYTES * self.records.len();
        let mut bytes = Vec::with_capacity(words_at + 4 * self.words.len());
        let header = [self.records.len(), HEADER_BYTES, self.words.len(), words_at];
        let mut push = |word: u32| bytes.extend_from_slice(&word.to_le_bytes());
        header.iter().for_each(|&word| push(word as u32));
        for record in &self.records {
            push(record.call);
            push(record.caller);
            record.args.iter().for_each(|&arg| push(arg));
        }
        self.words.iter().for_each(|&word| push(word));
        bytes
    }

    /// Runs at most `limit` records; `each` sees every record, its answer and
    /// the tables after it. Gives how many records were carried out.
    pub fn run(
        &self,
        tables: &mut Tables,
        limit: u32,
        mut each: impl FnMut(usize, &Record, &Outcome, &Tables),
    ) -> u32 {
        let count = self.records.len().min(limit as usize);
        // Sound tables stay sound, so one test at the start is enough.
        let sound = tables.soundness().is_ok();
        for (index, record) in self.records[..count].iter().enumerate() {
            let outcome = if sound {
                tables.step_numbered::<{ fault::NONE }>(
                    record.call,
                    record.caller,
                    record.args,
                    &self.words,
                )
            } else {
                Outcome::unsound()
            };
            each(index, record, &outcome, tables);
        }
        count as u32
    }
}

/// Runs a tape's bytes, at most `limit` records. Gives how many records were
/// carried out, or 0x103 with nothing done.
pub fn run(tables: &mut Tables, bytes: &[u8], limit: u32) -> Result<u32, Status> {
    Ok(Tape::decode(bytes)?.run(tables, limit, |_, _, _, _| {}))
}
