//! Checks of the ordinary kernel against itself, call by call.

use crate::ended::{ended_waits, Ended, Reason};
use ordinary::{Accounts, Outcome, Record, Rolls, State, Status, Tables, Tape};

/// The first record after which something does not hold.
#[derive(Clone, PartialEq, Eq, Debug)]
pub struct Failure {
    pub record: usize,
    pub what: String,
}

/// How often each call was carried out or refused, and how waits ended.
#[derive(Clone, Debug)]
pub struct Tally {
    pub records: u64,
    /// Ended waits, by the state that was left and by `Reason`.
    ended: [[u64; Reason::ALL.len()]; 9],
    /// By call number: carried out, and refused.
    pub by_call: [(u64, u64); 40],
    /// The most threads that stood in one line.
    pub longest_line: usize,
}

impl Default for Tally {
    fn default() -> Tally {
        Tally {
            records: 0,
            ended: [[0; Reason::ALL.len()]; 9],
            by_call: [(0, 0); 40],
            longest_line: 0,
        }
    }
}

impl Tally {
    fn count(&mut self, record: &Record, outcome: &Outcome, ended: &[Ended], after: &Tables) {
        self.records += 1;
        for wait in ended {
            self.ended[wait.from as usize][wait.reason as usize] += 1;
        }
        if let Some(entry) = self.by_call.get_mut(record.call as usize) {
            if outcome.status.is_carried_out() {
                entry.0 += 1;
            } else {
                entry.1 += 1;
            }
        }
        if outcome.status == Status::WAITING {
            self.longest_line = self.longest_line.max(longest_line(after));
        }
    }

    /// All waits that ended.
    pub fn ended(&self) -> u64 {
        self.ended.as_flattened().iter().sum()
    }

    /// The waits in a state that ended for a reason.
    pub fn ended_by(&self, state: State, reason: Reason) -> u64 {
        self.ended[state as usize][reason as usize]
    }
}

fn longest_line(tables: &Tables) -> usize {
    let semaphores = tables.semaphores.iter().map(|object| &object.line);
    let queues = tables.queues.iter().map(|object| &object.line);
    let groups = tables.groups.iter().map(|object| &object.line);
    let pools = tables.pools.iter().map(|object| &object.line);
    let lines = semaphores.chain(queues).chain(groups).chain(pools);
    lines.map(|line| line.iter(&tables.threads).count()).max().unwrap_or(0)
}

/// Runs a tape from nothing created. After each call the tables must be
/// sound, a refusal must have changed nothing, the count of ended waits must
/// be that of the waits that ended, and rolls and accounts must hold.
pub fn check_tape(tape: &Tape, tally: &mut Tally) -> Result<(), Failure> {
    let mut tables = Tables::new();
    let mut rolls = Rolls::new(&tables);
    let mut accounts = Accounts::default();
    for (index, record) in tape.records.iter().enumerate() {
        let before = tables.clone();
        let outcome = tables.call_numbered(record.call, record.caller, record.args, &tape.words);
        let ended = ended_waits(&before, record, &tables);
        let checked = check_call(&before, &outcome, &ended, &tables)
            .and_then(|()| {
                rolls
                    .follow(record, &tape.words, &outcome, &tables)
                    .map_err(|error| error.to_string())
            })
            .and_then(|()| {
                accounts.follow(record, &outcome, &before, &tables).map_err(str::to_string)
            });
        if let Err(what) = checked {
            return Err(Failure { record: index, what });
        }
        tally.count(record, &outcome, &ended, &tables);
    }
    Ok(())
}

fn check_call(
    before: &Tables,
    outcome: &Outcome,
    ended: &[Ended],
    after: &Tables,
) -> Result<(), String> {
    after.soundness().map_err(|clause| format!("tables unsound: {clause}"))?;
    if outcome.next != after.runner() {
        return Err("the next thread is not the running one".to_string());
    }
    if !outcome.status.is_carried_out() {
        if before != after {
            return Err("a refused call changed the tables".to_string());
        }
        if outcome.words != [0; 16] || outcome.ended != 0 {
            return Err("a refused call answered words or a count".to_string());
        }
    }
    if outcome.status == Status::WAITING && outcome.words != [0; 16] {
        return Err("a call that now waits answered words".to_string());
    }
    if outcome.ended as usize != ended.len() {
        let (counted, ended) = (outcome.ended, ended.len());
        return Err(format!("{counted} waits counted as ended, but {ended} ended"));
    }
    Ok(())
}
