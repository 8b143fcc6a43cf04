//! Shrinking a failing tape to a short one.

use crate::names::service_numbered;
use ordinary::{Record, Tape};

/// A shorter and simpler tape for which `fails` still holds. `fails` must
/// hold for the tape given.
pub fn shrink(tape: &Tape, fails: &mut dyn FnMut(&Tape) -> bool) -> Tape {
    let mut best = tape.clone();
    loop {
        let before = best.clone();
        remove_records(&mut best, fails);
        simplify_callers(&mut best, fails);
        simplify_arguments(&mut best, fails);
        drop_words(&mut best, fails);
        renumber(&mut best, fails);
        remove_with_change(&mut best, fails);
        if best == before {
            return best;
        }
    }
}

/// Removes runs of records, longer ones first.
fn remove_records(best: &mut Tape, fails: &mut dyn FnMut(&Tape) -> bool) {
    let mut length = best.records.len();
    while length > 0 {
        let mut end = best.records.len();
        while end > 0 {
            let start = end.saturating_sub(length);
            let mut shorter = best.clone();
            shorter.records.drain(start..end);
            if fails(&shorter) {
                *best = shorter;
            }
            end = start;
        }
        length /= 2;
    }
}

/// Callers, the plainest first: a call that an interrupt can make needs no
/// thread, and one that start-up can make needs none that runs.
const CALLERS: [u32; 3] = [1, 0, 2];

/// Tries plainer callers for every record.
fn simplify_callers(best: &mut Tape, fails: &mut dyn FnMut(&Tape) -> bool) {
    for index in 0..best.records.len() {
        let own = best.records[index].caller;
        for caller in CALLERS.into_iter().take_while(|&caller| caller != own) {
            let mut changed = best.clone();
            changed.records[index].caller = caller;
            if fails(&changed) {
                *best = changed;
                break;
            }
        }
    }
}

/// Longest tape on which pairs of changes are tried.
const PAIRS: usize = 8;

/// Tries to remove a record together with a change of another's argument:
/// a thread that is created and then resumed can be created ready.
fn remove_with_change(best: &mut Tape, fails: &mut dyn FnMut(&Tape) -> bool) {
    if best.records.len() > PAIRS {
        return;
    }
    for removed in (0..best.records.len()).rev() {
        let mut shorter = best.clone();
        shorter.records.remove(removed);
        if let Some(changed) = change_one_argument(&shorter, fails) {
            *best = changed;
            return;
        }
    }
}

fn change_one_argument(tape: &Tape, fails: &mut dyn FnMut(&Tape) -> bool) -> Option<Tape> {
    for index in 0..tape.records.len() {
        for at in 0..4 {
            for value in [0, 1] {
                let mut changed = tape.clone();
                changed.records[index].args[at] = value;
                if changed != *tape && fails(&changed) {
                    return Some(changed);
                }
            }
        }
    }
    None
}

/// Tries small values for every argument.
fn simplify_arguments(best: &mut Tape, fails: &mut dyn FnMut(&Tape) -> bool) {
    for index in 0..best.records.len() {
        for at in 0..4 {
            for value in simpler(best.records[index].args[at]) {
                try_record(best, index, fails, |record| record.args[at] = value);
            }
        }
    }
}

/// Simpler values, the simplest first.
fn simpler(value: u32) -> Vec<u32> {
    const PLAIN: [u32; 7] = [0, 1, 2, 3, 4, 10, 0xFFFF_FFFF];
    let rank = |value: u32| PLAIN.iter().position(|&plain| plain == value);
    let own = rank(value).unwrap_or(PLAIN.len());
    PLAIN[..own].to_vec()
}

fn try_record(
    best: &mut Tape,
    index: usize,
    fails: &mut dyn FnMut(&Tape) -> bool,
    change: impl FnOnce(&mut Record),
) {
    let mut changed = best.clone();
    change(&mut changed.records[index]);
    if changed != *best
        && simpler_than(&changed.records[index], &best.records[index])
        && fails(&changed)
    {
        *best = changed;
    }
}

/// Guards against going round: a change must make the record simpler.
fn simpler_than(new: &Record, old: &Record) -> bool {
    let cost =
        |record: &Record| -> usize { record.args.iter().map(|&arg| simpler(arg).len()).sum() };
    cost(new) < cost(old)
}

/// Drops message words, all of them or from the end, and plain ones for the rest.
fn drop_words(best: &mut Tape, fails: &mut dyn FnMut(&Tape) -> bool) {
    let mut keep = 0;
    while keep < best.words.len() {
        let mut shorter = best.clone();
        shorter.words.truncate(keep);
        if fails(&shorter) {
            *best = shorter;
            break;
        }
        keep = if keep == 0 { 1 } else { keep * 2 };
    }
    for at in 0..best.words.len() {
        let mut plain = best.clone();
        plain.words[at] = at as u32 + 1;
        if plain != *best && fails(&plain) {
            *best = plain;
        }
    }
}

/// Gives threads and objects of each kind the numbers 0, 1, .. in the order
/// in which the tape names them.
fn renumber(best: &mut Tape, fails: &mut dyn FnMut(&Tape) -> bool) {
    for kind in ["thread", "semaphore", "queue", "group", "pool"] {
        let mut changed = best.clone();
        let mut numbers: Vec<u32> = Vec::new();
        for record in &mut changed.records {
            let Some(service) = service_numbered(record.call) else { continue };
            if service.arguments.first().map(|argument| argument.name) != Some(kind) {
                continue;
            }
            let number = record.args[0];
            let place = numbers.iter().position(|&known| known == number).unwrap_or_else(|| {
                numbers.push(number);
                numbers.len() - 1
            });
            record.args[0] = place as u32;
        }
        if changed != *best && fails(&changed) {
            *best = changed;
        }
    }
}
