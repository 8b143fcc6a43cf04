//! Instructions and copied bytes, counted by processes of their own.
//!
//! Instructions are counted by valgrind's callgrind, which collects only inside
//! `bench_counted_answer` and writes a file whenever `bench_service_ends` is
//! left. Bytes are counted by the program `count-copies`, in which every call
//! of memcpy, memmove and memset goes through a counter.

use super::sides::{self, ReplyWords, Side, Snapshots};
use crate::names::SERVICES;
use apachimo::REPLY_WORDS;
use ordinary::{Record, Tape};
use std::fs;
use std::path::{Path, PathBuf};
use std::process::Command;

/// One number for each service and side, summed over the service's records.
#[derive(Clone, PartialEq, Debug)]
pub struct Counts {
    by_side: Vec<Vec<f64>>,
}

impl Counts {
    /// The number of a side for a service, by its place in `SERVICES`.
    fn of(&self, name: &str, service: usize) -> f64 {
        let side = sides::NAMES.iter().position(|side| *side == name);
        side.and_then(|side| self.by_side.get(side)?.get(service).copied()).unwrap_or(0.0)
    }

    /// A side's own number, without what measuring costs.
    pub fn net(&self, name: &str, service: usize) -> f64 {
        self.of(name, service) - self.of("none", service)
    }

    /// The number of an untested step in a run.
    pub fn run_step(&self, service: usize) -> f64 {
        self.of("run1", service) - self.of("run0", service)
    }
}

/// The part of which callgrind counts the instructions.
#[no_mangle]
#[inline(never)]
pub fn bench_counted_answer(
    side: &mut dyn Side,
    record: &Record,
    words: &[u32],
    reply: &mut ReplyWords,
) {
    side.answer(record, words, reply);
}

/// Tells callgrind that a service's records are through.
#[no_mangle]
#[inline(never)]
pub fn bench_service_ends(service: u32) {
    std::hint::black_box(service);
}

/// Answers every record from the tables before it, service by service, in the
/// function that callgrind watches. `each` is told what a record brought.
pub fn answer_all(
    side: &mut dyn Side,
    tape: &Tape,
    snapshots: &Snapshots,
    mut each: impl FnMut(usize, &mut dyn FnMut()),
) {
    for (place, service) in SERVICES.iter().enumerate() {
        for (index, record) in tape.records.iter().enumerate() {
            if record.call == service.number {
                side.load(snapshots, index, record);
                let mut reply = [0; REPLY_WORDS];
                each(place, &mut || {
                    bench_counted_answer(side, record, &tape.words, &mut reply);
                });
            }
        }
        bench_service_ends(service.number);
    }
}

/// The instructions of each service on each side: all, and those outside
/// copying functions.
pub fn instructions() -> Result<(Counts, Counts), String> {
    let program = own_path()?;
    let folder = std::env::temp_dir().join(format!("board-tools-{}", std::process::id()));
    fs::create_dir_all(&folder).map_err(|error| format!("{}: {error}", folder.display()))?;
    let counted: Result<Vec<_>, String> =
        sides::NAMES.iter().map(|side| callgrind(&program, &folder, side)).collect();
    // The folder is only for these files.
    let _ = fs::remove_dir_all(&folder);
    let (all, apart) = counted?.into_iter().unzip();
    Ok((Counts { by_side: all }, Counts { by_side: apart }))
}

fn own_path() -> Result<PathBuf, String> {
    std::env::current_exe().map_err(|error| format!("this program's path: {error}"))
}

/// Runs this program under callgrind on one side, and reads a file a service.
fn callgrind(program: &Path, folder: &Path, side: &str) -> Result<(Vec<f64>, Vec<f64>), String> {
    let out = folder.join(side);
    let output = Command::new("valgrind")
        .args(["--tool=callgrind", "--toggle-collect=bench_counted_answer"])
        .arg("--dump-after=bench_service_ends")
        .arg(format!("--callgrind-out-file={}", out.display()))
        .arg(program)
        .args(["bench", "--count", side])
        .output()
        .map_err(|error| format!("valgrind is not there ({error})"))?;
    if !output.status.success() {
        return Err(format!("valgrind failed: {}", String::from_utf8_lossy(&output.stderr)));
    }
    let read = |service: usize| {
        let path = folder.join(format!("{side}.{}", service + 1));
        let text =
            fs::read_to_string(&path).map_err(|error| format!("{}: {error}", path.display()))?;
        own_costs(&text).map_err(|error| format!("{}: {error}", path.display()))
    };
    let costs: Result<Vec<(f64, f64)>, String> = (0..SERVICES.len()).map(read).collect();
    Ok(costs?.into_iter().unzip())
}

/// All instructions of a callgrind file, and those outside memcpy, memmove and
/// memset. A function's own costs stand on lines that begin with a number, `+`,
/// `-` or `*`; the line behind `calls=` is what a callee took. The sum must be the
/// file's own.
pub fn own_costs(text: &str) -> Result<(f64, f64), String> {
    let mut names = Vec::new();
    let (mut all, mut apart, mut total) = (0.0, 0.0, None);
    let (mut copies, mut callee) = (false, false);
    for line in text.lines() {
        if let Some(name) = line.strip_prefix("fn=") {
            copies = is_copy(name, &mut names);
        } else if let Some(name) = line.strip_prefix("cfn=") {
            is_copy(name, &mut names);
        } else if line.starts_with("calls=") {
            callee = true;
        } else if let Some(sum) = line.strip_prefix("totals: ") {
            total = sum.trim().parse::<f64>().ok();
        } else if let (false, Some(cost)) = (callee, cost_of(line)) {
            all += cost;
            apart += if copies { 0.0 } else { cost };
        } else {
            callee = false;
        }
    }
    match total == Some(all) {
        true => Ok((all, apart)),
        false => Err(format!("its lines sum up to {all}, and its total is {total:?}")),
    }
}

/// The cost of a line with a position and a cost.
fn cost_of(line: &str) -> Option<f64> {
    line.starts_with(|first: char| first.is_ascii_digit() || "+-*".contains(first))
        .then(|| line.split(' ').nth(1)?.parse().ok())?
}

/// Whether `(id) name`, or the `(id)` of a name given before, copies.
fn is_copy(field: &str, names: &mut Vec<(String, bool)>) -> bool {
    const COPYING: [&str; 3] = ["memcpy", "memmove", "memset"];
    let (id, name) = field.split_once(' ').unwrap_or((field, ""));
    if name.is_empty() {
        return names.iter().any(|(known, copies)| known == id && *copies);
    }
    let copies = COPYING.iter().any(|part| name.contains(part));
    names.push((id.to_string(), copies));
    copies
}

/// The bytes that each service copies on each side.
pub fn copied_bytes() -> Result<Counts, String> {
    let program = own_path()?.with_file_name("count-copies");
    let output = Command::new(&program)
        .output()
        .map_err(|error| format!("{}: {error}", program.display()))?;
    if !output.status.success() {
        return Err(format!("count-copies: {}", String::from_utf8_lossy(&output.stderr)));
    }
    parse_copies(&String::from_utf8_lossy(&output.stdout))
}

/// Lines of `SIDE BYTES..`, one number a service.
fn parse_copies(text: &str) -> Result<Counts, String> {
    let line = |name: &&str| {
        let found = text.lines().find_map(|line| line.strip_prefix(name)?.strip_prefix(' '));
        let numbers: Vec<f64> =
            found.unwrap_or("").split(' ').filter_map(|number| number.parse().ok()).collect();
        match numbers.len() == SERVICES.len() {
            true => Ok(numbers),
            false => Err(format!("count-copies: no line for {name}")),
        }
    };
    let by_side: Result<Vec<_>, String> = sides::NAMES.iter().map(line).collect();
    Ok(Counts { by_side: by_side? })
}
