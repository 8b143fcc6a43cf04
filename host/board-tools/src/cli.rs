//! The command line.

use crate::bench;
use crate::check::Tally;
use crate::compare::{compare_bytes, Inspect, Proved};
use crate::ended::Reason;
use crate::exercises::{find, symptom, STUDENT_ERRORS};
use crate::fuzz::{fuzz, Found, Options as FuzzOptions};
use crate::lanes;
use crate::names::service_numbered;
use crate::show::{run_table, Options as ShowOptions};
use crate::text::assemble::{assemble, Assembled};
use crate::text::list::{call_text, list};
use ordinary::tape::{MAX_RECORDS, MAX_WORDS};
use ordinary::{print, State, Tape};
use std::fs;
use std::io::{self, Read, Write};
use std::path::{Path, PathBuf};
use std::time::{Duration, Instant};

pub const HELP: &str = "\
board-tools: call tapes for the controller's kernel

usage: board-tools COMMAND ARGUMENTS

  assemble TEXT [-o TAPE]      turn a readable text into a tape
  list TAPE [-o TEXT]          turn a tape into readable text
  run TAPE [--tables] [--lanes FILE.svg]
                               show a run as a table; --tables adds the tables
                               that changed, --lanes draws one lane a thread
  replay TAPE                  print what the program `replay` prints
  inspect TAPE                 print what the program `inspect` prints
  compare [--inspect PROGRAM | --library] TAPE...
                               run tapes through the proved `inspect` and the
                               ordinary kernel; stop at the first difference
  fuzz SEED COUNT [--records N] [--from N] [--out FOLDER]
       [--inspect PROGRAM | --library | --alone]
                               make COUNT tapes of N records (300), check them,
                               compare them with the proved `inspect` if it is
                               there, and shrink the first one that fails
  exercises SEED [--out FOLDER]
                               find a short tape for each student error
  bench [--rounds N] [--svg FILE.svg] [--smoke]
                               measure 1,600 mixed calls through the proved
                               library and the ordinary kernel, in N rounds
                               (200); --svg draws the quotients, --smoke only
                               checks both sides and measures three rounds

Where a TAPE is read, a readable text will do too; `-` is standard input.
Without -o, assemble and list write to standard output.
The proved `inspect` is looked for as target/bin/inspect in the folders above.
With --library the proved library is called in this process instead.

exit status: 0 done, 1 a difference or failed check, 2 bad input or usage
";

/// Why a command stops.
enum Stop {
    /// A difference or a failed check.
    Found(String),
    /// Bad input or usage.
    Bad(String),
}

type Done = Result<(), Stop>;

fn bad<T>(message: impl Into<String>) -> Result<T, Stop> {
    Err(Stop::Bad(message.into()))
}

/// Carries out a command line; gives the exit status.
pub fn main(args: &[String]) -> u8 {
    match command(args) {
        Ok(()) => 0,
        Err(Stop::Found(message)) => {
            eprintln!("{message}");
            1
        }
        Err(Stop::Bad(message)) => {
            eprintln!("board-tools: {message}");
            2
        }
    }
}

fn command(args: &[String]) -> Done {
    let Some((name, rest)) = args.split_first() else {
        return bad(format!("expected a command\n\n{HELP}"));
    };
    match name.as_str() {
        "assemble" => assemble_command(&Arguments::parse(rest, &["-o"], &[])?),
        "list" => list_command(&Arguments::parse(rest, &["-o"], &[])?),
        "run" => run_command(&Arguments::parse(rest, &["--lanes"], &["--tables"])?),
        "replay" => print_command(&Arguments::parse(rest, &[], &[])?, print::replay),
        "inspect" => print_command(&Arguments::parse(rest, &[], &[])?, print::inspect),
        "compare" => compare_command(&Arguments::parse(rest, &["--inspect"], &["--library"])?),
        "fuzz" => {
            let options = ["--records", "--from", "--inspect", "--out"];
            fuzz_command(&Arguments::parse(rest, &options, &["--alone", "--library"])?)
        }
        "exercises" => exercises_command(&Arguments::parse(rest, &["--out"], &[])?),
        "bench" => {
            bench_command(&Arguments::parse(rest, &["--rounds", "--svg", "--count"], &["--smoke"])?)
        }
        "help" | "--help" | "-h" => write_out(HELP.as_bytes()),
        other => bad(format!("unknown command `{other}`\n\n{HELP}")),
    }
}

/// Plain arguments, options with a value, and flags.
struct Arguments {
    plain: Vec<String>,
    options: Vec<(String, String)>,
    flags: Vec<String>,
}

impl Arguments {
    fn parse(args: &[String], options: &[&str], flags: &[&str]) -> Result<Arguments, Stop> {
        let mut parsed = Arguments { plain: Vec::new(), options: Vec::new(), flags: Vec::new() };
        let mut rest = args.iter();
        while let Some(arg) = rest.next() {
            if options.contains(&arg.as_str()) {
                let Some(value) = rest.next() else { return bad(format!("{arg} needs a value")) };
                parsed.options.push((arg.clone(), value.clone()));
            } else if flags.contains(&arg.as_str()) {
                parsed.flags.push(arg.clone());
            } else if arg.starts_with('-') && arg != "-" {
                return bad(format!("unknown option `{arg}`; see board-tools --help"));
            } else {
                parsed.plain.push(arg.clone());
            }
        }
        Ok(parsed)
    }

    fn option(&self, name: &str) -> Option<&str> {
        self.options.iter().rev().find(|(given, _)| given == name).map(|(_, value)| value.as_str())
    }

    fn flag(&self, name: &str) -> bool {
        self.flags.iter().any(|flag| flag == name)
    }

    fn number(&self, name: &str, default: u64) -> Result<u64, Stop> {
        match self.option(name) {
            None => Ok(default),
            Some(text) => parse_number(name, text),
        }
    }

    /// The only plain argument.
    fn single(&self, what: &str) -> Result<&str, Stop> {
        match self.plain.as_slice() {
            [one] => Ok(one),
            [] => bad(format!("expected {what}")),
            _ => bad(format!("expected only {what}")),
        }
    }
}

fn parse_number(name: &str, text: &str) -> Result<u64, Stop> {
    match text.parse() {
        Ok(number) => Ok(number),
        Err(_) => bad(format!("{name} must be a number, not `{text}`")),
    }
}

fn read_input(name: &str) -> Result<Vec<u8>, Stop> {
    let read = if name == "-" {
        let mut bytes = Vec::new();
        io::stdin().read_to_end(&mut bytes).map(|_| bytes)
    } else {
        fs::read(name)
    };
    read.or_else(|error| bad(format!("cannot read {name}: {error}")))
}

/// Writes to standard output; a reader that has gone is no failure.
fn write_out(bytes: &[u8]) -> Done {
    let mut out = io::stdout().lock();
    match out.write_all(bytes).and_then(|()| out.flush()) {
        Err(error) if error.kind() != io::ErrorKind::BrokenPipe => {
            bad(format!("cannot write: {error}"))
        }
        _ => Ok(()),
    }
}

/// Writes a whole file or none: first beside it, then renamed.
fn write_file(path: &Path, bytes: &[u8]) -> Done {
    let mut part = path.as_os_str().to_owned();
    part.push(".part");
    let part = PathBuf::from(part);
    let written = fs::write(&part, bytes).and_then(|()| fs::rename(&part, path));
    if let Err(error) = written {
        // The part may or may not be there; the error to tell is the first.
        let _ = fs::remove_file(&part);
        return bad(format!("cannot write {}: {error}", path.display()));
    }
    Ok(())
}

fn write_to(option: Option<&str>, bytes: &[u8]) -> Done {
    match option {
        Some(path) => write_file(Path::new(path), bytes),
        None => write_out(bytes),
    }
}

/// Why bytes are no tape, in words.
pub fn explain_refusal(bytes: &[u8]) -> String {
    if bytes.len() < 16 {
        return format!("{} bytes are too few for a header of 16", bytes.len());
    }
    let word = |at: usize| {
        u32::from_le_bytes([bytes[at], bytes[at + 1], bytes[at + 2], bytes[at + 3]]) as u64
    };
    let (records, words) = (word(0), word(8));
    if records > MAX_RECORDS as u64 {
        return format!("{records} records are more than {MAX_RECORDS}");
    }
    if words > MAX_WORDS as u64 {
        return format!("{words} message words are more than {MAX_WORDS}");
    }
    if word(4) != 16 {
        return format!("records must start at byte 16, not {}", word(4));
    }
    let words_at = 16 + 24 * records;
    if word(12) != words_at {
        return format!("message words must start at byte {words_at}, not {}", word(12));
    }
    format!("the length must be {} bytes, not {}", words_at + 4 * words, bytes.len())
}

fn decode(name: &str, bytes: &[u8]) -> Result<Tape, Stop> {
    Tape::decode(bytes)
        .or_else(|_| bad(format!("{name} is not a tape: {}", explain_refusal(bytes))))
}

/// Whether bytes that are no tape look like text: UTF-8 with no control
/// characters but tabs and line ends.
fn looks_like_text(bytes: &[u8]) -> bool {
    let control = |&byte: &u8| byte < b' ' && !matches!(byte, b'\t' | b'\n' | b'\r');
    !bytes.is_empty() && std::str::from_utf8(bytes).is_ok() && !bytes.iter().any(control)
}

/// A tape, or a text that is assembled; the text's lines, if it is one.
fn to_tape(name: &str, bytes: &[u8]) -> Result<(Tape, Option<Vec<usize>>), Stop> {
    if Tape::decode(bytes).is_err() && looks_like_text(bytes) {
        let Assembled { tape, lines } = assemble_text(name, bytes)?;
        return Ok((tape, Some(lines)));
    }
    Ok((decode(name, bytes)?, None))
}

fn assemble_text(name: &str, bytes: &[u8]) -> Result<Assembled, Stop> {
    assemble(bytes).or_else(|error| bad(format!("{name}: {error}")))
}

fn assemble_command(args: &Arguments) -> Done {
    let name = args.single("one text")?;
    let assembled = assemble_text(name, &read_input(name)?)?;
    write_to(args.option("-o"), &assembled.tape.encode())
}

fn list_command(args: &Arguments) -> Done {
    let name = args.single("one tape")?;
    let tape = decode(name, &read_input(name)?)?;
    write_to(args.option("-o"), list(&tape).as_bytes())
}

fn run_command(args: &Arguments) -> Done {
    let name = args.single("one tape")?;
    let (tape, lines) = to_tape(name, &read_input(name)?)?;
    let options = ShowOptions { tables: args.flag("--tables") };
    if let Some(path) = args.option("--lanes") {
        let svg = lanes::draw(&tape, lines.as_deref());
        write_file(Path::new(path), svg.as_bytes())?;
    }
    write_out(run_table(&tape, lines.as_deref(), options).as_bytes())
}

/// Prints as the proved programs do; bytes that are neither tape nor text
/// are a refused tape for them.
fn print_command(args: &Arguments, form: fn(&[u8]) -> String) -> Done {
    let name = args.single("one tape")?;
    let bytes = read_input(name)?;
    if Tape::decode(&bytes).is_err() && looks_like_text(&bytes) {
        let assembled = assemble_text(name, &bytes)?;
        return write_out(form(&assembled.tape.encode()).as_bytes());
    }
    write_out(form(&bytes).as_bytes())
}

fn proved_side(args: &Arguments) -> Result<Proved, String> {
    match (args.flag("--library"), args.option("--inspect")) {
        (true, Some(_)) => Err("--inspect and --library exclude each other".to_string()),
        (true, None) => Ok(Proved::Library),
        (false, Some(path)) => Inspect::at(Path::new(path)).map(Proved::from),
        (false, None) => Inspect::find().map(Proved::from),
    }
}

fn compare_command(args: &Arguments) -> Done {
    if args.plain.is_empty() {
        return bad("expected one tape or more");
    }
    let proved = proved_side(args).map_err(Stop::Bad)?;
    for name in &args.plain {
        compare_input(&proved, name)?;
    }
    Ok(())
}

fn compare_input(proved: &Proved, name: &str) -> Done {
    let bytes = read_input(name)?;
    if Tape::decode(&bytes).is_err() && !looks_like_text(&bytes) {
        return match compare_bytes(proved, &bytes).map_err(Stop::Bad)? {
            None => write_out(format!("{name}: no difference, both refuse it\n").as_bytes()),
            Some(difference) => {
                Err(Stop::Found(format!("{name}: only one side refuses it\n{difference}")))
            }
        };
    }
    let (tape, _) = to_tape(name, &bytes)?;
    match compare_bytes(proved, &tape.encode()).map_err(Stop::Bad)? {
        None => {
            let records = tape.records.len();
            write_out(format!("{name}: no difference in {records} records\n").as_bytes())
        }
        Some(difference) => {
            let described = difference.describe(&tape);
            Err(Stop::Found(format!("{name}: the answers differ\n{described}")))
        }
    }
}

fn fuzz_command(args: &Arguments) -> Done {
    let [seed, count] = args.plain.as_slice() else {
        return bad("expected SEED and COUNT");
    };
    let records = args.number("--records", 300)?;
    if records > MAX_RECORDS as u64 {
        return bad(format!("--records must be at most {MAX_RECORDS}"));
    }
    let options = FuzzOptions {
        seed: parse_number("SEED", seed)?,
        from: args.number("--from", 0)?,
        count: parse_number("COUNT", count)?,
        records: records as usize,
        proved: fuzz_partner(args)?,
    };
    let mut progress = Progress::new(options.count);
    match fuzz(&options, &mut |done, tally| progress.tell(done, tally)).map_err(Stop::Bad)? {
        Ok(tally) => write_out(fuzz_report(&options, &tally).as_bytes()),
        Err(found) => {
            let folder = Path::new(args.option("--out").unwrap_or("."));
            write_found(folder, &options, &found)
        }
    }
}

/// The proved side to compare with, if any. One that is named must be there.
fn fuzz_partner(args: &Arguments) -> Result<Option<Proved>, Stop> {
    let named = args.option("--inspect").is_some() || args.flag("--library");
    if args.flag("--alone") {
        return match named {
            true => bad("--alone excludes --inspect and --library"),
            false => Ok(None),
        };
    }
    match proved_side(args) {
        Ok(proved) => {
            eprintln!("comparing with {proved}");
            Ok(Some(proved))
        }
        Err(message) if named => Err(Stop::Bad(message)),
        Err(message) => {
            eprintln!("not comparing: {message}");
            Ok(None)
        }
    }
}

/// Tells on standard error how far a long run is, about once a second.
struct Progress {
    count: u64,
    start: Instant,
    told: Instant,
}

impl Progress {
    fn new(count: u64) -> Progress {
        let now = Instant::now();
        Progress { count, start: now, told: now }
    }

    fn tell(&mut self, done: u64, tally: &Tally) {
        if self.told.elapsed() < Duration::from_secs(1) {
            return;
        }
        self.told = Instant::now();
        let seconds = self.start.elapsed().as_secs();
        eprintln!("{done} of {} tapes, {} records, {seconds} s", self.count, tally.records);
    }
}

fn fuzz_report(options: &FuzzOptions, tally: &Tally) -> String {
    let mut out = String::new();
    out.push_str("calls by number, carried out and refused:\n");
    for service in (1..40).filter_map(service_numbered) {
        let (done, refused) = tally.by_call[service.number as usize];
        out.push_str(&format!(
            "{:>4} {:<28}{done:>10}{refused:>10}\n",
            service.number, service.name
        ));
    }
    out.push_str(&ended_report(tally));
    let compared = match options.proved {
        Some(Proved::Program(_)) => "compared with the proved program, no difference",
        Some(Proved::Library) => "compared with the proved library, no difference",
        None => "not compared with the proved program",
    };
    out.push_str(&format!(
        "{} tapes of {} records, seed {}, from tape {}: soundness, rolls, accounts and counts \
         hold after each of {} calls; {} waits ended, longest line {}; {compared}\n",
        options.count,
        options.records,
        options.seed,
        options.from,
        tally.records,
        tally.ended(),
        tally.longest_line
    ));
    out
}

/// How waits ended, one line for each thing that threads wait for.
fn ended_report(tally: &Tally) -> String {
    let mut out = "waits ended: served, timed out, aborted, deleted\n".to_string();
    for (state, name) in [
        (State::Asleep, "sleep"),
        (State::Semaphore, "semaphore"),
        (State::Queue, "queue"),
        (State::Flags, "event flags"),
        (State::Block, "block pool"),
    ] {
        let ended = |reason| tally.ended_by(state, reason);
        out.push_str(&format!(
            "     {name:<18}{:>10}{:>10}{:>10}{:>10}\n",
            ended(Reason::Served),
            ended(Reason::TimedOut) + ended(Reason::SleptOut),
            ended(Reason::Aborted),
            ended(Reason::Deleted)
        ));
    }
    out
}

fn write_found(folder: &Path, options: &FuzzOptions, found: &Found) -> Done {
    let name = format!("fuzz-{}-{}", options.seed, found.number);
    let tape = folder.join(format!("{name}.tape"));
    let text = folder.join(format!("{name}.txt"));
    write_file(&tape, &found.tape.encode())?;
    write_file(&text, list(&found.tape).as_bytes())?;
    Err(Stop::Found(format!(
        "tape {} of seed {} fails; records after shrinking: {}, in {} and {}\n{}",
        found.number,
        options.seed,
        found.tape.records.len(),
        tape.display(),
        text.display(),
        found.what
    )))
}

/// Tapes tried for one student error.
const EXERCISE_TAPES: u64 = 300;

fn exercises_command(args: &Arguments) -> Done {
    let seed = parse_number("SEED", args.single("SEED")?)?;
    let mut missing = Vec::new();
    for error in STUDENT_ERRORS {
        let Some((number, tape)) = find(error.fault, seed, EXERCISE_TAPES, 300) else {
            missing.push(error.title);
            continue;
        };
        println!("{}: shown by tape {number}, shrunk to", error.title);
        write_out(list(&tape).as_bytes())?;
        if let Some(difference) = symptom(error.fault, &tape) {
            let record = &tape.records[difference.record];
            println!("  at {}", call_text(record).trim_start());
            println!("  right: {}", outcome_text(&difference.right));
            println!("  wrong: {}\n", outcome_text(&difference.wrong));
        }
        if let Some(folder) = args.option("--out") {
            let path = Path::new(folder).join(format!("{}.txt", error.name));
            write_file(&path, list(&tape).as_bytes())?;
        }
    }
    if missing.is_empty() {
        Ok(())
    } else {
        Err(Stop::Found(format!("not shown by {EXERCISE_TAPES} tapes: {}", missing.join(", "))))
    }
}

fn outcome_text(outcome: &ordinary::Outcome) -> String {
    let mut text = String::new();
    print::result(&mut text, outcome);
    text.trim_end().to_string()
}

/// Most rounds of a measurement: their times fit into memory.
const MOST_ROUNDS: u64 = 10_000;

fn bench_command(args: &Arguments) -> Done {
    if !args.plain.is_empty() {
        return bad("bench takes only options");
    }
    // Not in the help: this program under callgrind.
    if let Some(side) = args.option("--count") {
        return bench::count(side).map_err(Stop::Bad);
    }
    let smoke = args.flag("--smoke");
    let rounds = args.number("--rounds", if smoke { 3 } else { 200 })?;
    if !(1..=MOST_ROUNDS).contains(&rounds) {
        return bad(format!("--rounds must be 1 to {MOST_ROUNDS}"));
    }
    let report = bench::measure(rounds as usize, !smoke).map_err(Stop::Found)?;
    if let Some(path) = args.option("--svg") {
        write_file(Path::new(path), bench::chart::draw(&report).as_bytes())?;
    }
    write_out(report.text().as_bytes())
}
