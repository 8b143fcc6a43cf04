//! Comparison of the proved program `inspect`, or of the proved library, with
//! the ordinary kernel.

use crate::library;
use crate::text::list::call_text;
use ordinary::{print, Tape};
use std::fmt;
use std::io::{self, Write};
use std::path::{Path, PathBuf};
use std::process::{Command, Stdio};

/// Where the proved program stands in the repository.
const PLACE: &str = "target/bin/inspect";

/// The proved program.
#[derive(Clone, Debug)]
pub struct Inspect {
    path: PathBuf,
}

impl Inspect {
    /// The program at a path given by the user.
    pub fn at(path: &Path) -> Result<Inspect, String> {
        if path.is_file() {
            Ok(Inspect { path: path.to_path_buf() })
        } else {
            Err(format!("no proved program at {}", path.display()))
        }
    }

    /// The program in the repository around the current directory, or around
    /// this program.
    pub fn find() -> Result<Inspect, String> {
        let starts = [std::env::current_dir().ok(), std::env::current_exe().ok()];
        for start in starts.iter().flatten() {
            for folder in start.ancestors() {
                if let Ok(inspect) = Inspect::at(&folder.join(PLACE)) {
                    return Ok(inspect);
                }
            }
        }
        Err(format!(
            "the proved program {PLACE} is not there; build it with `tools/program inspect` in the \
             repository's root, or name it with --inspect"
        ))
    }

    pub fn path(&self) -> &Path {
        &self.path
    }

    /// What the program prints for a tape.
    pub fn run(&self, bytes: &[u8]) -> io::Result<String> {
        let mut child = Command::new(&self.path)
            .stdin(Stdio::piped())
            .stdout(Stdio::piped())
            .stderr(Stdio::piped())
            .spawn()?;
        let mut input = child.stdin.take().expect("standard input is piped");
        // Written beside the reading, so that neither side waits for ever.
        // A program that stops reading early is judged by what it prints.
        let output = std::thread::scope(|scope| {
            scope.spawn(move || input.write_all(bytes));
            child.wait_with_output()
        })?;
        if !output.status.success() {
            let message = String::from_utf8_lossy(&output.stderr);
            return Err(io::Error::other(format!("{}: {}", output.status, message.trim())));
        }
        Ok(String::from_utf8_lossy(&output.stdout).into_owned())
    }
}

/// The proved side of a comparison.
#[derive(Clone, Debug)]
pub enum Proved {
    /// The program `inspect`, one process a tape.
    Program(Inspect),
    /// The library, in this process.
    Library,
}

impl Proved {
    /// What the proved side prints for a tape.
    fn run(&self, bytes: &[u8]) -> Result<String, String> {
        match self {
            Proved::Program(inspect) => inspect
                .run(bytes)
                .map_err(|error| format!("cannot run {}: {error}", inspect.path.display())),
            Proved::Library => Ok(library::inspect(bytes)),
        }
    }
}

impl fmt::Display for Proved {
    fn fmt(&self, f: &mut fmt::Formatter<'_>) -> fmt::Result {
        match self {
            Proved::Program(inspect) => inspect.path.display().fmt(f),
            Proved::Library => f.write_str("the library"),
        }
    }
}

impl From<Inspect> for Proved {
    fn from(inspect: Inspect) -> Proved {
        Proved::Program(inspect)
    }
}

/// The first place where the two sides differ.
#[derive(Clone, PartialEq, Eq, Debug)]
pub struct Difference {
    /// The record, unless the tables before the first one differ.
    pub record: Option<usize>,
    pub ordinary: String,
    pub proved: String,
}

impl Difference {
    /// Both sides, with the call that they answer.
    pub fn describe(&self, tape: &Tape) -> String {
        let place = match self.record {
            None => "before the first record".to_string(),
            Some(index) => format!("record {index}: {}", call_text(&tape.records[index])),
        };
        format!("{place}\n{self}")
    }
}

impl fmt::Display for Difference {
    fn fmt(&self, f: &mut fmt::Formatter<'_>) -> fmt::Result {
        writeln!(f, "  ordinary: {}", self.ordinary)?;
        write!(f, "  proved:   {}", self.proved)?;
        if let Some((field, other)) = first_field(&self.ordinary, &self.proved) {
            write!(f, "\n  first different word: {field} / {other}")?;
        }
        Ok(())
    }
}

/// The first word in which two lines differ.
fn first_field<'a>(one: &'a str, other: &'a str) -> Option<(&'a str, &'a str)> {
    one.split(' ').zip(other.split(' ')).find(|(one, other)| one != other)
}

/// The first different line of two outputs.
pub fn first_difference(ordinary: &str, proved: &str) -> Option<Difference> {
    if ordinary == proved {
        return None;
    }
    let mut record = None;
    let mut ours = ordinary.split('\n');
    let mut theirs = proved.split('\n');
    loop {
        let (our, their) = (ours.next(), theirs.next());
        if our == their {
            our?;
            if let Some(index) = our.and_then(record_index) {
                record = Some(index);
            }
            continue;
        }
        // A line that one side lacks may be the next call of the other.
        let line = |side: Option<&str>| side.unwrap_or("(nothing more)").to_string();
        return Some(Difference { record, ordinary: line(our), proved: line(their) });
    }
}

fn record_index(line: &str) -> Option<usize> {
    line.strip_prefix("call ")?.split(' ').next()?.parse().ok()
}

/// Compares both sides on a tape.
pub fn compare(proved: &Proved, tape: &Tape) -> Result<Option<Difference>, String> {
    compare_bytes(proved, &tape.encode())
}

/// Compares both sides on any bytes.
pub fn compare_bytes(proved: &Proved, bytes: &[u8]) -> Result<Option<Difference>, String> {
    Ok(first_difference(&print::inspect(bytes), &proved.run(bytes)?))
}
