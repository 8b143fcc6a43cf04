//! Links the proved archive, which is proved and built first where it is
//! missing or older than its sources.

use std::env;
use std::fs::{self, File};
use std::path::{Path, PathBuf};
use std::process::Command;
use std::time::SystemTime;

const ARCHIVE: &str = "libapachimo.a";
const FOLDER: &str = "APACHIMO_LIBRARY_DIR";
const BUILD: &str = "tools/staticlib";

fn main() {
    println!("cargo:rerun-if-env-changed={FOLDER}");
    let folder = match env::var_os(FOLDER) {
        Some(folder) => named_folder(PathBuf::from(folder)),
        None => repository_folder(),
    };
    let folder = folder.unwrap_or_else(|message| {
        eprintln!("{message}");
        std::process::exit(1);
    });
    println!("cargo:rerun-if-changed={}", folder.join(ARCHIVE).display());
    println!("cargo:rustc-link-search=native={}", folder.display());
    println!("cargo:rustc-link-lib=static=apachimo");
    println!("cargo:rustc-env=APACHIMO_ARCHIVE={}", folder.join(ARCHIVE).display());
}

/// The folder that the environment names.
fn named_folder(folder: PathBuf) -> Result<PathBuf, String> {
    if !folder.join(ARCHIVE).is_file() {
        return Err(format!("{FOLDER} is {}, which has no {ARCHIVE}", folder.display()));
    }
    folder.canonicalize().map_err(|error| format!("{}: {error}", folder.display()))
}

/// The repository's own archive, brought up to date.
fn repository_folder() -> Result<PathBuf, String> {
    let here = env::var("CARGO_MANIFEST_DIR").map_err(|error| error.to_string())?;
    let root = Path::new(&here)
        .join("../..")
        .canonicalize()
        .map_err(|error| format!("the repository's root: {error}"))?;
    let sources = [root.join("crates"), root.join("crates.txt")];
    for source in &sources {
        println!("cargo:rerun-if-changed={}", source.display());
    }
    let folder = root.join("target/staticlib");
    let archive = folder.join(ARCHIVE);
    let newest = sources.iter().filter_map(|source| newest_below(source)).max();
    if modified(&archive).is_none() || modified(&archive) < newest {
        prove_and_build(&root, &archive)?;
    }
    Ok(folder)
}

fn modified(path: &Path) -> Option<SystemTime> {
    fs::metadata(path).ok()?.modified().ok()
}

/// When a file, or the newest one in a folder, was last changed. What is made
/// from the sources, in folders `out`, does not count.
fn newest_below(path: &Path) -> Option<SystemTime> {
    if !path.is_dir() {
        return modified(path);
    }
    if path.ends_with("out") {
        return None;
    }
    let entries = fs::read_dir(path).ok()?;
    entries.filter_map(|entry| newest_below(&entry.ok()?.path())).max()
}

fn prove_and_build(root: &Path, archive: &Path) -> Result<(), String> {
    let state = if archive.is_file() { "older than its sources" } else { "missing" };
    let wanted = format!(
        "{} is {state}: run `{BUILD}` in {}, or let {FOLDER} name a folder that has {ARCHIVE}",
        archive.display(),
        root.display()
    );
    let output = Command::new(root.join(BUILD))
        .current_dir(root)
        .env_remove("LD_LIBRARY_PATH")
        .output()
        .map_err(|error| format!("{wanted}\n({BUILD}: {error})"))?;
    if !output.status.success() || !archive.is_file() {
        let said = last_lines(&[output.stdout, output.stderr].concat());
        return Err(format!("{wanted}\n`{BUILD}` failed:\n{said}"));
    }
    // The archive may stay as it was where nothing that it is made of has changed.
    let touched = File::options().append(true).open(archive).and_then(|file| {
        file.set_modified(SystemTime::now())?;
        file.sync_all()
    });
    touched.map_err(|error| format!("{}: {error}", archive.display()))
}

/// The end of what a program said.
fn last_lines(said: &[u8]) -> String {
    let text = String::from_utf8_lossy(said);
    let lines: Vec<&str> = text.lines().collect();
    lines[lines.len().saturating_sub(20)..].join("\n")
}
