//! The examples in the documentation are what the tools print.

use board_tools::compare::first_difference;
use board_tools::names::{CALLERS, SERVICES};
use board_tools::show::{run_table, Options};
use board_tools::text::assemble::{assemble, Assembled};
use ordinary::{print, Tables, Tape};
use std::collections::{BTreeMap, BTreeSet};
use std::fs;
use std::path::PathBuf;

fn repository(path: &str) -> String {
    let root = PathBuf::from(env!("CARGO_MANIFEST_DIR")).join("../..");
    fs::read_to_string(root.join(path)).unwrap()
}

/// A worked example's text, assembled.
fn example(name: &str) -> (String, Assembled) {
    let text = repository(&format!("tapes/exercises/{name}.txt"));
    let assembled = assemble(text.as_bytes()).unwrap();
    (text, assembled)
}

fn assert_shown(doc: &str, part: &str) {
    assert!(doc.contains(&format!("```\n{part}```\n")), "not in docs/TAPES.md:\n{part}");
}

#[test]
fn the_worked_examples_are_true() {
    let doc = repository("docs/TAPES.md");
    for name in ["worked-example", "two-blocks"] {
        let (text, Assembled { tape, lines }) = example(name);
        assert_shown(&doc, &text);
        assert_shown(&doc, &run_table(&tape, Some(&lines), Options::default()));
    }
    let (_, Assembled { tape, .. }) = example("worked-example");
    assert_shown(&doc, &print::replay(&tape.encode()));
}

#[test]
fn the_error_example_is_true() {
    let doc = repository("docs/TAPES.md");
    let text = "\n\nthread    tx_semaphore_get semaphore=0 wait=ever";
    let error = assemble(text.as_bytes()).unwrap_err();
    assert!(doc.contains(&format!("exercise.txt: {error}\n")), "{error}");
}

#[test]
fn every_service_and_caller_is_documented() {
    let doc = repository("docs/TAPES.md");
    for service in SERVICES {
        let names: Vec<String> =
            service.arguments.iter().map(|argument| format!("`{}`", argument.name)).collect();
        let arguments = if names.is_empty() { "none".to_string() } else { names.join(", ") };
        let row = format!("| {} | `{}` | {arguments} |\n", service.number, service.name);
        assert!(doc.contains(&row), "{row}");
    }
    for caller in CALLERS {
        assert!(doc.contains(&format!("`{caller}`")));
    }
}

#[test]
fn the_sample_tapes_have_the_stated_calls() {
    let table = repository("tapes/README.md");
    let folder = PathBuf::from(env!("CARGO_MANIFEST_DIR")).join("../../tapes");
    let mut tapes = 0;
    for entry in fs::read_dir(&folder).unwrap() {
        let path = entry.unwrap().path();
        if path.extension().is_none_or(|extension| extension != "tape") {
            continue;
        }
        let name = path.file_name().unwrap().to_str().unwrap().to_string();
        let tape = Tape::decode(&fs::read(&path).unwrap()).unwrap();
        let row = format!("| `{name}` | {} | ", tape.records.len());
        assert!(table.contains(&row), "not in tapes/README.md: {row}");
        tapes += 1;
    }
    assert_eq!(table.matches(".tape` |").count(), tapes);
}

/// The stored output of a program is tested against the proved program; here
/// it is tested against the ordinary kernel.
#[test]
fn the_stored_outputs_are_what_the_ordinary_kernel_prints() {
    let folder = PathBuf::from(env!("CARGO_MANIFEST_DIR")).join("../../crates");
    type Program = fn(&[u8]) -> String;
    let programs: [(&str, Program); 2] = [("inspect", print::inspect), ("replay", print::replay)];
    for (name, prints) in programs {
        let tape = fs::read(folder.join(name).join("stdin")).unwrap();
        let stored = fs::read_to_string(folder.join(name).join("stdout")).unwrap();
        assert_eq!(first_difference(&prints(&tape), &stored), None, "{name}");
    }
}

/// The rows of docs/SERVICES.md: a call's number and its refusals.
fn services_rows() -> BTreeMap<u32, BTreeSet<u32>> {
    let doc = repository("docs/SERVICES.md");
    let rows = doc.lines().filter_map(|line| {
        let cells: Vec<&str> = line.split('|').map(str::trim).collect();
        let number = cells.get(1)?.parse().ok()?;
        let refusals = cells[5].split(' ').filter(|cell| !cell.is_empty());
        Some((number, refusals.map(|cell| u32::from_str_radix(cell, 16).unwrap()).collect()))
    });
    rows.collect()
}

#[test]
fn every_call_has_a_row() {
    assert!(services_rows().into_keys().eq(1..40));
}

#[test]
fn the_tape_of_refusals_has_every_refusal_of_the_table() {
    let tape = assemble(repository("tapes/refusals.txt").as_bytes()).unwrap().tape;
    let mut seen: BTreeMap<u32, BTreeSet<u32>> =
        services_rows().into_keys().map(|number| (number, BTreeSet::new())).collect();
    tape.run(&mut Tables::new(), u32::MAX, |_, record, outcome, _| {
        let status = outcome.status;
        // What every call has (0x100 and up) is not in the table.
        if !status.is_carried_out() && status.0 < 0x100 {
            seen.get_mut(&record.call).unwrap().insert(status.0);
        }
    });
    assert_eq!(seen, services_rows());
}

/// A definition of `specs/`: crate, file and name.
type Definition = (String, String, String);

fn shown((crate_name, file, name): &Definition) -> String {
    format!("`{crate_name}/{file}`: `{name}`")
}

/// The names that a file of definitions has; none where there is no such file.
fn defined_in(crate_name: &str, file: &str) -> BTreeSet<String> {
    let folder = PathBuf::from(env!("CARGO_MANIFEST_DIR")).join("../../crates");
    let text =
        fs::read_to_string(folder.join(crate_name).join("specs").join(file.to_string() + ".antt"));
    let text = text.unwrap_or_default();
    let names = text.lines().filter_map(|line| {
        let mut rest = line;
        for word in ["unfoldable ", "abbrev "] {
            rest = rest.strip_prefix(word).unwrap_or(rest);
        }
        rest = rest.strip_prefix("pub ")?;
        for word in ["record ", "data "] {
            rest = rest.strip_prefix(word).unwrap_or(rest);
        }
        rest.split([' ', '(']).next().map(str::to_string)
    });
    names.collect()
}

/// The definitions of `` `crate/File`: `name`, `name` ``.
fn named(file: &str, names: &str) -> Vec<Definition> {
    let (crate_name, file) = file.trim_matches('`').split_once('/').unwrap_or_else(|| {
        panic!("docs/RULES.md: expected `crate/File`, found {file}");
    });
    let names = names.split(", ").map(|name| name.trim_matches('`').to_string());
    names.map(|name| (crate_name.to_string(), file.to_string(), name)).collect()
}

/// What docs/RULES.md says: the definitions of each rule, by its number, and those that have no rule.
struct Rules {
    rules: BTreeMap<String, Vec<Definition>>,
    without: Vec<Definition>,
}

fn rules() -> Rules {
    let doc = repository("docs/RULES.md");
    let mut all = Rules { rules: BTreeMap::new(), without: Vec::new() };
    let mut chapter = "";
    for line in doc.lines() {
        if let Some(title) = line.strip_prefix("## ") {
            chapter = title;
        }
        if !line.starts_with("| ") {
            continue;
        }
        let cells: Vec<&str> = line.trim_matches('|').split('|').map(str::trim).collect();
        let last = cells[cells.len() - 1];
        if cells[0].starts_with(|c: char| c.is_ascii_digit()) {
            let stated = last.split("; ").filter(|group| !group.is_empty()).flat_map(|group| {
                let (file, names) = group.split_once(": ").unwrap_or_else(|| {
                    panic!("rule {}: expected `crate/File`: `name`, found {group}", cells[0]);
                });
                named(file, names)
            });
            let twice = all.rules.insert(cells[0].to_string(), stated.collect());
            assert!(twice.is_none(), "rule {} stands twice in docs/RULES.md", cells[0]);
        } else if chapter == "Definitions without a rule" && cells[0].contains('/') {
            assert!(!last.is_empty() && cells.len() == 3, "no reason is given: {line}");
            all.without.extend(named(cells[0], cells[1]));
        }
    }
    assert!(all.rules.len() > 60, "docs/RULES.md has {} rules", all.rules.len());
    assert!(!all.without.is_empty(), "docs/RULES.md has no table of definitions without a rule");
    all
}

#[test]
fn every_rule_names_definitions_that_exist() {
    let all = rules();
    let mut missing = Vec::new();
    for (rule, stated) in &all.rules {
        assert!(!stated.is_empty(), "rule {rule} of docs/RULES.md names no definition");
        for definition in stated {
            if !defined_in(&definition.0, &definition.1).contains(&definition.2) {
                missing.push(format!("rule {rule}: {}", shown(definition)));
            }
        }
    }
    for definition in &all.without {
        let ruled = all.rules.values().flatten().any(|stated| stated == definition);
        assert!(!ruled, "{} has a rule, and stands among those without", shown(definition));
        if !defined_in(&definition.0, &definition.1).contains(&definition.2) {
            missing.push(format!("without a rule: {}", shown(definition)));
        }
    }
    let missing = missing.join("\n");
    assert!(missing.is_empty(), "docs/RULES.md names definitions that do not exist:\n{missing}");
}

/// The files below a folder that have this extension, each by its path in the repository.
fn files(folder: &str, extension: &str, found: &mut Vec<String>) {
    let root = PathBuf::from(env!("CARGO_MANIFEST_DIR")).join("../..");
    let Ok(entries) = fs::read_dir(root.join(folder)) else { return };
    for entry in entries {
        let entry = entry.unwrap();
        let path = format!("{folder}/{}", entry.file_name().to_str().unwrap());
        if entry.path().is_dir() {
            files(&path, extension, found);
        } else if path.ends_with(extension) {
            found.push(path);
        }
    }
    found.sort();
}

/// The project's crates.
fn crates() -> BTreeSet<String> {
    let folder = PathBuf::from(env!("CARGO_MANIFEST_DIR")).join("../../crates");
    let entries = fs::read_dir(folder).unwrap();
    entries.map(|entry| entry.unwrap().file_name().into_string().unwrap()).collect()
}

/// The code, or the definitions, of every crate.
fn of_crates(part: &str, extension: &str) -> Vec<String> {
    let mut found = Vec::new();
    for name in crates() {
        files(&format!("crates/{name}/{part}"), extension, &mut found);
    }
    found
}

/// A text without its comments, which go from a mark to the end of a line.
fn without_comments(text: &str, mark: &str) -> String {
    text.lines().map(|line| line.split(mark).next().unwrap().to_string() + "\n").collect()
}

/// The names that follow `alias.` in a text.
fn qualified(text: &str, alias: &str) -> Vec<String> {
    let within = |c: char| c.is_alphanumeric() || c == '_' || c == '-' || c == '.';
    let words = text
        .split(|c: char| !within(c))
        .filter_map(|word| word.strip_prefix(alias)?.strip_prefix('.'));
    words.map(|word| word.split('.').next().unwrap().to_string()).collect()
}

/// The definitions of the project's crates that a text cites in its lines `use Rattle.CRATE.specs.FILE.{names}`, which may
/// be broken inside the braces, and behind a name that such a line gives to a file.
fn cited_in(text: &str, crates: &BTreeSet<String>) -> Vec<Definition> {
    let mut cited = Vec::new();
    for (start, lead) in text.match_indices("use Rattle.") {
        let rest = &text[start + lead.len()..];
        let line = &rest[..rest.find(['\n', ';', '{']).unwrap_or(rest.len())];
        let path = line.split(" as ").next().unwrap().trim().trim_end_matches('.');
        let Some((crate_name, path)) = path.split_once(".specs.") else { continue };
        let crate_name = crate_name.to_string();
        let mut parts = path.split('.');
        let file = parts.next().unwrap().to_string();
        // The types of the code are no definitions of specs/, and the toolchain's own libraries are no crates of the project.
        if file == "declared" || !crates.contains(&crate_name) {
            continue;
        }
        let names: Vec<String> = if let Some(variants_of) = parts.next() {
            vec![variants_of.to_string()]
        } else if rest[line.len()..].starts_with('{') {
            let names = rest[line.len() + 1..].split('}').next().unwrap();
            names
                .split(',')
                .map(|name| name.split(" as ").next().unwrap().trim().to_string())
                .filter(|name| !name.is_empty())
                .collect()
        } else {
            qualified(text, line.split(" as ").nth(1).unwrap_or(&file).trim())
        };
        cited.extend(names.into_iter().map(|name| (crate_name.clone(), file.clone(), name)));
    }
    cited
}

#[test]
fn every_cited_definition_is_in_the_rules() {
    let all = rules();
    let stated: BTreeSet<&Definition> = all.rules.values().flatten().chain(&all.without).collect();
    let claims = ["Claims.antt", "Cases.antt", "Rolls.antt", "Accounts.antt"];
    let mut sources: Vec<(String, &str)> =
        of_crates("src", ".rt").into_iter().map(|path| (path, "//")).collect();
    sources.extend(
        of_crates("specs", ".antt")
            .into_iter()
            .filter(|path| claims.iter().any(|name| path.ends_with(&format!("/{name}"))))
            .map(|path| (path, "--")),
    );
    let crates = crates();
    let (mut count, mut missing) = (0, BTreeSet::new());
    for (path, mark) in sources {
        for definition in cited_in(&without_comments(&repository(&path), mark), &crates) {
            count += 1;
            if !stated.contains(&definition) {
                missing.insert(format!("{}, which {path} cites", shown(&definition)));
            }
        }
    }
    assert!(count > 300, "only {count} citations were found");
    let missing: Vec<String> = missing.into_iter().collect();
    assert!(
        missing.is_empty(),
        "docs/RULES.md names no rule for these, and they are not in its table \"Definitions without a rule\":\n{}",
        missing.join("\n")
    );
}

/// The rule numbers that a comment cites: `rule 5.4`, `rules 5.4, 5.5 and 6.1`.
fn cited_rules(comment: &str) -> Vec<String> {
    let mut cited = Vec::new();
    let mut words = comment.split_whitespace().peekable();
    while let Some(word) = words.next() {
        let word = word.trim_start_matches(['(', '"']).to_ascii_lowercase();
        if word != "rule" && word != "rules" {
            continue;
        }
        while let Some(&next) = words.peek() {
            let number = next.trim_end_matches([',', ':', ';', ')', '.']);
            let is_number = number.split_once('.').is_some_and(|(chapter, rule)| {
                chapter.parse::<u32>().is_ok() && rule.parse::<u32>().is_ok()
            });
            if is_number {
                cited.push(number.to_string());
            } else if !["and", "to"].contains(&next) {
                break;
            }
            words.next();
            if next.ends_with([':', ';', ')', '.']) {
                break;
            }
        }
    }
    cited
}

#[test]
fn every_cited_rule_exists() {
    assert_eq!(
        cited_rules("(rule 5.4), by rules 1.2, 2.10 and 3.1: 4.5"),
        ["5.4", "1.2", "2.10", "3.1"]
    );
    let all = rules();
    let (mut count, mut missing) = (0, Vec::new());
    let specs = of_crates("specs", ".antt").into_iter().map(|path| (path, "--"));
    let code = of_crates("src", ".rt").into_iter().map(|path| (path, "//"));
    for (path, mark) in specs.chain(code) {
        for (number, line) in repository(&path).lines().enumerate() {
            let Some((_, comment)) = line.split_once(mark) else { continue };
            for rule in cited_rules(comment) {
                count += 1;
                if !all.rules.contains_key(&rule) {
                    missing.push(format!("{path}, line {}: rule {rule}", number + 1));
                }
            }
        }
    }
    assert!(count > 50, "only {count} rules are cited");
    let missing = missing.join("\n");
    assert!(missing.is_empty(), "docs/RULES.md has no such rule:\n{missing}");
}
