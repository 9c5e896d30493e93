//! Builds each mutant, tries it, and writes its line of the table.
use std::collections::HashMap;
use std::fs;
use std::process::ExitCode;
use std::time::Instant;

use mutants::{Amount, Built, Edit, Row, Tools, Trial, Verdict, edits, page, root};

const USAGE: &str = "usage: mutants [--seeds N] [--calls N] [--events N] [NAME..]
  all of host/mutants without a NAME. Their lines of docs/mutants.md are written anew, unless a number is given";

/// What docs/mutants.md has.
const USUAL: Amount = Amount {
    seeds: 3,
    calls: 300_000,
    events: 100_000,
};

struct Options {
    amount: Amount,
    names: Vec<String>,
}

fn main() -> ExitCode {
    match run() {
        Ok(true) => ExitCode::SUCCESS,
        Ok(false) => ExitCode::FAILURE,
        Err(message) => {
            eprintln!("mutants: {message}");
            ExitCode::from(2)
        }
    }
}

/// Whether every mutant was built, and found or explained.
fn run() -> Result<bool, String> {
    let options = options(std::env::args().skip(1))?;
    let start = Instant::now();
    let all = edits(&root().join("host/mutants"))?;
    let chosen = chosen(&all, &options.names)?;
    let tools = Tools::new()?;
    unchanged(&tools, &chosen, options.amount)?;
    let mut tried = HashMap::new();
    let mut passed = true;
    for edit in chosen {
        let row = match trial(&tools, edit, options.amount) {
            Ok(trial) => {
                passed &= passes(edit, &trial);
                let row = Row::new(&edit.name, &trial);
                println!("{}", row.line(edit));
                Some(row)
            }
            Err(error) => {
                eprintln!("mutants: {}.edit: {error}", edit.name);
                passed = false;
                None
            }
        };
        tried.insert(edit.name.as_str(), row);
    }
    if options.amount == USUAL {
        write_page(&all, &tried)?;
    }
    let minutes = start.elapsed().as_secs() / 60;
    println!("mutants: {} tried, {minutes} minutes", tried.len());
    Ok(passed)
}

/// Writes the lines of those that were tried; the others' stay. One that could
/// not be built has none.
fn write_page(all: &[Edit], tried: &HashMap<&str, Option<Row>>) -> Result<(), String> {
    let path = root().join("docs/mutants.md");
    let told = |error| format!("{}: {error}", path.display());
    let before = fs::read_to_string(&path).map_err(told)?;
    let kept: Vec<_> = before.lines().filter_map(Row::read).collect();
    let mut rows = Vec::new();
    for edit in all {
        let kept = || kept.iter().find(|row| row.name == edit.name).cloned();
        match tried.get(edit.name.as_str()).cloned().unwrap_or_else(kept) {
            Some(row) => rows.push((edit, row)),
            None => eprintln!("mutants: {}.edit has no line yet", edit.name),
        }
    }
    fs::write(&path, page(&rows, USUAL)).map_err(told)
}

fn passes(edit: &Edit, trial: &Trial) -> bool {
    matches!(trial.verdict(edit), Verdict::Found | Verdict::Explained)
}

/// The named edits, or all.
fn chosen<'a>(all: &'a [Edit], names: &[String]) -> Result<Vec<&'a Edit>, String> {
    let unknown = |name: &&String| all.iter().all(|edit| edit.name != **name);
    if let Some(name) = names.iter().find(unknown) {
        return Err(format!("no host/mutants/{name}.edit"));
    }
    let named = |edit: &&Edit| names.is_empty() || names.contains(&edit.name);
    Ok(all.iter().filter(named).collect())
}

/// The port without a change is told from the Rust by nothing: neither the
/// library nor the key program, where a mutant is tried on it.
fn unchanged(tools: &Tools, chosen: &[&Edit], amount: Amount) -> Result<(), String> {
    let folder = tools.copy("unchanged", None)?;
    for built in [Built::Library, Built::Key] {
        let has = |edit: &&Edit| edit.built().is_ok_and(|all| all.contains(&built));
        if !chosen.iter().any(has) {
            continue;
        }
        tools.build(&folder, built)?;
        let trial = Trial::run(tools, &folder, built, amount)?;
        if trial.found() {
            return Err(format!(
                "the unchanged port is taken for a mutant: {trial:?}"
            ));
        }
    }
    Ok(())
}

/// On the library; where that has not the crate or nothing shows the mutant, on
/// the key program.
fn trial(tools: &Tools, edit: &Edit, amount: Amount) -> Result<Trial, String> {
    let folder = tools.copy(&edit.name, Some(edit))?;
    let mut last = Trial::default();
    for built in edit.built()? {
        tools.build(&folder, built)?;
        last = Trial::run(tools, &folder, built, amount)?;
        if last.found() {
            break;
        }
    }
    Ok(last)
}

fn options(mut words: impl Iterator<Item = String>) -> Result<Options, String> {
    let (mut amount, mut names) = (USUAL, Vec::new());
    let number = |word: Option<String>| word.and_then(|it| it.parse().ok()).ok_or(USAGE);
    while let Some(word) = words.next() {
        match word.as_str() {
            "--seeds" => amount.seeds = number(words.next())?,
            "--calls" => amount.calls = number(words.next())?,
            "--events" => amount.events = number(words.next())?,
            _ if word.starts_with('-') => return Err(USAGE.into()),
            _ => names.push(word),
        }
    }
    Ok(Options { amount, names })
}
