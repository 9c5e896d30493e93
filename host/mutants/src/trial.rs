//! What tells a mutant from the Rust: recorded scripts, generated calls and
//! tests; of the key program stored papers and generated ones.
use std::fs;
use std::os::unix::process::ExitStatusExt;
use std::path::{Path, PathBuf};
use std::process::Output;

use script::first_difference;

use crate::{Built, Edit, Tools, root};

/// Where something showed the mutant.
#[derive(Debug, Clone, Copy, PartialEq, Eq, PartialOrd, Ord)]
pub enum Found {
    /// At this call of the script or the run, line of the stored paper, or
    /// paper of the run, from 1.
    At(u64),
    /// The mutant ended the program, or did not answer in time.
    Ended,
}

/// What was tried on a mutant.
#[derive(Debug, Clone, Default)]
pub struct Trial {
    /// The recorded scripts or stored papers that show it, by name.
    pub recorded: Vec<(String, Found)>,
    /// For each seed, where the sides parted.
    pub seeds: Vec<Option<Found>>,
    /// The first test that fails. Run where nothing above shows the mutant.
    pub test: Option<String>,
}

#[derive(Debug, Clone, Copy, PartialEq, Eq)]
pub enum Verdict {
    Found,
    /// By the edit's own reason.
    Explained,
    /// Nothing shows it, and no reason is given.
    Survived,
    /// It is found, and its edit says that nothing can show it.
    Refuted,
}

/// How much is generated: the seeds 1, 2 and so on, and of each so much.
#[derive(Debug, Clone, Copy, PartialEq, Eq)]
pub struct Amount {
    pub seeds: u64,
    pub calls: u64,
    /// Of papers.
    pub events: u64,
}

impl Trial {
    /// Runs everything on what was built in a folder.
    pub fn run(tools: &Tools, folder: &Path, built: Built, amount: Amount) -> Result<Self, String> {
        let mut trial = Self::default();
        for kept in recorded(built)? {
            let found = match built {
                Built::Library => replay(tools, folder, &kept)?,
                Built::Key => mark(tools, folder, &kept)?,
            };
            if let Some(found) = found {
                trial.recorded.push((name(&kept), found));
            }
        }
        for seed in 1..=amount.seeds {
            let found = match built {
                Built::Library => compare_calls(tools, folder, seed, amount.calls)?,
                Built::Key => compare_papers(tools, folder, seed, amount.events)?,
            };
            trial.seeds.push(found);
        }
        if !trial.found() && built == Built::Library {
            trial.test = failed_test(tools, folder)?;
        }
        Ok(trial)
    }

    pub fn found(&self) -> bool {
        !self.recorded.is_empty() || self.seeds.iter().any(Option::is_some) || self.test.is_some()
    }

    pub fn verdict(&self, edit: &Edit) -> Verdict {
        match (self.found(), edit.survives.is_some()) {
            (true, false) => Verdict::Found,
            (false, true) => Verdict::Explained,
            (false, false) => Verdict::Survived,
            (true, true) => Verdict::Refuted,
        }
    }

    /// The recorded script or stored paper that takes the fewest lines.
    pub fn shortest(&self) -> Option<&(String, Found)> {
        self.recorded.iter().min_by_key(|(_, found)| *found)
    }
}

/// The recorded scripts, or the stored papers, by path.
fn recorded(built: Built) -> Result<Vec<PathBuf>, String> {
    let mut found = Vec::new();
    match built {
        Built::Library => find(&root().join("host/recorded"), "script", &mut found)?,
        Built::Key => find(&root().join("papers"), "paper", &mut found)?,
    }
    found.sort();
    Ok(found)
}

/// The files below a folder whose names end so.
fn find(folder: &Path, extension: &str, found: &mut Vec<PathBuf>) -> Result<(), String> {
    let told = |error| format!("{}: {error}", folder.display());
    for entry in fs::read_dir(folder).map_err(told)? {
        let path = entry.map_err(told)?.path();
        if path.is_dir() {
            find(&path, extension, found)?;
        } else if path.extension().is_some_and(|it| it == extension) {
            found.push(path);
        }
    }
    Ok(())
}

/// A script's name below host/recorded, or a paper's path from the root.
fn name(path: &Path) -> String {
    let script = path.with_extension("");
    let script = script.strip_prefix(root().join("host/recorded"));
    let name = script.or_else(|_| path.strip_prefix(root()));
    name.unwrap_or(path).display().to_string()
}

/// Runs a recorded script and finds the first answer that is not as recorded.
fn replay(tools: &Tools, library: &Path, script: &Path) -> Result<Option<Found>, String> {
    let path = script.to_str().ok_or("a path that is not UTF-8")?;
    let output = tools.run(library, "driver", &["--side", "rattle", path])?;
    difference(&output, &script.with_extension("answers"))
}

/// Runs the key program on a stored paper and finds the first line that is not
/// as in its key.
fn mark(tools: &Tools, folder: &Path, paper: &Path) -> Result<Option<Found>, String> {
    let output = tools.run_key(folder, paper)?;
    difference(&output, &paper.with_extension("key"))
}

/// The first line of an output that is not as in a file.
fn difference(output: &Output, kept: &Path) -> Result<Option<Found>, String> {
    if ended(output) {
        return Ok(Some(Found::Ended));
    }
    let told = |error| format!("{}: {error}", kept.display());
    let kept = fs::read_to_string(kept).map_err(told)?;
    let lines = String::from_utf8_lossy(&output.stdout);
    let found = first_difference(&kept, &lines);
    Ok(found.map(|(line, ..)| Found::At(line as u64)))
}

/// Runs generated calls on both sides.
fn compare_calls(
    tools: &Tools,
    library: &Path,
    seed: u64,
    calls: u64,
) -> Result<Option<Found>, String> {
    let words = [seed.to_string(), calls.to_string()];
    let output = tools.run(library, "compare", &[&words[0], &words[1]])?;
    parted(&output, "call")
}

/// Gives generated papers to the key program and to the sides, which are the
/// unchanged port's.
fn compare_papers(
    tools: &Tools,
    folder: &Path,
    seed: u64,
    events: u64,
) -> Result<Option<Found>, String> {
    let key = folder.join("key");
    let key = key.to_str().ok_or("a path that is not UTF-8")?;
    let words = [seed.to_string(), events.to_string()];
    let words = ["compare", &words[0], &words[1], "--uncut", "--key", key];
    let output = tools.run(&tools.unchanged, "paper", &words)?;
    parted(&output, "paper")
}

/// The number of the call, or of the paper, at which a comparison stopped.
fn parted(output: &Output, unit: &str) -> Result<Option<Found>, String> {
    if output.status.success() {
        return Ok(None);
    }
    if ended(output) {
        return Ok(Some(Found::Ended));
    }
    let told = String::from_utf8_lossy(&output.stderr);
    let (_, rest) = told
        .split_once(&format!(" DIFFER at {unit} "))
        .unwrap_or_default();
    match rest.split_once(';').map(|(number, _)| number.parse()) {
        Some(Ok(number)) => Ok(Some(Found::At(number))),
        _ => Err(format!("the comparison failed:\n{told}")),
    }
}

/// The first test of `tapewoad` and `port` that fails, by its name where one
/// fails without ending the others.
fn failed_test(tools: &Tools, library: &Path) -> Result<Option<String>, String> {
    let mut ended = None;
    for output in tools.run_tests(library) {
        let output = output?;
        if output.status.success() {
            continue;
        }
        let told = String::from_utf8_lossy(&output.stdout);
        let failed = told.lines().find_map(|line| {
            let test = line.strip_prefix("test ")?;
            test.strip_suffix(" ... FAILED")
        });
        match failed {
            Some(test) => return Ok(Some(test.into())),
            None => ended = Some("a test that ended".into()),
        }
    }
    Ok(ended)
}

/// Whether a signal ended the program, `timeout` (124) or a panic (101).
fn ended(output: &Output) -> bool {
    output.status.signal().is_some() || matches!(output.status.code(), Some(124 | 101))
}
