//! The programs that a mutant is made and tried with. They lie below
//! target/mutants: a folder for each mutant with its libtapewoad.so or its `key`,
//! `unchanged` for the port as it is, and `host` for the comparison, linked once
//! and run on each library in turn. The sources that they are made from lie in a
//! temporary folder: `rt ci` takes none in the repository but those of crates/.
use std::fs::{self, File};
use std::io;
use std::path::{Path, PathBuf};
use std::process::{Command, Output};

use crate::{Built, Edit, root};

/// No run of an unchanged port takes as long, in seconds.
const LIMIT: &str = "600";

/// Nor as much memory, in bytes: a mutant may have no last report.
const MEMORY: &str = "--as=6000000000";

pub struct Tools {
    work: PathBuf,
    sources: PathBuf,
    /// The folder of the port without a change.
    pub unchanged: PathBuf,
    /// The executables of the tests of `tapewoad` and `port`.
    tests: Vec<PathBuf>,
}

impl Tools {
    /// Builds the unchanged port, the comparison and the tests over it.
    pub fn new() -> Result<Self, String> {
        let work = root().join("target/mutants");
        let sources = format!("tapewoad-mutants-{}", std::process::id());
        let mut tools = Self {
            unchanged: work.join("unchanged"),
            work,
            sources: std::env::temp_dir().join(sources),
            tests: Vec::new(),
        };
        tools.copy("unchanged", None)?;
        tools.build(&tools.unchanged, Built::Library)?;
        tools.cargo(&["build", "-p", "driver", "-p", "compare", "-p", "paper"])?;
        let told = tools.cargo(&["test", "--no-run", "-p", "tapewoad", "-p", "port"])?;
        tools.tests = executables(&told)
            .map(|it| root().join("host").join(it))
            .collect();
        match tools.tests.len() {
            0 => Err(format!("cargo named no executables of tests:\n{told}")),
            _ => Ok(tools),
        }
    }

    /// Runs cargo over the shared library, and gives what it says.
    fn cargo(&self, words: &[&str]) -> Result<String, String> {
        let mut cargo = Command::new(std::env::var("CARGO").unwrap_or("cargo".into()));
        cargo.args(words).args(["--offline", "--release"]);
        cargo.args(["--config", "mutants/link.toml", "--target-dir"]);
        cargo
            .arg("../target/mutants/host")
            .current_dir(root().join("host"));
        succeeded(&mut cargo)
    }

    /// Copies the sources anew and changes them. Gives the folder for what is
    /// built from them.
    pub fn copy(&self, name: &str, edit: Option<&Edit>) -> Result<PathBuf, String> {
        let folder = self.work.join(name);
        let told = |error: io::Error| format!("{name}: {error}");
        fs::create_dir_all(&folder).map_err(told)?;
        copy_sources(&self.sources).map_err(told)?;
        if let Some(edit) = edit {
            let file = self.sources.join(&edit.file);
            let text = fs::read_to_string(&file).map_err(told)?;
            fs::write(&file, edit.apply(&text)?).map_err(told)?;
        }
        Ok(folder)
    }

    /// Builds the library or the key program from the sources that were copied
    /// last, into a folder.
    pub fn build(&self, folder: &Path, built: Built) -> Result<(), String> {
        let mut build = Command::new(root().join("host/mutants/build"));
        build.arg(&self.sources).arg(folder);
        if built == Built::Key {
            build.arg("key");
        }
        succeeded(&mut build).map(drop)
    }

    /// Runs a tool of the host on the library in a folder.
    pub fn run(&self, library: &Path, tool: &str, words: &[&str]) -> Result<Output, String> {
        let tool = self.work.join("host/release").join(tool);
        output(limited(&tool).args(words).env("LD_LIBRARY_PATH", library))
    }

    /// Runs the key program in a folder on a paper.
    pub fn run_key(&self, folder: &Path, paper: &Path) -> Result<Output, String> {
        let paper = File::open(paper).map_err(|error| format!("{}: {error}", paper.display()))?;
        output(limited(&folder.join("key")).stdin(paper))
    }

    /// Runs each of the tests' executables on the library in a folder.
    pub fn run_tests(&self, library: &Path) -> impl Iterator<Item = Result<Output, String>> {
        let run = move |test: &PathBuf| output(limited(test).env("LD_LIBRARY_PATH", library));
        self.tests.iter().map(run)
    }
}

impl Drop for Tools {
    fn drop(&mut self) {
        let _ = fs::remove_dir_all(&self.sources);
    }
}

fn limited(program: &Path) -> Command {
    let mut command = Command::new("timeout");
    command.args([LIMIT, "prlimit", MEMORY]).arg(program);
    command
}

fn output(command: &mut Command) -> Result<Output, String> {
    command
        .output()
        .map_err(|error| format!("{command:?}: {error}"))
}

/// What a command that must succeed says on standard error.
fn succeeded(command: &mut Command) -> Result<String, String> {
    let output = output(command)?;
    let told = String::from_utf8_lossy(&output.stderr).into_owned();
    match output.status.success() {
        true => Ok(told),
        false => Err(format!("{command:?} failed:\n{told}")),
    }
}

/// `Executable tests/calls.rs (PATH)`, as cargo says it. The test that links a C
/// program to the archive is left out.
fn executables(told: &str) -> impl Iterator<Item = &str> {
    told.lines()
        .filter(|line| line.contains("Executable ") && !line.contains(" tests/c.rs "))
        .filter_map(|line| line.split_once('(')?.1.strip_suffix(')'))
}

/// Copies crates/*/src.
fn copy_sources(folder: &Path) -> io::Result<()> {
    if folder.exists() {
        fs::remove_dir_all(folder)?;
    }
    for entry in fs::read_dir(root().join("crates"))? {
        let source = Path::new("crates").join(entry?.file_name()).join("src");
        fs::create_dir_all(folder.join(&source))?;
        for entry in fs::read_dir(root().join(&source))? {
            let file = source.join(entry?.file_name());
            fs::copy(root().join(&file), folder.join(&file))?;
        }
    }
    Ok(())
}
