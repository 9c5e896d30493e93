//! A program that reads a paper and prints its key.
use std::fs::File;
use std::io::Write;
use std::path::PathBuf;
use std::process::{Command, Stdio};
use std::thread;

#[derive(Debug, Clone)]
pub struct Program(PathBuf);

impl Program {
    /// A file that is there.
    pub fn new(path: &str) -> Result<Self, String> {
        let path = PathBuf::from(path);
        match path.canonicalize() {
            Ok(whole) if whole.is_file() => Ok(Self(whole)),
            _ => Err(format!(
                "the key program is not there: {} (`make key` proves and writes it)",
                path.display()
            )),
        }
    }

    /// What it prints for a paper; a failing exit status is no answer.
    pub fn key(&self, paper: &[u8]) -> Result<Vec<u8>, String> {
        let told = |error| format!("{}: {error}", self.0.display());
        let mut child = Command::new(&self.0)
            .stdin(Stdio::piped())
            .stdout(Stdio::piped())
            .spawn()
            .map_err(told)?;
        let mut input = child.stdin.take().expect("it is piped");
        let output = thread::scope(|scope| {
            // It may end without having read all: then the pipe is closed.
            scope.spawn(move || input.write_all(paper));
            child.wait_with_output()
        });
        let output = output.map_err(told)?;
        match output.status.success() {
            true => Ok(output.stdout),
            false => Err(format!("{} ended by {}", self.0.display(), output.status)),
        }
    }

    /// Whether an input that can't be read, a folder's, has no lines and is
    /// told of on standard error.
    pub fn tells_bad_input(&self) -> Result<bool, String> {
        let told = |error| format!("{}: {error}", self.0.display());
        let folder = self.0.parent().expect("a file stands in a folder");
        let output = Command::new(&self.0)
            .stdin(File::open(folder).map_err(told)?)
            .output()
            .map_err(told)?;
        Ok(output.stdout.is_empty() && !output.stderr.is_empty())
    }
}
