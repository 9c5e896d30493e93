//! The papers of a folder, each with its key: NAME.paper and NAME.key.
use std::fs;
use std::path::{Path, PathBuf};

pub struct Stored {
    pub path: PathBuf,
    pub paper: Vec<u8>,
    pub key: String,
}

/// All below the folder, by their names.
pub fn papers(folder: &Path) -> Result<Vec<Stored>, String> {
    let mut paths = Vec::new();
    find(folder, &mut paths)?;
    paths.sort();
    if paths.is_empty() {
        return Err(format!("no papers below {}", folder.display()));
    }
    paths.into_iter().map(Stored::read).collect()
}

fn find(folder: &Path, paths: &mut Vec<PathBuf>) -> Result<(), String> {
    let told = |error| format!("{}: {error}", folder.display());
    for entry in fs::read_dir(folder).map_err(told)? {
        let path = entry.map_err(told)?.path();
        if path.is_dir() {
            find(&path, paths)?;
        } else if path.extension().is_some_and(|it| it == "paper") {
            paths.push(path);
        }
    }
    Ok(())
}

impl Stored {
    fn read(path: PathBuf) -> Result<Self, String> {
        let keyed = path.with_extension("key");
        let told = |path: &Path, error| format!("{}: {error}", path.display());
        Ok(Self {
            paper: fs::read(&path).map_err(|error| told(&path, error))?,
            key: fs::read_to_string(&keyed).map_err(|error| told(&keyed, error))?,
            path,
        })
    }

    /// The first line in which an output is not the paper's key.
    pub fn difference(&self, output: &Result<Vec<u8>, String>) -> Option<String> {
        let name = self.path.display();
        let output = match output {
            Ok(output) if *output == self.key.as_bytes() => return None,
            Ok(output) => String::from_utf8_lossy(output),
            Err(message) => return Some(format!("{name}: {message}")),
        };
        let shown = |line: Option<&str>| line.map_or("no line".into(), |line| format!("`{line}`"));
        Some(match script::first_difference(&self.key, &output) {
            Some((line, key, other)) => {
                let (key, other) = (shown(key), shown(other));
                format!("{name}: line {line} is {other}, in the key {key}")
            }
            None => format!("{name}: the lines end in another way"),
        })
    }
}
