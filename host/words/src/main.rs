//! Writes the recorded calls of the Rattle program `replay` and what it must
//! print, and says what they meet.
use std::fs;
use std::path::Path;
use std::process::ExitCode;

use words::Recording;

const USAGE: &str = "usage: words RECORDED LIST FOLDER
  writes FOLDER/stdin and FOLDER/stdout, from the scripts in RECORDED and the generator's that LIST names";

fn main() -> ExitCode {
    match write() {
        Ok(()) => ExitCode::SUCCESS,
        Err(message) => {
            eprintln!("words: {message}");
            ExitCode::FAILURE
        }
    }
}

fn write() -> Result<(), String> {
    let arguments: Vec<_> = std::env::args().skip(1).collect();
    let [recorded, list, folder] = &arguments[..] else {
        return Err(USAGE.into());
    };
    let text = fs::read_to_string(list).map_err(|error| format!("{list}: {error}"))?;
    let recording = Recording::new(Path::new(recorded), &text)?;
    for (name, text) in [("stdin", &recording.stdin), ("stdout", &recording.stdout)] {
        let path = Path::new(folder).join(name);
        fs::write(&path, text).map_err(|error| format!("{}: {error}", path.display()))?;
    }
    print!("{recording}");
    Ok(())
}
