//! Reads a script, applies its calls and prints one answer line for each.
use std::io::{self, Read, Write};
use std::process::ExitCode;

use script::Side;

const USAGE: &str = "usage: driver [--side rust|rattle|session] [FILE]   (standard input without FILE)
  rust: the unchanged Rust (without --side); rattle: the port, call by call; session: the port, through UsbSession";

struct Options {
    side: String,
    file: Option<String>,
}

fn main() -> ExitCode {
    match drive() {
        Ok(()) => ExitCode::SUCCESS,
        Err(message) => {
            eprintln!("driver: {message}");
            ExitCode::FAILURE
        }
    }
}

fn drive() -> Result<(), String> {
    let options = options(std::env::args().skip(1))?;
    let mut side = side(&options.side)?;
    let text = read(options.file.as_deref())?;
    let mut out = io::BufWriter::new(io::stdout().lock());
    let mut failure = None;
    let result = script::run(side.as_mut(), &text, |line| {
        if let Err(error) = writeln!(out, "{line}") {
            failure.get_or_insert(error);
        }
    });
    let written = failure.map_or_else(|| out.flush(), Err);
    result.map_err(|error| error.to_string())?;
    written.map_err(|error| format!("standard output: {error}"))
}

fn options(mut words: impl Iterator<Item = String>) -> Result<Options, String> {
    let mut options = Options {
        side: "rust".into(),
        file: None,
    };
    while let Some(word) = words.next() {
        match word.as_str() {
            "--side" => options.side = words.next().ok_or(USAGE)?,
            _ if word.starts_with('-') || options.file.is_some() => return Err(USAGE.into()),
            _ => options.file = Some(word),
        }
    }
    Ok(options)
}

fn side(name: &str) -> Result<Box<dyn Side>, String> {
    #[cfg(feature = "rust")]
    if name == "rust" {
        return Ok(Box::new(oracle::Oracle::new()));
    }
    #[cfg(feature = "rattle")]
    match name {
        "rattle" => return Ok(Box::new(port::Port::new())),
        "session" => return Ok(Box::new(port::Session::new())),
        _ => {}
    }
    match name {
        "rust" | "rattle" | "session" => Err(format!("the side `{name}` is not built in")),
        _ => Err(format!("unknown side `{name}`; {USAGE}")),
    }
}

fn read(file: Option<&str>) -> Result<String, String> {
    let mut bytes = Vec::new();
    let (name, read) = match file {
        None => ("standard input", io::stdin().read_to_end(&mut bytes)),
        Some(path) => (path, read_file(path, &mut bytes)),
    };
    read.map_err(|error| format!("{name}: {error}"))?;
    script::text(bytes).map_err(|error| error.to_string())
}

fn read_file(path: &str, bytes: &mut Vec<u8>) -> io::Result<usize> {
    std::fs::File::open(path)?.read_to_end(bytes)
}
