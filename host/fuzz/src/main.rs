//! Throws bad and good words at the library for a time or a number of calls.
use std::process::ExitCode;
use std::time::{Duration, Instant};

use fuzz::{Fuzz, run_library, tell_faults};

const USAGE: &str = "usage: fuzz SEED [--seconds N] [--calls N] [--at-least N]
  --seconds, --calls: where it stops, whichever comes first; 5 seconds without either
  --at-least N: fewer calls than N are a failure";

struct Options {
    seed: u64,
    seconds: u64,
    calls: u64,
    at_least: u64,
}

fn main() -> ExitCode {
    match run() {
        Ok(()) => ExitCode::SUCCESS,
        Err(message) => {
            eprintln!("fuzz: {message}");
            ExitCode::FAILURE
        }
    }
}

fn run() -> Result<(), String> {
    let options = options(std::env::args().skip(1))?;
    tell_faults();
    let (start, time) = (Instant::now(), Duration::from_secs(options.seconds));
    let mut fuzz = Fuzz::new(options.seed, &run_library);
    while fuzz.tally.calls < options.calls && start.elapsed() < time {
        fuzz.step().map_err(|failure| failure.to_string())?;
    }
    let seconds = start.elapsed().as_secs_f64();
    let calls = fuzz.tally.calls;
    println!("{}", fuzz.tally);
    println!(
        "every slice with each length of the list: {} times",
        fuzz.size_rounds()
    );
    println!(
        "fuzz: {calls} calls answered as docs/CALLS.md says, seed {}, {seconds:.0} seconds",
        options.seed
    );
    match calls >= options.at_least {
        true => Ok(()),
        false => Err(format!("only {calls} calls, not {}", options.at_least)),
    }
}

fn options(mut words: impl Iterator<Item = String>) -> Result<Options, String> {
    let (mut seed, mut seconds, mut calls, mut at_least) = (None, None, None, 0);
    while let Some(word) = words.next() {
        match word.as_str() {
            "--seconds" => seconds = Some(number(words.next())?),
            "--calls" => calls = Some(number(words.next())?),
            "--at-least" => at_least = number(words.next())?,
            _ if seed.is_none() => seed = Some(number(Some(word))?),
            _ => return Err(USAGE.into()),
        }
    }
    let unlimited = if calls.is_some() { u64::MAX } else { 5 };
    Ok(Options {
        seed: seed.ok_or(USAGE)?,
        seconds: seconds.unwrap_or(unlimited),
        calls: calls.unwrap_or(u64::MAX),
        at_least,
    })
}

fn number(word: Option<String>) -> Result<u64, String> {
    let number = word.and_then(|word| word.parse().ok());
    number.ok_or_else(|| USAGE.into())
}
