//! Papers: written from text, read back, marked by calls, generated, compared.
use std::io::{self, Read, Write};
use std::path::Path;
use std::process::ExitCode;
use std::time::Instant;

use paper::compare::{Find, Stop, compare, markers};
use paper::cut::{cut_down, uncut};
use paper::generate::{Generator, MOST_EVENTS};
use paper::{FIRST, Program, Table, lines, new_side, stored, text};

const USAGE: &str = "usage: paper write                  a paper's text on standard input, the paper on standard output
       paper read                   a paper on standard input, its text on standard output
       paper key [--side rust|session]      a paper on standard input, its lines on standard output, by calls
       paper generate SEED EVENTS [--table]      a paper of so many events, 8,192 at most; with --table what it meets
       paper compare SEED EVENTS [--key PROGRAM] [--uncut] [--table]      generated papers through the sides and the key program;
                                    a paper that shows a difference is cut down to few events
       paper check PROGRAM FOLDER   the key program on the papers (*.paper) below a folder, held to their keys (*.key)";

/// Outputs differ: 1. Anything else that is wrong: 2.
enum Failure {
    Differs(String),
    Trouble(String),
}

impl<T: ToString> From<T> for Failure {
    fn from(message: T) -> Self {
        Self::Trouble(message.to_string())
    }
}

type Done = Result<(), Failure>;

fn main() -> ExitCode {
    let words: Vec<_> = std::env::args().skip(1).collect();
    let words: Vec<_> = words.iter().map(String::as_str).collect();
    let (message, status) = match run(&words) {
        Ok(()) => return ExitCode::SUCCESS,
        Err(Failure::Differs(message)) => (message, 1),
        Err(Failure::Trouble(message)) => (message, 2),
    };
    eprintln!("paper: {message}");
    ExitCode::from(status)
}

fn run(words: &[&str]) -> Done {
    match *words {
        ["write"] => output(&text::write(&script::text(input()?)?)?),
        ["read"] => output(text::read(&input()?).as_bytes()),
        ["key"] => key(FIRST),
        ["key", "--side", side] => key(side),
        ["generate", ref options @ ..] => generate(&Options::read(options)?),
        ["compare", ref options @ ..] => compare_papers(&Options::read(options)?),
        ["check", program, folder] => check(program, folder),
        _ => Err(USAGE.into()),
    }
}

fn key(side: &str) -> Done {
    let key = lines::key(new_side(side)?.as_mut(), &input()?)?;
    output(key.to_string().as_bytes())
}

struct Options {
    seed: u64,
    events: u64,
    program: Option<Program>,
    uncut: bool,
    table: bool,
}

impl Options {
    fn read(words: &[&str]) -> Result<Self, Failure> {
        let (mut program, mut uncut, mut table) = (None, false, false);
        let mut numbers: Vec<u64> = Vec::new();
        let mut words = words.iter();
        while let Some(word) = words.next() {
            match *word {
                "--table" => table = true,
                "--uncut" => uncut = true,
                "--key" => program = Some(Program::new(words.next().ok_or(USAGE)?)?),
                _ => numbers.push(word.parse().map_err(|_| USAGE)?),
            }
        }
        let [seed, events] = numbers[..] else {
            return Err(USAGE.into());
        };
        Ok(Self {
            seed,
            events,
            program,
            uncut,
            table,
        })
    }
}

fn generate(options: &Options) -> Done {
    let events = usize::try_from(options.events).ok();
    let events = events
        .filter(|events| *events <= MOST_EVENTS)
        .ok_or(USAGE)?;
    if options.program.is_some() || options.uncut {
        return Err(USAGE.into());
    }
    let paper = Generator::new(options.seed).paper(new_side(FIRST)?.as_mut(), events)?;
    if !options.table {
        return output(&paper);
    }
    let mut table = Table::default();
    table.count(&paper, &lines::key(new_side(FIRST)?.as_mut(), &paper)?);
    output(table.to_string().as_bytes())
}

fn compare_papers(options: &Options) -> Done {
    let start = Instant::now();
    let markers = markers(options.program.clone());
    let names: Vec<_> = markers.iter().map(|marker| marker.name.as_str()).collect();
    if markers.len() < 2 {
        return Err(format!("{} alone: nothing to compare it with", names[0]).into());
    }
    let mut table = Table::default();
    let (find, how): (Find, _) = match options.uncut {
        true => (uncut, "shown by"),
        false => (cut_down, "cut down to"),
    };
    let found = compare(options.seed, options.events, &markers, find, &mut table);
    found.map_err(|stop| match stop {
        Stop::Failure(message) => Failure::Trouble(message),
        Stop::Difference(number, found) => Failure::Differs(format!(
            "seed {}: the outputs DIFFER at paper {number}; {how} {} events:\n{found}",
            options.seed,
            found.events()
        )),
    })?;
    if options.table {
        print!("{table}");
    }
    println!(
        "paper compare: {} papers of {} events, the same lines by {}, seed {}, {:.0} seconds",
        table.papers,
        table.events,
        names.join(", "),
        options.seed,
        start.elapsed().as_secs_f64()
    );
    Ok(())
}

fn check(program: &str, folder: &str) -> Done {
    let program = Program::new(program)?;
    let papers = stored::papers(Path::new(folder))?;
    let mut wrong = Vec::new();
    for stored in &papers {
        wrong.extend(stored.difference(&program.key(&stored.paper)));
    }
    for more in [1, 8, lines::MOST_BYTES] {
        let found = program.key(&vec![0; lines::MOST_BYTES + more]);
        if found.as_deref() != Ok(b"56\n") {
            wrong.push(format!(
                "{more} bytes more than a paper has: not `56` alone"
            ));
        }
    }
    if !program.tells_bad_input()? {
        wrong.push("an input that can't be read is not told of, or has lines".into());
    }
    if !wrong.is_empty() {
        return Err(Failure::Differs(wrong.join("\n")));
    }
    println!(
        "paper check: {} stored papers, each with its key, three that are too large, and an input that can't be read",
        papers.len()
    );
    Ok(())
}

fn input() -> Result<Vec<u8>, String> {
    let mut bytes = Vec::new();
    match io::stdin().read_to_end(&mut bytes) {
        Ok(_) => Ok(bytes),
        Err(error) => Err(format!("standard input: {error}")),
    }
}

fn output(bytes: &[u8]) -> Done {
    let mut out = io::stdout().lock();
    let written = out.write_all(bytes).and_then(|()| out.flush());
    written.map_err(|error| format!("standard output: {error}").into())
}
