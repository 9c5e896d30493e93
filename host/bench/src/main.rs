//! Times the three sides, prints a line a workload, and writes the page.
use std::fs;
use std::process::ExitCode;
use std::time::Duration;

use bench::{
    Effort, Machine, Results, Row, Workload, growth, line, measure, page, plot, workloads,
};

const USAGE: &str = "usage: bench [--only TEXT] [--blocks N] [--microseconds N] [--before FILE] [--save FILE] [--page FILE] [--plot FILE]
  --only: the workloads whose name has TEXT; no file is written then
  --blocks, --microseconds: the blocks of each side, 101 without it, and how long one is timed, 500
  --before: earlier numbers, shown beside the new ones
  --save: writes the new numbers as earlier ones
  --page, --plot: writes them as a page and as a picture";

struct Options {
    only: String,
    effort: Effort,
    before: Option<String>,
    save: Option<String>,
    page: Option<String>,
    plot: Option<String>,
}

fn main() -> ExitCode {
    match run() {
        Ok(()) => ExitCode::SUCCESS,
        Err(message) => {
            eprintln!("bench: {message}");
            ExitCode::FAILURE
        }
    }
}

fn run() -> Result<(), String> {
    let options = options(std::env::args().skip(1))?;
    let machine = Machine::here();
    println!("{}", machine.line());
    let before = match &options.before {
        Some(file) => Row::read(&read(file)?).map_err(|line| format!("{file}: {line}"))?,
        None => Vec::new(),
    };
    let measured = |workloads: &[Workload]| {
        let measured = measure(workloads, options.effort);
        for (workload, measured) in workloads.iter().zip(&measured) {
            println!("{}", line(workload, measured));
        }
        measured
    };
    let named = |name: &str| name.contains(&options.only);
    let all = workloads().into_iter().filter(|it| named(&it.name));
    let growths = growth().into_iter().filter(|it| named(it.name));
    let results = Results {
        workloads: all.map(|it| (it.clone(), measured(&[it])[0])).collect(),
        growth: growths
            .map(|it| (it.clone(), measured(&it.workloads)))
            .collect(),
        before,
    };
    if !options.only.is_empty() {
        return Ok(());
    }
    write(options.save, || results.save())?;
    write(options.page, || page(&results, &machine, options.effort))?;
    write(options.plot, || plot(&results))
}

fn options(mut words: impl Iterator<Item = String>) -> Result<Options, String> {
    let mut options = Options {
        only: String::new(),
        effort: Effort {
            blocks: 101,
            block: Duration::from_micros(500),
        },
        before: None,
        save: None,
        page: None,
        plot: None,
    };
    while let Some(word) = words.next() {
        let mut value = || words.next().ok_or(USAGE);
        match word.as_str() {
            "--only" => options.only = value()?,
            "--blocks" => options.effort.blocks = number(&value()?)?,
            "--microseconds" => {
                options.effort.block = Duration::from_micros(number(&value()?)? as u64);
            }
            "--before" => options.before = Some(value()?),
            "--save" => options.save = Some(value()?),
            "--page" => options.page = Some(value()?),
            "--plot" => options.plot = Some(value()?),
            _ => return Err(USAGE.into()),
        }
    }
    Ok(options)
}

fn number(word: &str) -> Result<usize, String> {
    match word.parse() {
        Ok(number) if number > 0 => Ok(number),
        _ => Err(format!("{word:?} is no number above 0\n{USAGE}")),
    }
}

fn read(file: &str) -> Result<String, String> {
    fs::read_to_string(file).map_err(|error| format!("{file}: {error}"))
}

fn write(file: Option<String>, text: impl FnOnce() -> String) -> Result<(), String> {
    match file {
        Some(file) => fs::write(&file, text()).map_err(|error| format!("{file}: {error}")),
        None => Ok(()),
    }
}
