//! Writes a seeded random script, or the table of what its answers were.
use std::io::{self, Write};
use std::process::ExitCode;

use generate::{Generator, Mix, Phase, Table};

const USAGE: &str = "usage: generate SEED CALLS [--mix default|no-recovery] [--phase PHASE] [--stores] [--table]
  PHASE: mixed, checks, plans, ports, limits, hold, fill, stalls, lifecycle, marked or edges; all in turn without it
  --stores: every opening has a store of 1 to 200 rows of 1 to 4,096 bytes
  --table: how often each refusal and each kind of report came, in place of the script";

struct Options {
    seed: u64,
    calls: u64,
    mix: Mix,
    phase: Option<Phase>,
    stores: bool,
    table: bool,
}

fn main() -> ExitCode {
    match write_script() {
        Ok(()) => ExitCode::SUCCESS,
        Err(message) => {
            eprintln!("generate: {message}");
            ExitCode::FAILURE
        }
    }
}

fn write_script() -> Result<(), String> {
    let options = options(std::env::args().skip(1))?;
    let mut out = io::BufWriter::new(io::stdout().lock());
    let (seed, mix, phase) = (options.seed, options.mix, options.phase);
    let (mut generator, mut table) = match options.stores {
        true => (
            Generator::in_small_stores(seed, mix, phase),
            Table::in_small_stores(mix),
        ),
        false => (Generator::new(seed, mix, phase), Table::new(mix)),
    };
    for _ in 0..options.calls {
        let (call, answer) = generator.step()?;
        if options.table {
            table.count(&call, &answer, generator.before());
        } else {
            writeln!(out, "{call}").map_err(unwritten)?;
        }
    }
    if options.table {
        write!(out, "{table}").map_err(unwritten)?;
    }
    out.flush().map_err(unwritten)
}

fn unwritten(error: io::Error) -> String {
    format!("standard output: {error}")
}

fn options(mut words: impl Iterator<Item = String>) -> Result<Options, String> {
    let (mut mix, mut phase) = (Mix::Default, None);
    let (mut stores, mut table) = (false, false);
    let mut numbers = Vec::new();
    while let Some(word) = words.next() {
        match word.as_str() {
            "--table" => table = true,
            "--stores" => stores = true,
            "--mix" => mix = named(words.next(), Mix::from_name)?,
            "--phase" => phase = Some(named(words.next(), Phase::from_name)?),
            _ => numbers.push(word.parse::<u64>().map_err(|_| USAGE)?),
        }
    }
    let [seed, calls] = numbers[..] else {
        return Err(USAGE.into());
    };
    Ok(Options {
        seed,
        calls,
        mix,
        phase,
        stores,
        table,
    })
}

fn named<T>(word: Option<String>, find: impl Fn(&str) -> Option<T>) -> Result<T, String> {
    let found = word.as_deref().and_then(find);
    found.ok_or_else(|| USAGE.into())
}
