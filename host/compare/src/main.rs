//! Runs the unchanged Rust and the port on the same generated calls.
use std::process::ExitCode;
use std::time::Instant;

use compare::{NewSide, Plan, Stop, Tables, compare};
use generate::{Mix, Phase};
use script::Side;

const USAGE: &str = "usage: compare SEED CALLS [--seeds N] [--mix default|no-recovery] [--phase PHASE] [--side rattle|session] [--stores] [--table]
  --seeds N: so many seeds from SEED on, CALLS calls each
  --mix: default without it, which has abort and reset
  --side: the port call by call (without it), or through UsbSession
  --stores: every opening has a store of 1 to 200 rows of 1 to 4,096 bytes; the Rust is not asked what its limits refuse
  --table: how often each refusal and each kind of report came, on both sides";

struct Options {
    plan: Plan,
    seeds: u64,
    side: String,
    table: bool,
}

fn main() -> ExitCode {
    match run() {
        Ok(()) => ExitCode::SUCCESS,
        Err(message) => {
            eprintln!("compare: {message}");
            ExitCode::FAILURE
        }
    }
}

fn run() -> Result<(), String> {
    let options = options(std::env::args().skip(1))?;
    let new_port: NewSide<'_> = match options.side.as_str() {
        "rattle" => &|| Box::new(port::Port::new()) as Box<dyn Side>,
        "session" => &|| Box::new(port::Session::new()),
        _ => return Err(USAGE.into()),
    };
    let start = Instant::now();
    let mut tables = match options.plan.stores {
        true => Tables::in_small_stores(options.plan.mix),
        false => Tables::new(options.plan.mix),
    };
    for seed in (options.plan.seed..).take(options.seeds as usize) {
        let plan = Plan {
            seed,
            ..options.plan
        };
        compare(plan, new_port, &mut tables).map_err(|stop| told(stop, seed))?;
    }
    report(&options, &tables, start);
    Ok(())
}

fn told(stop: Stop, seed: u64) -> String {
    match stop {
        Stop::Failure(message) => message,
        Stop::Difference { after, found } => {
            let calls = found.script.len();
            format!(
                "seed {seed}: the sides DIFFER at call {after}; cut down to {calls} calls:\n{found}"
            )
        }
    }
}

fn report(options: &Options, tables: &Tables, start: Instant) {
    if options.table {
        println!("{}", tables.rust.beside(&tables.port));
    }
    let (numbers, kinds) = (tables.port.missing(), tables.port.missing_kinds());
    if numbers.is_empty() && kinds.is_empty() {
        println!("every refusal and kind of report that this mix can meet was met on both sides");
    } else {
        println!("not met by these calls: refusals {numbers:?}, kinds {kinds:?}");
    }
    println!("{}", tables.departures);
    if options.plan.stores {
        println!("{}", tables.port.small_stores());
    }
    println!(
        "compare: {} calls answered alike by the Rust and the port ({}), seeds {} to {}, {:.0} seconds",
        tables.port.calls,
        options.side,
        options.plan.seed,
        options.plan.seed + options.seeds - 1,
        start.elapsed().as_secs_f64()
    );
}

fn options(mut words: impl Iterator<Item = String>) -> Result<Options, String> {
    let (mut mix, mut phase) = (Mix::Default, None);
    let (mut stores, mut table) = (false, false);
    let (mut seeds, mut side) = (1, "rattle".into());
    let mut numbers = Vec::new();
    while let Some(word) = words.next() {
        match word.as_str() {
            "--table" => table = true,
            "--stores" => stores = true,
            "--mix" => mix = named(words.next(), Mix::from_name)?,
            "--phase" => phase = Some(named(words.next(), Phase::from_name)?),
            "--seeds" => seeds = named(words.next(), |it| it.parse().ok().filter(|n| *n > 0))?,
            "--side" => side = words.next().ok_or(USAGE)?,
            _ => numbers.push(word.parse::<u64>().map_err(|_| USAGE)?),
        }
    }
    let [seed, calls] = numbers[..] else {
        return Err(USAGE.into());
    };
    let plan = Plan {
        seed,
        calls,
        mix,
        phase,
        stores,
    };
    Ok(Options {
        plan,
        seeds,
        side,
        table,
    })
}

fn named<T>(word: Option<String>, find: impl Fn(&str) -> Option<T>) -> Result<T, String> {
    let found = word.as_deref().and_then(find);
    found.ok_or_else(|| USAGE.into())
}
