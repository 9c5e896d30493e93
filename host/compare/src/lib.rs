//! The unchanged Rust and the port on the same generated calls.
//!
//! Both answer every call; the first difference stops the run and is cut down to
//! few calls that still show it. Where the port departs from the Rust on purpose
//! the history ends, and the next opening goes on.
mod history;
mod judge;
mod shrink;

use generate::{Generator, Mix, Phase, Table};
use script::{Call, Side};

pub use judge::{Answers, Departures};
pub use shrink::{Difference, shrink};

use history::History;
use judge::{Judge, Judgement};

/// Makes a side anew.
pub type NewSide<'a> = &'a dyn Fn() -> Box<dyn Side>;

/// What to run.
#[derive(Debug, Clone, Copy)]
pub struct Plan {
    pub seed: u64,
    pub calls: u64,
    pub mix: Mix,
    /// With a phase, every call is of that phase.
    pub phase: Option<Phase>,
    /// Whether every opening has a smaller store.
    pub stores: bool,
}

impl Plan {
    fn generator(&self) -> Generator {
        let generator = match self.stores {
            true => Generator::in_small_stores(self.seed, self.mix, self.phase),
            false => Generator::new(self.seed, self.mix, self.phase),
        };
        generator.with_departures()
    }
}

/// The Rust's counts and the port's, of the calls that they answer alike, and how
/// often they departed.
pub struct Tables {
    pub rust: Table,
    pub port: Table,
    pub departures: Departures,
}

impl Tables {
    /// For calls of this mix.
    pub fn new(mix: Mix) -> Self {
        Self {
            rust: Table::new(mix),
            port: Table::new(mix),
            departures: Departures::default(),
        }
    }

    /// For calls of this mix in smaller stores.
    pub fn in_small_stores(mix: Mix) -> Self {
        Self {
            rust: Table::in_small_stores(mix),
            port: Table::in_small_stores(mix),
            departures: Departures::default(),
        }
    }
}

/// Where the two sides part, or why a run could not go on.
#[derive(Debug)]
pub enum Stop {
    /// After so many calls of the run, cut down.
    Difference {
        after: u64,
        found: Difference,
    },
    Failure(String),
}

/// Runs the plan and counts the answers of both sides.
pub fn compare(plan: Plan, new_port: NewSide<'_>, tables: &mut Tables) -> Result<(), Stop> {
    let mut generator = plan.generator();
    let mut port = new_port();
    let mut history = History::default();
    let mut judge = Judge::default();
    for after in 1..=plan.calls {
        let (call, rust) = generator.step().map_err(Stop::Failure)?;
        if judge.is_over(&call) {
            return Err(Stop::Failure(format!("no opening after 58: {call}")));
        }
        history.add(&call);
        match judge.judge(&call, &rust, port.apply(&call)) {
            Judgement::Alike(answer) => {
                tables.rust.count(&call, &rust, generator.before());
                tables.port.count(&call, &answer, generator.before());
            }
            Judgement::Departs(place) => tables.departures.count(place),
            Judgement::Differs(answers) => {
                let script = vec![call];
                let found = cut_down(&history, Difference { script, answers }, new_port);
                return Err(Stop::Difference { after, found });
            }
        }
    }
    Ok(())
}

/// The shortest script found from the last opening on, or from as many openings
/// before as it takes. Where none shows it, the whole run does.
fn cut_down(history: &History, first: Difference, new_port: NewSide<'_>) -> Difference {
    let tries = history.since_openings();
    let shown = tries.into_iter().find_map(|calls| shrink(calls, new_port));
    shown.unwrap_or(first)
}

/// Whether the call begins a new history: an opening, or the size of its store.
fn begins(call: &Call, last: Option<&Call>) -> bool {
    match call {
        Call::Open(_) => !matches!(last, Some(Call::Store { .. })),
        _ => matches!(call, Call::Store { .. }),
    }
}
