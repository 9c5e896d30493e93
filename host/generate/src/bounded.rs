//! The Rust behind the limits of a store.
//!
//! The Rust has 1,024 rows, each as long as its request. A smaller store answers
//! as the Rust does until its own limit is met: 5 where all its rows are used, 7
//! where a length is over its row. The Rust would take such a submission, so it
//! is never asked to.
use std::mem;

use oracle::{Oracle, View};
use script::{Answer, Call, Category, ControllerState, Error, Open, Outcome, Side, Standing};

/// A longer request is refused (6) whatever the store.
const LONGEST: u64 = 65_536;
/// So many held are the most (5) whatever the store.
const MOST_HELD: u64 = 128;

/// Rows and bytes a row.
#[derive(Debug, Clone, Copy, PartialEq, Eq)]
pub struct StoreSize {
    pub rows: u64,
    pub bytes: u64,
}

impl StoreSize {
    /// The store of an opening without `store` before it, which has the Rust's
    /// limits.
    pub const WHOLE: Self = Self {
        rows: 1_024,
        bytes: LONGEST,
    };
}

/// The Rust, in a store of the size that the last `store` named.
pub struct Bounded {
    oracle: Oracle,
    size: StoreSize,
    next_size: StoreSize,
    /// What a refusal by the store's own limit leaves: all as it was.
    standing: Standing,
}

impl Default for Bounded {
    fn default() -> Self {
        Self {
            oracle: Oracle::new(),
            size: StoreSize::WHOLE,
            next_size: StoreSize::WHOLE,
            standing: Standing {
                state: ControllerState::Closed,
                held: 0,
                held_bytes: 0,
            },
        }
    }
}

impl Side for Bounded {
    fn apply(&mut self, call: &Call) -> Result<Answer, String> {
        let outcome = match call {
            Call::Store { rows, bytes } => {
                let (rows, bytes) = (*rows, *bytes);
                self.next_size = StoreSize { rows, bytes };
                Some(Outcome::Done)
            }
            Call::Open(_) => {
                self.size = mem::replace(&mut self.next_size, StoreSize::WHOLE);
                None
            }
            _ => self.own_limit(call)?.map(refused),
        };
        match outcome {
            Some(outcome) => Ok(Answer::unchanged(outcome, self.standing)),
            None => self.ask(call),
        }
    }
}

impl Bounded {
    pub fn new() -> Self {
        Self::default()
    }

    pub fn view(&self) -> View {
        self.oracle.view()
    }

    pub fn oracle(&self) -> &Oracle {
        &self.oracle
    }

    fn ask(&mut self, call: &Call) -> Result<Answer, String> {
        let answer = self.oracle.apply(call)?;
        self.standing = answer.standing();
        Ok(answer)
    }

    /// 5 or 7, where the store's own limit refuses the call. Where 128 are held
    /// the Rust has no room either.
    fn own_limit(&self, call: &Call) -> Result<Option<u16>, String> {
        let Some(length) = requested(call) else {
            return Ok(None);
        };
        if self.size == StoreSize::WHOLE || self.standing.held >= MOST_HELD {
            return Ok(None);
        }
        let full = self.oracle.rows().len() as u64 >= self.size.rows;
        let long = (self.size.bytes + 1..=LONGEST).contains(&length);
        if !full && !long {
            return Ok(None);
        }
        Ok(match refused_alone(call)? {
            // Packets come before capacity.
            4 => None,
            _ if full => Some(5),
            // These come before a plan's length.
            18..=20 => None,
            _ => Some(7),
        })
    }
}

/// The length that a submission asks for.
fn requested(call: &Call) -> Option<u64> {
    match call {
        Call::Submit(submit) => Some(submit.length),
        Call::Plan(plan) => Some(plan.stage.map_or(0, |(_, length)| length)),
        _ => None,
    }
}

/// What the Rust refuses a submission by in a session with neither rows nor
/// devices: 27 at the latest.
fn refused_alone(call: &Call) -> Result<u16, String> {
    let mut oracle = Oracle::new();
    oracle.apply(&Call::Open(Open {
        session: 0,
        sequence: 0,
        revision: None,
        ports: None,
    }))?;
    match oracle.apply(call)?.outcome {
        Outcome::Refused { number, .. } => Ok(number),
        outcome => Err(format!("without a device: {outcome:?}")),
    }
}

fn refused(number: u16) -> Outcome {
    Outcome::Refused {
        number,
        error: Error {
            category: Category::Validation,
            message: number,
            os_code: None,
            completion_code: None,
        },
    }
}
