//! Seeded random scripts. The oracle runs in step with the generator, so that
//! the next call can aim at rows, tokens and states that are really there.
mod bounded;
mod corners;
mod edges;
mod episode;
mod marks;
mod phase;
mod poll;
mod recover;
mod settings;
mod stores;
mod submit;
mod table;
mod values;
mod world;

use oracle::View;
use script::{Answer, Call, Side, departs, spare};

pub use bounded::{Bounded, StoreSize};
pub use phase::Phase;
pub use table::Table;
use world::World;

/// Which calls a script may have.
#[derive(Debug, Clone, Copy, PartialEq, Eq)]
pub enum Mix {
    Default,
    /// Without abort and reset.
    NoRecovery,
}

impl Mix {
    pub fn from_name(name: &str) -> Option<Self> {
        match name {
            "default" => Some(Self::Default),
            "no-recovery" => Some(Self::NoRecovery),
            _ => None,
        }
    }
}

pub struct Generator {
    world: World,
    rust: Bounded,
    /// Whether there are calls at which the port departs from the Rust.
    departs: bool,
}

impl Generator {
    /// With a phase, every call is of that phase.
    pub fn new(seed: u64, mix: Mix, phase: Option<Phase>) -> Self {
        Self {
            world: World::new(seed, mix, phase),
            rust: Bounded::new(),
            departs: false,
        }
    }

    /// The same, with a smaller store before every opening.
    pub fn in_small_stores(seed: u64, mix: Mix, phase: Option<Phase>) -> Self {
        let mut generator = Self::new(seed, mix, phase);
        generator.world.small_stores = true;
        generator
    }

    /// With calls at which the port departs from the Rust: each ends its history,
    /// and an opening is next.
    pub fn with_departures(self) -> Self {
        Self {
            departs: true,
            ..self
        }
    }

    /// The next call, and the oracle's answer to it.
    pub fn step(&mut self) -> Result<(Call, Answer), String> {
        let call = self.propose();
        let answer = self.answer(&call)?;
        Ok((call, answer))
    }

    /// The next call. One that the oracle is not asked is as if never made.
    pub fn propose(&mut self) -> Call {
        let mut call = self.world.next_call(self.rust.oracle());
        if !self.departs {
            spare(&mut call);
        }
        call
    }

    /// The oracle's answer to the call that was proposed.
    pub fn answer(&mut self, call: &Call) -> Result<Answer, String> {
        let answer = self
            .rust
            .apply(call)
            .map_err(|message| format!("{message}, at: {call}"))?;
        self.world.note(call, &answer);
        if departs(call, &answer).is_some() {
            self.world.end_history();
        }
        Ok(answer)
    }

    /// What was there before the latest call.
    pub fn before(&self) -> &View {
        &self.world.before
    }
}
