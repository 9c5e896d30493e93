//! Blocks of the three sides in turns.
use std::time::{Duration, Instant};

use crate::calls::Call;
use crate::scene::Scene;
use crate::side::Side;
use crate::workloads::Workload;
use crate::{Rust, Session, Words};

/// How much time a measurement is given.
#[derive(Debug, Clone, Copy)]
pub struct Effort {
    /// How many blocks each side has.
    pub blocks: usize,
    /// How long a block is timed at least, but for those whose state takes long to
    /// bring back.
    pub block: Duration,
}

/// A call that changes the state is timed once in each of so many sessions:
/// enough that the clock's own time is small, few enough to stay in the cache.
const SESSIONS: usize = 4;

/// A quarter of the blocks is below `low`, half below `median`, a quarter above
/// `high`.
#[derive(Debug, Clone, Copy, PartialEq)]
pub struct Spread {
    pub low: f64,
    pub median: f64,
    pub high: f64,
}

impl Spread {
    /// # Panics
    /// Where there are no values.
    pub fn of(mut values: Vec<f64>) -> Self {
        values.sort_by(f64::total_cmp);
        let last = values.len() - 1;
        let at = |quarters: usize| values[(last * quarters + 2) / 4];
        Self {
            low: at(1),
            median: at(2),
            high: at(3),
        }
    }
}

/// Nanoseconds a call.
#[derive(Debug, Clone, Copy)]
pub struct Measured {
    pub rust: Spread,
    pub words: Spread,
    pub session: Spread,
    /// To the Rust's block of the same turn.
    pub words_ratio: Spread,
    pub session_ratio: Spread,
}

/// The workloads take turns too, so that their times can be compared.
pub fn measure(workloads: &[Workload], effort: Effort) -> Vec<Measured> {
    let lanes = workloads.iter().map(|it| Lanes::new(it, effort));
    let mut lanes: Vec<_> = lanes.collect();
    for _ in 0..effort.blocks {
        for lanes in &mut lanes {
            lanes.turn();
        }
    }
    lanes.iter().map(Lanes::measured).collect()
}

/// The three sides of a workload.
struct Lanes {
    rust: Lane<Rust>,
    words: Lane<Words>,
    session: Lane<Session>,
    /// In this order.
    turns: Vec<[f64; 3]>,
}

impl Lanes {
    fn new(workload: &Workload, effort: Effort) -> Self {
        Self {
            rust: Lane::new(workload, effort),
            words: Lane::new(workload, effort),
            session: Lane::new(workload, effort),
            turns: Vec::new(),
        }
    }

    fn turn(&mut self) {
        let (rust, words) = (self.rust.block(), self.words.block());
        self.turns.push([rust, words, self.session.block()]);
    }

    fn measured(&self) -> Measured {
        let spread = |value: fn(&[f64; 3]) -> f64| {
            let values = self.turns.iter().map(value);
            Spread::of(values.collect())
        };
        Measured {
            rust: spread(|turn| turn[0]),
            words: spread(|turn| turn[1]),
            session: spread(|turn| turn[2]),
            words_ratio: spread(|turn| turn[1] / turn[0]),
            session_ratio: spread(|turn| turn[2] / turn[0]),
        }
    }
}

/// A side with the size of its blocks.
struct Lane<S> {
    scene: Scene<S>,
    call: Call,
    sessions: usize,
    rounds: u32,
    times: u32,
}

impl<S: Side> Lane<S> {
    fn new(workload: &Workload, effort: Effort) -> Self {
        let call = workload.call;
        let sessions = if call.repeats() { 1 } else { SESSIONS };
        let mut lane = Self {
            scene: Scene::new(workload.rows, sessions),
            call,
            sessions,
            rounds: 1,
            times: 1,
        };
        lane.size(effort.block);
        lane
    }

    /// Makes blocks larger until one takes its time, or ten times of it with what
    /// brings the state back. The quickest of three counts: another program may
    /// have run meanwhile.
    fn size(&mut self, block: Duration) {
        loop {
            let (mut timed, mut whole) = (Duration::MAX, Duration::MAX);
            for _ in 0..3 {
                let start = Instant::now();
                timed = timed.min(self.taken());
                whole = whole.min(start.elapsed());
            }
            if timed >= block || whole >= block * 10 {
                return;
            }
            match self.call.repeats() {
                true => self.times *= 2,
                false => self.rounds *= 2,
            }
        }
    }

    /// Nanoseconds a call in a block.
    fn block(&mut self) -> f64 {
        let calls = self.rounds as usize * self.times as usize * self.sessions;
        self.taken().as_secs_f64() * 1e9 / calls as f64
    }

    fn taken(&mut self) -> Duration {
        let mut taken = Duration::ZERO;
        for _ in 0..self.rounds {
            taken += self.scene.time(self.call, self.times);
            self.scene.put_back(self.call);
        }
        taken
    }
}

#[cfg(test)]
mod tests {
    use super::*;

    #[test]
    fn a_spread_is_of_the_sorted_values() {
        let spread = Spread::of(vec![9.0, 1.0, 4.0, 3.0, 100.0]);
        let expected = Spread {
            low: 3.0,
            median: 4.0,
            high: 9.0,
        };
        assert_eq!(spread, expected);
        assert_eq!(Spread::of(vec![2.0]).high, 2.0);
    }
}
