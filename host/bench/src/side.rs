//! What a side does, and the two ways to make its calls: for their answers, or
//! for the time that they take.
use std::hint::black_box;
use std::time::{Duration, Instant};

use crate::answer::{Answer, Told};
use crate::calls::Call;

/// A session with a device, Initialized.
pub trait Side: Sized {
    /// Over a store of so many rows; the Rust has none.
    fn open(rows: usize) -> Self;
    /// Lays ready everything that the next call takes. `sequence` is its
    /// request's number, `stopped` those that a recovery takes back.
    fn ready(&mut self, call: Call, sequence: u64, stopped: &[u64]);
    /// Makes the call on each of the sides.
    fn each(sides: &mut [Self], call: Call, run: &mut impl Run);
}

pub trait Run {
    fn each<S, A: Told<S>>(&mut self, sides: &mut [S], call: impl FnMut(&mut S) -> A);
}

/// Keeps the answers.
#[derive(Default)]
pub struct Answers(pub Vec<Answer>);

impl Run for Answers {
    fn each<S, A: Told<S>>(&mut self, sides: &mut [S], mut call: impl FnMut(&mut S) -> A) {
        for side in sides {
            let answer = call(side);
            self.0.push(answer.told(side));
        }
    }
}

/// Makes each call so many times, and keeps how long all took. An answer is
/// dropped in this time, as a host program must drop it too.
pub struct Clock {
    pub times: u32,
    pub taken: Duration,
}

impl Run for Clock {
    fn each<S, A: Told<S>>(&mut self, sides: &mut [S], mut call: impl FnMut(&mut S) -> A) {
        let start = Instant::now();
        for _ in 0..self.times {
            for side in sides.iter_mut() {
                black_box(&call(black_box(side)));
            }
        }
        self.taken = start.elapsed();
    }
}
