//! Cutting a script down to few calls that still show a difference.
use std::fmt::{self, Display, Formatter};

use generate::Bounded;
use script::{Call, Side};

use crate::NewSide;
use crate::judge::{Answers, Judge, Judgement};

/// How often a script is run anew at most.
const TRIALS: usize = 4_000;

/// A script, and both sides' answers to its last call.
#[derive(Debug)]
pub struct Difference {
    pub script: Vec<Call>,
    pub answers: Answers,
}

impl Display for Difference {
    fn fmt(&self, f: &mut Formatter<'_>) -> fmt::Result {
        for call in &self.script {
            writeln!(f, "{call}")?;
        }
        write!(f, "{}", self.answers)
    }
}

/// Drops the calls that don't matter. None where both sides, made anew, answer
/// all of them alike.
pub fn shrink(calls: Vec<Call>, new_port: NewSide<'_>) -> Option<Difference> {
    let show = |calls| first_difference(calls, new_port);
    script::fewest(calls, TRIALS, show, |found| &found.script)
}

/// The shortest prefix that shows a difference. What follows a departure is left
/// out up to the next opening.
fn first_difference(mut calls: Vec<Call>, new_port: NewSide<'_>) -> Option<Difference> {
    let (mut rust, mut port) = (Bounded::new(), new_port());
    let mut judge = Judge::default();
    for place in 0..calls.len() {
        let call = &calls[place];
        if judge.is_over(call) {
            continue;
        }
        let answer = rust.apply(call).ok()?;
        if let Judgement::Differs(answers) = judge.judge(call, &answer, port.apply(call)) {
            calls.truncate(place + 1);
            return Some(Difference {
                script: calls,
                answers,
            });
        }
    }
    None
}
