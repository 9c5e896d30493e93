//! What a run met.
use std::collections::BTreeMap;
use std::fmt::{self, Display, Formatter};

use tapewoad::calls::Answer;

use crate::{Case, Function};

#[derive(Debug, Default)]
pub struct Tally {
    pub calls: u64,
    /// Those of the function that reads.
    pub reads: u64,
    pub statuses: [u64; 5],
    pub refusals: BTreeMap<u16, u64>,
    pub cases: BTreeMap<Case, u64>,
}

impl Tally {
    /// Counts a call that was found right.
    pub fn count(&mut self, case: Case, function: Function, status: u64, answer: Option<&Answer>) {
        self.calls += 1;
        self.reads += u64::from(function == Function::Read);
        self.statuses[status as usize] += 1;
        *self.cases.entry(case).or_default() += 1;
        if let Some(Answer::Refused(refusal)) = answer {
            *self.refusals.entry(refusal.number).or_default() += 1;
        }
    }
}

impl Display for Tally {
    fn fmt(&self, f: &mut Formatter<'_>) -> fmt::Result {
        let cases: Vec<_> = self
            .cases
            .iter()
            .map(|(it, n)| format!("{it:?} {n}"))
            .collect();
        let (calls, reads) = (self.calls, self.reads);
        writeln!(
            f,
            "calls {calls}, {reads} of them read: {}",
            cases.join(", ")
        )?;
        let statuses = self.statuses.iter().enumerate();
        let statuses: Vec<_> = statuses.map(|(it, n)| format!("{it} {n} times")).collect();
        writeln!(f, "status {}", statuses.join(", "))?;
        let refusals = self.refusals.iter();
        let refusals: Vec<_> = refusals.map(|(it, n)| format!("{it}: {n}")).collect();
        write!(f, "refusals {}", refusals.join(", "))
    }
}
