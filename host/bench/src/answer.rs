//! What a call answered, in one form for the three sides.

#[derive(Debug, Clone, PartialEq, Eq)]
pub enum Answer {
    Passed,
    /// By the error's category, numbered in the order of its declaration.
    Refused(u64),
    Report(Report),
    Reports(Vec<Report>),
    /// The sequence numbers of the requests that were aborted.
    Aborted(Vec<u64>),
}

#[derive(Debug, Clone, PartialEq, Eq)]
pub struct Report {
    pub sequence: u64,
    pub endpoint: u8,
    pub length: u64,
    pub state: State,
    pub cancelled: bool,
    pub timed_out: bool,
    /// The bytes of a Completed request; of a reclaimed one the C function's
    /// answer has none.
    pub data: Option<Vec<u8>>,
}

#[derive(Debug, Clone, Copy, PartialEq, Eq)]
pub enum State {
    Pending,
    Completed { length: u64 },
    Failed,
    Aborted,
}

/// An answer as a side gives it.
pub trait Told<S> {
    /// `side` is the one that gave it.
    fn told(self, side: &mut S) -> Answer;
}
