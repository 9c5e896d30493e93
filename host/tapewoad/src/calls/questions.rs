//! Questions, which leave all as it is and are no calls.
use super::{Plan, Submit};
use crate::models::{ControllerState, DeviceId};

/// A question, by the names of docs/CALLS.md.
#[derive(Debug, Clone, Copy, PartialEq, Eq)]
#[non_exhaustive]
pub enum Question<'a> {
    /// What the session says of itself.
    SessionStatus,
    /// The first report of a row at or after a place.
    ReportFrom {
        /// The row, from 0.
        place: u64,
    },
    /// Which reading of its port a submission lacks; one that was not taken yet is
    /// given as failed.
    SubmitWants(Submit<'a>),
    /// The same of a control plan's submission.
    PlanWants(Plan<'a>),
}

/// What a session says of itself.
#[derive(Debug, Clone, Copy, PartialEq, Eq)]
#[non_exhaustive]
pub struct SessionStatus {
    /// The session number of the ledger.
    pub session: u64,
    /// Its generation.
    pub generation: u64,
    /// The sequence number of the next submission.
    pub next_sequence: u64,
    /// The session number of port ids, and how many ports there are.
    pub ports: Option<(u64, u8)>,
    /// Where the controller is in its life.
    pub state: ControllerState,
    /// The recovery revision.
    pub recovery_revision: Option<u64>,
    /// Where a reset brings the controller back to Initialized.
    pub recoverable_stall: Option<Stall>,
    /// What awaits the backend's reply.
    pub in_flight: Option<Operation>,
    /// How many rows the store has.
    pub rows: u64,
    /// How many bytes a row has.
    pub row_bytes: u64,
}

/// A stall that a reset of its endpoint recovers.
#[derive(Debug, Clone, Copy, PartialEq, Eq)]
#[non_exhaustive]
pub struct Stall {
    /// The recovery revision that it was marked with.
    pub revision: u64,
    /// The device.
    pub device: DeviceId,
    /// The endpoint's byte.
    pub endpoint: u8,
}

/// An operation of two calls, whose second has not come.
#[derive(Debug, Clone, Copy, PartialEq, Eq)]
pub enum Operation {
    /// A request's or a control plan's submission.
    Submission,
    /// A poll.
    Poll,
    /// An abort or a reset.
    Recovery,
}

/// A reading that a submission lacks.
#[derive(Debug, Clone, Copy, PartialEq, Eq)]
#[non_exhaustive]
pub struct Wanted {
    /// Its place among [`Submit::readings`].
    pub reading: usize,
    /// The number of the port to read.
    pub port: u8,
}
