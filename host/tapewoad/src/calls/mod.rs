//! Every call and answer by itself, in types: the words of docs/CALLS.md.
//!
//! A submission, a poll and a recovery are two calls each. The first answers with
//! what the backend is to do ([`Answer::Begun`], [`Answer::PlanBegun`],
//! [`Answer::Ask`], [`Answer::Recover`]), the second brings the backend's reply.
//! Between them only reports and counts are answered; everything else is refused
//! (1), and a reply that fits nothing in flight too (2).
//!
//! A report changes nothing and may be had by [`Store::read`], as may a
//! [`Question`] by [`Store::ask`].
//!
//! ```
//! use tapewoad::calls::{Answer, Call, Store};
//! use tapewoad::Opening;
//!
//! let mut store = Store::new(2, 16);
//! assert_eq!(store.open(Opening::new(1, None)), Answer::Passed);
//! assert_eq!(store.read(&Call::HeldCount), Answer::Number(0));
//! ```
mod answered;
mod decode;
pub(crate) mod encode;
mod questions;
mod store;
mod words;

use std::fmt::{self, Debug, Display, Formatter};

use crate::models::{
    ControlProfile, DeviceId, DeviceSnapshot, Direction, Endpoint, ErrorCategory, Opening,
    RequestId, SetupPacket, TransferType,
};

pub(crate) use answered::Answered;
pub use questions::{Operation, Question, SessionStatus, Stall, Wanted};
pub use store::{Status, Store};
pub(crate) use words::Words;

/// The version of the words that this crate writes and reads: the major number
/// times 2^32, and the minor number.
pub const VERSION: u64 = (1 << 32) + 2;
/// How many words a session has.
pub const SESSION_WORDS: usize = 26;
/// How many words the bus has.
pub const BUS_WORDS: usize = 10_750;
/// How many words a row has.
pub const ROW_WORDS: usize = 26;
/// How many words an answer has.
pub const ANSWER_WORDS: usize = 32;
/// How many words an answer's lists have at most.
pub const LIST_WORDS: usize = 386;

/// An error, with a number for a text.
#[derive(Debug, Clone, Copy, PartialEq, Eq)]
#[non_exhaustive]
pub struct Error {
    /// What kind of error it is.
    pub category: ErrorCategory,
    /// The number that stands for its text: the refusal's own where the library
    /// makes the error.
    pub message: u16,
    /// The operating system's number.
    pub os_code: Option<i32>,
    /// The controller's completion code.
    pub completion_code: Option<u32>,
}

/// A refusal: the number of document 01's table, and its error.
#[derive(Debug, Clone, Copy, PartialEq, Eq)]
#[non_exhaustive]
pub struct Refusal {
    /// The number of the table.
    pub number: u16,
    /// Its error.
    pub error: Error,
}

impl Error {
    /// An error without codes.
    pub const fn new(category: ErrorCategory, message: u16) -> Self {
        Self {
            category,
            message,
            os_code: None,
            completion_code: None,
        }
    }

    /// The same with the operating system's number.
    #[must_use]
    pub const fn with_os_code(mut self, code: i32) -> Self {
        self.os_code = Some(code);
        self
    }

    /// The same with the controller's completion code.
    #[must_use]
    pub const fn with_completion_code(mut self, code: u32) -> Self {
        self.completion_code = Some(code);
        self
    }
}

impl Display for Error {
    fn fmt(&self, f: &mut Formatter<'_>) -> fmt::Result {
        write!(f, "{:?}: message {}", self.category, self.message)
    }
}

impl std::error::Error for Error {}

impl Refusal {
    /// The refusal with this number and error.
    pub const fn new(number: u16, error: Error) -> Self {
        Self { number, error }
    }
}

impl Display for Refusal {
    fn fmt(&self, f: &mut Formatter<'_>) -> fmt::Result {
        write!(f, "refused ({})", self.number)
    }
}

impl std::error::Error for Refusal {
    fn source(&self) -> Option<&(dyn std::error::Error + 'static)> {
        Some(&self.error)
    }
}

/// One reading of a port's status word.
pub type Reading = Result<u32, Error>;

/// The backend's reply to acquire: an error comes with "retained".
pub type AcquireReply = Result<(), (Error, bool)>;

/// A completion; its data are lent.
#[derive(Debug, Clone, Copy, PartialEq, Eq)]
pub struct Completion<'a> {
    /// How many bytes were moved.
    pub actual_length: Option<u64>,
    /// The controller's completion code.
    pub completion_code: Option<u32>,
    /// The bytes.
    pub data: Option<&'a [u8]>,
    /// Why it failed.
    pub error: Option<Error>,
    /// Whether the device can no longer touch the buffer.
    pub quiescent: bool,
}

/// A request to submit; readings that are not needed are not read.
#[derive(Debug, Clone, Copy, PartialEq, Eq)]
pub struct Submit<'a> {
    /// The device.
    pub device: DeviceId,
    /// The endpoint's byte.
    pub endpoint: u8,
    /// What the endpoint transfers.
    pub transfer_type: TransferType,
    /// Which way data go.
    pub direction: Direction,
    /// How many bytes are asked for.
    pub length: u64,
    /// The SETUP packet of a control transfer.
    pub setup: Option<SetupPacket>,
    /// The bytes of an OUT request; none for IN.
    pub data: &'a [u8],
    /// The packet lengths of an isochronous request.
    pub packets: Option<&'a [u64]>,
    /// The device's port, read once and again; control takes the first alone.
    pub readings: [Reading; 2],
}

/// A control plan to submit.
#[derive(Debug, Clone, Copy, PartialEq, Eq)]
pub struct Plan<'a> {
    /// The device.
    pub device: DeviceId,
    /// How strictly the stages are held to the SETUP packet.
    pub profile: ControlProfile,
    /// The SETUP packet.
    pub setup: SetupPacket,
    /// The data stage's direction and length.
    pub data_stage: Option<(Direction, u64)>,
    /// The status stage's direction.
    pub status_direction: Option<Direction>,
    /// The bytes of an OUT stage; none otherwise.
    pub data: &'a [u8],
    /// The device's port.
    pub reading: Reading,
}

/// What a recovery asks of the backend.
#[derive(Debug, Clone, Copy, PartialEq, Eq)]
pub enum Recovery {
    /// Stop the endpoint.
    Abort,
    /// Reset it.
    Reset {
        /// Whether its data toggle or sequence number is kept.
        preserve: bool,
    },
}

/// What the backend says of the affected requests' tokens.
#[derive(Debug, Clone, Copy, PartialEq, Eq)]
pub struct Abort<'a> {
    /// Tokens of requests that came to their end before, with what came of them.
    pub completed: &'a [(u64, Completion<'a>)],
    /// Tokens of requests that were taken back.
    pub aborted: &'a [u64],
    /// Whether the endpoint takes requests again.
    pub restart_ready: bool,
    /// What failed after the stop.
    pub error: Option<Error>,
}

/// A call, by the names of docs/CALLS.md.
#[derive(Debug, Clone, Copy, PartialEq, Eq)]
#[non_exhaustive]
pub enum Call<'a> {
    /// Opens a session over the store.
    Open {
        /// What it begins with.
        opening: Opening,
        /// How many rows the store has.
        rows: u64,
        /// How many bytes a row has.
        row_bytes: u64,
    },
    /// Places a device.
    SetDevice(DeviceSnapshot),
    /// Places a port's row.
    SetPort {
        /// The port, from 1.
        number: u8,
        /// Its generation.
        generation: u64,
        /// Its last reading.
        reading: Option<u32>,
    },
    /// Places a slot's endpoints.
    SetEndpoints {
        /// The slot.
        slot: u8,
        /// At most 30 of them.
        endpoints: &'a [Endpoint],
    },
    /// Sets or clears a slot's mark "requires raw reconciliation".
    SetReconcile {
        /// The slot.
        slot: u8,
        /// Whether the mark is set.
        set: bool,
    },
    /// The backend's reply to acquire.
    Acquire(AcquireReply),
    /// The backend's reply to initialize.
    Initialize(Result<(), Error>),
    /// Closes the session.
    Close {
        /// The next ledger's session number, if there is one.
        fresh: Option<u64>,
        /// The backend's reply.
        reply: Result<(), Error>,
    },
    /// Begins a submission.
    SubmitRequestPackets(Submit<'a>),
    /// Begins a control plan's submission.
    SubmitControlPlan(Plan<'a>),
    /// Ends a submission: the request's token, or why there is none.
    SubmitReply(Result<u64, Error>),
    /// Begins a poll where the request is Pending, and reports it otherwise.
    PollRequest(RequestId),
    /// Ends a poll: the completion, if one came.
    PollReply(Result<Option<Completion<'a>>, Error>),
    /// Flags a Pending request as cancelled.
    LogicalCancelRequest(RequestId),
    /// Takes back a Pending request's cancel.
    WithdrawCancelRequest(RequestId),
    /// Flags a Pending request as timed out.
    TimeoutRequest(RequestId),
    /// Frees the row of a request that is not held.
    ReclaimRequest(RequestId),
    /// Reports a request.
    RequestStatus(RequestId),
    /// The first report whose id comes after this one; the first of all.
    RequestReports {
        /// The id, or none.
        after: Option<RequestId>,
    },
    /// How many requests have a report.
    CountReports,
    /// Where a Completed request's bytes are.
    CompletedBytes(RequestId),
    /// How many requests are held; 255 says as many or more.
    HeldCount,
    /// The sum of their lengths.
    HeldBytes,
    /// Begins an abort of the request's endpoint.
    AbortRequest(RequestId),
    /// Begins a reset of the request's endpoint.
    ResetEndpointRequest {
        /// The request.
        target: RequestId,
        /// Whether the data toggle or sequence number is kept.
        preserve: bool,
    },
    /// Ends an abort or reset.
    RecoveryReply(Result<Abort<'a>, Error>),
}

/// What a report says of a request besides its state.
#[derive(Debug, Clone, Copy, PartialEq, Eq)]
pub struct Metadata {
    /// The device.
    pub device: DeviceId,
    /// The endpoint's byte.
    pub endpoint: u8,
    /// What the endpoint transfers.
    pub transfer_type: TransferType,
    /// Which way data go.
    pub direction: Direction,
    /// How many bytes were asked for.
    pub requested_length: u64,
    /// The SETUP packet of a control transfer.
    pub setup: Option<SetupPacket>,
}

/// A submission that awaits the backend's reply. Its buffer is
/// [`Store::buffer`].
#[derive(Debug, Clone, Copy, PartialEq, Eq)]
#[non_exhaustive]
pub struct Begun {
    /// The request.
    pub id: RequestId,
    /// The row that it has, from 0.
    pub row: u64,
    /// What is asked for.
    pub metadata: Metadata,
}

/// A plan's stages as they go to the backend.
#[derive(Debug, Clone, Copy, PartialEq, Eq)]
#[non_exhaustive]
pub struct Stages {
    /// Whether there is a data stage.
    pub has_data: bool,
    /// The data stage's direction.
    pub data_direction: Direction,
    /// The status stage's direction.
    pub status_direction: Direction,
    /// How strictly the stages were held to the SETUP packet.
    pub profile: ControlProfile,
    /// The SETUP packet as it goes over the wire.
    pub wire_setup: [u8; 8],
}

/// Where a request stands.
#[derive(Debug, Clone, Copy, PartialEq, Eq)]
pub enum State {
    /// The device has it.
    Pending {
        /// Whether it was cancelled and that was not taken back.
        logical_cancel: bool,
        /// Whether it timed out.
        timed_out: bool,
    },
    /// It came to its end.
    Completed {
        /// How many bytes were moved.
        actual_length: u64,
        /// The controller's completion code.
        completion_code: u32,
        /// Whether it was cancelled before.
        logical_cancel: bool,
    },
    /// It failed.
    Failed {
        /// Why.
        error: Error,
        /// The controller's completion code.
        completion_code: Option<u32>,
        /// Whether the device can no longer touch the buffer.
        quiescent: bool,
    },
    /// It was taken back.
    Aborted,
}

/// A report; its bytes, where it is Completed, are those of
/// [`Call::CompletedBytes`].
#[derive(Debug, Clone, Copy, PartialEq, Eq)]
#[non_exhaustive]
pub struct Report {
    /// The request.
    pub id: RequestId,
    /// What was asked for.
    pub metadata: Metadata,
    /// Where it stands.
    pub state: State,
    /// Whether it was cancelled and that was not taken back.
    pub logical_cancel: bool,
    /// Whether it ever timed out.
    pub timed_out: bool,
}

/// A recovery that awaits the backend's reply.
#[derive(Debug, Clone, PartialEq, Eq)]
#[non_exhaustive]
pub struct Recovering {
    /// The request that the call named.
    pub target: RequestId,
    /// Its device.
    pub device: DeviceId,
    /// Its endpoint's byte.
    pub endpoint: u8,
    /// What the backend is to do.
    pub kind: Recovery,
    /// Those of the affected requests, by ascending id.
    pub tokens: Vec<u64>,
}

/// What a recovery did, in the reply's order.
#[derive(Debug, Clone, PartialEq, Eq)]
#[non_exhaustive]
pub struct AbortReport {
    /// The request that the call named.
    pub target: RequestId,
    /// Its device.
    pub device: DeviceId,
    /// Its endpoint's byte.
    pub endpoint: u8,
    /// The requests that are Completed now.
    pub completed: Vec<RequestId>,
    /// The requests that are Aborted now.
    pub aborted: Vec<RequestId>,
    /// Whether the endpoint takes requests again.
    pub restart_ready: bool,
    /// The backend's error, where it stopped halfway.
    pub error: Option<Error>,
}

/// What a call or a question answers.
#[derive(Debug, Clone, PartialEq, Eq)]
#[non_exhaustive]
pub enum Answer {
    /// Nothing was done, but for port readings that were taken, entries of a
    /// recovery's reply before the one that is refused (41, 47, 48), and marks.
    Refused(Refusal),
    /// It was done.
    Passed,
    /// A submission began.
    Begun {
        /// The request.
        begun: Begun,
        /// Whether a list of packets was given.
        packets: bool,
    },
    /// A plan's submission began.
    PlanBegun {
        /// The request.
        begun: Begun,
        /// Its stages.
        stages: Stages,
    },
    /// A report.
    Report(Report),
    /// There is no report, or no further one.
    NoReport,
    /// The backend is to be asked for this token's completion.
    Ask {
        /// The request's token.
        token: u64,
    },
    /// A count.
    Number(u64),
    /// A part of the area.
    Bytes {
        /// Where it begins.
        start: u64,
        /// How many bytes it has.
        length: u64,
    },
    /// A recovery began.
    Recover(Recovering),
    /// A recovery came to its end.
    Recovered(AbortReport),
    /// A session's status.
    Status(SessionStatus),
    /// A report and its place.
    ReportAt {
        /// The row, from 0.
        place: u64,
        /// What is reported of it.
        report: Report,
    },
    /// The reading that a submission lacks, if there is one.
    Wants(Option<Wanted>),
}

/// The library's answer to a call that has no such answers: a fault of it.
pub(crate) fn unexpected(answer: impl Debug) -> ! {
    unreachable!("no answer to this call: {answer:?}")
}
