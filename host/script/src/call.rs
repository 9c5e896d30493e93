//! Calls, each with the backend's reply that its line brings.
use crate::values::*;

#[derive(Debug, Clone, PartialEq, Eq)]
pub enum Call {
    Open(Open),
    Device {
        id: DeviceId,
        port: PortId,
        state: DeviceState,
    },
    Port {
        number: u8,
        generation: u64,
        reading: Option<u32>,
    },
    Endpoints {
        slot: u8,
        list: Vec<(u8, TransferType)>,
    },
    Raw {
        slot: u8,
        set: bool,
    },
    /// An error comes with the reply's `retained`.
    Acquire(Result<(), (Error, bool)>),
    Initialise(Result<(), Error>),
    Submit(Submit),
    Plan(Plan),
    Poll {
        id: RequestId,
        reply: PollReply,
    },
    Cancel(RequestId),
    Timeout(RequestId),
    Reclaim(RequestId),
    Report(RequestId),
    Reports,
    Recover {
        id: RequestId,
        kind: Recovery,
        reply: AbortReply,
    },
    Close {
        fresh: Option<u64>,
        reply: Result<(), Error>,
    },
    Dump,
    Force(ControllerState),
    /// Only on the port's side.
    Withdraw(RequestId),
    /// Only on the port's side.
    Store {
        rows: u64,
        bytes: u64,
    },
}

impl Call {
    /// The word that begins its line.
    pub fn verb(&self) -> &'static str {
        match self {
            Self::Open(_) => "open",
            Self::Device { .. } => "device",
            Self::Port { .. } => "port",
            Self::Endpoints { .. } => "endpoints",
            Self::Raw { .. } => "raw",
            Self::Acquire(_) => "acquire",
            Self::Initialise(_) => "initialise",
            Self::Submit(_) => "submit",
            Self::Plan(_) => "plan",
            Self::Poll { .. } => "poll",
            Self::Cancel(_) => "cancel",
            Self::Timeout(_) => "timeout",
            Self::Reclaim(_) => "reclaim",
            Self::Report(_) => "report",
            Self::Reports => "reports",
            Self::Recover {
                kind: Recovery::Abort,
                ..
            } => "abort",
            Self::Recover { .. } => "reset",
            Self::Close { .. } => "close",
            Self::Dump => "dump",
            Self::Force(_) => "force",
            Self::Withdraw(_) => "withdraw",
            Self::Store { .. } => "store",
        }
    }
}

#[derive(Debug, Clone, PartialEq, Eq)]
pub struct Open {
    pub session: u64,
    pub sequence: u64,
    pub revision: Option<u64>,
    pub ports: Option<u8>,
}

#[derive(Debug, Clone, PartialEq, Eq)]
pub struct Submit {
    pub device: DeviceId,
    pub endpoint: u8,
    pub transfer_type: TransferType,
    pub direction: Direction,
    pub length: u64,
    pub setup: Option<Setup>,
    pub data: Data,
    pub packets: Option<Vec<u64>>,
    pub readings: [Reading; 2],
    pub reply: Result<u64, Error>,
}

#[derive(Debug, Clone, PartialEq, Eq)]
pub struct Plan {
    pub device: DeviceId,
    pub profile: Profile,
    pub setup: Setup,
    pub stage: Option<(Direction, u64)>,
    pub status: Option<Direction>,
    pub data: Data,
    pub reading: Reading,
    pub reply: Result<u64, Error>,
}

#[derive(Debug, Clone, PartialEq, Eq)]
pub struct Completion {
    pub length: Option<u64>,
    pub code: Option<u32>,
    pub data: Option<Data>,
    pub error: Option<Error>,
    pub quiescent: bool,
}

pub type PollReply = Result<Option<Completion>, Error>;

#[derive(Debug, Clone, Copy, PartialEq, Eq)]
pub enum Recovery {
    Abort,
    Reset { preserve: bool },
}

/// An error, or what the backend says of the affected tokens.
pub type AbortReply = Result<AbortResult, Error>;

#[derive(Debug, Clone, PartialEq, Eq)]
pub struct AbortResult {
    pub completed: Vec<(u64, Completion)>,
    pub aborted: Vec<u64>,
    pub ready: bool,
    pub error: Option<Error>,
}
