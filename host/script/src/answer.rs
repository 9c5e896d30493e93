//! Answers: what a call gave, what reached the backend, and the state after.
use crate::values::*;

#[derive(Debug, Clone, PartialEq, Eq)]
pub struct Answer {
    pub outcome: Outcome,
    pub asked: Asked,
    /// The ports that were read, in order.
    pub reads: Vec<u8>,
    pub state: ControllerState,
    pub held: u64,
    pub held_bytes: u64,
}

/// What every answer says of the session as it stands after the call.
#[derive(Debug, Clone, Copy, PartialEq, Eq)]
pub struct Standing {
    pub state: ControllerState,
    pub held: u64,
    pub held_bytes: u64,
}

impl Answer {
    pub fn standing(&self) -> Standing {
        Standing {
            state: self.state,
            held: self.held,
            held_bytes: self.held_bytes,
        }
    }

    /// An outcome that asked the backend nothing and left all as it stood.
    pub fn unchanged(outcome: Outcome, standing: Standing) -> Self {
        Self {
            outcome,
            asked: Asked::Nothing,
            reads: Vec::new(),
            state: standing.state,
            held: standing.held,
            held_bytes: standing.held_bytes,
        }
    }
}

#[derive(Debug, Clone, PartialEq, Eq)]
pub enum Outcome {
    Done,
    Refused { number: u16, error: Error },
    Row(Box<Row>),
    Rows(Vec<Row>),
    Abort(AbortReport),
    Dump(Dump),
}

#[derive(Debug, Clone, PartialEq, Eq)]
pub struct Row {
    pub id: RequestId,
    pub device: DeviceId,
    pub endpoint: u8,
    pub transfer_type: TransferType,
    pub direction: Direction,
    pub length: u64,
    pub setup: Option<Setup>,
    pub state: RowState,
    pub cancel: bool,
    pub timeout: bool,
    pub data: Option<Bytes>,
}

#[derive(Debug, Clone, PartialEq, Eq)]
pub enum RowState {
    Pending {
        cancelled: bool,
        timed_out: bool,
    },
    Completed {
        length: u64,
        code: u32,
        cancelled: bool,
    },
    Failed {
        error: Error,
        code: Option<u32>,
        quiescent: bool,
    },
    Aborted,
}

impl RowState {
    /// Pending, or Failed and not quiescent.
    pub fn is_held(&self) -> bool {
        matches!(
            self,
            Self::Pending { .. }
                | Self::Failed {
                    quiescent: false,
                    ..
                }
        )
    }
}

#[derive(Debug, Clone, PartialEq, Eq)]
pub struct AbortReport {
    pub target: RequestId,
    pub device: DeviceId,
    pub endpoint: u8,
    pub completed: Vec<RequestId>,
    pub aborted: Vec<RequestId>,
    pub ready: bool,
    pub error: Option<Error>,
}

/// What no report shows.
#[derive(Debug, Clone, PartialEq, Eq)]
pub struct Dump {
    pub session: u64,
    pub next: u64,
    pub revision: Option<u64>,
    /// Revision, device and endpoint of the recoverable stall.
    pub stall: Option<(u64, DeviceId, u8)>,
    pub rows: u64,
    pub ports: Option<Ports>,
}

/// The ports' session number, and each port's row.
#[derive(Debug, Clone, PartialEq, Eq)]
pub struct Ports {
    pub session: u64,
    pub rows: Vec<PortRow>,
}

#[derive(Debug, Clone, Copy, PartialEq, Eq)]
pub struct PortRow {
    pub generation: u64,
    pub reading: Option<u32>,
}

/// What reached the backend.
#[derive(Debug, Clone, PartialEq, Eq)]
pub enum Asked {
    Nothing,
    Submit {
        buffer: Bytes,
        packets: Option<Vec<u64>>,
    },
    Plan {
        buffer: Bytes,
        wire: [u8; 8],
        has_data: bool,
        direction: Direction,
        status: Direction,
        compliant: bool,
    },
    Poll {
        token: u64,
    },
    Abort {
        slot: u8,
        endpoint: u8,
    },
    Reset {
        slot: u8,
        endpoint: u8,
        preserve: bool,
    },
}
