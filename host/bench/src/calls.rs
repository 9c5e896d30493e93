//! The calls that are timed, and what the three sides know of them.

/// A call as a host program makes it: where the library asks for the backend's
/// reply, the reply is part of it.
#[derive(Debug, Clone, Copy, PartialEq, Eq)]
pub enum Call {
    Open,
    Close,
    Submit(Request),
    /// [`Request::READ`], which the backend refuses.
    SubmitRefused,
    Poll(Reply),
    Cancel,
    Timeout,
    Reclaim,
    Status,
    /// The status of a request that never was.
    StatusUnknown,
    Reports,
    Abort,
    Reset,
    /// [`Request::READ`] submitted, polled as it completes, reclaimed.
    Life,
}

#[derive(Debug, Clone, Copy, PartialEq, Eq)]
pub enum Request {
    In { endpoint: u8, length: usize },
    Out { length: usize },
    Control,
    Plan,
}

impl Request {
    pub const READ: Self = Self::read(512);
    /// One that a recovery of its endpoint takes back.
    pub const STOPPED: Self = Self::In {
        endpoint: STOPPED_ENDPOINT,
        length: 512,
    };

    pub const fn read(length: usize) -> Self {
        Self::In {
            endpoint: IN_ENDPOINT,
            length,
        }
    }
}

/// The backend's reply to a poll.
#[derive(Debug, Clone, Copy, PartialEq, Eq)]
pub enum Reply {
    Nothing,
    /// A completion with so many bytes.
    Completed(usize),
    /// A completion with an error; the buffer is quiescent.
    Failed,
    /// An error in place of a completion; the request stays Pending.
    Refused,
}

impl Call {
    /// Whether it leaves everything as it was when it is made over and over.
    pub fn repeats(self) -> bool {
        matches!(
            self,
            Self::Poll(Reply::Nothing)
                | Self::Cancel
                | Self::Timeout
                | Self::Status
                | Self::StatusUnknown
                | Self::Reports
        )
    }

    /// Whether it takes a sequence number.
    pub fn submits(self) -> bool {
        matches!(self, Self::Submit(_) | Self::SubmitRefused | Self::Life)
    }
}

pub const SESSION: u64 = 1;
/// The number after a close.
pub const FRESH: u64 = 2;
pub const PORTS: u8 = 1;
pub const PORT: u8 = 1;
pub const SLOT: u8 = 1;
/// Of the port and the device.
pub const GENERATION: u64 = 1;
/// The port is connected and enabled, its speed 3 (high).
pub const READING: u32 = 0xc03;
pub const OUT_ENDPOINT: u8 = 0x01;
pub const IN_ENDPOINT: u8 = 0x81;
pub const STOPPED_ENDPOINT: u8 = 0x82;
pub const ENDPOINTS: [u8; 3] = [OUT_ENDPOINT, IN_ENDPOINT, STOPPED_ENDPOINT];
/// Success.
pub const COMPLETED: u32 = 1;
/// Transaction error.
pub const FAILED: u32 = 4;
/// GET_DESCRIPTOR, of a device.
pub const GET_DESCRIPTOR: (u8, u8, u16, u16, u16) = (0x80, 6, 0x100, 0, 18);
/// What a device sends and a host writes.
pub const BYTE: u8 = 0xa5;

/// The backend's token of a request.
pub fn token(sequence: u64) -> u64 {
    sequence + 1_000
}
