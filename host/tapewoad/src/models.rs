//! The original's types, under its names.

/// Where the controller is in its life.
#[derive(Debug, Clone, Copy, PartialEq, Eq)]
pub enum ControllerState {
    /// No controller is owned.
    Closed,
    /// A controller is owned; what it does is not known.
    AcquiredUnknown,
    /// Requests are taken.
    Initialized,
    /// It is being closed; no ported call ends here.
    Closing,
    /// Something failed: submissions, and polls of Pending requests, are refused
    /// (28) until a reset or a close brings it back.
    RecoveryRequired,
}

/// How far a device is prepared.
#[derive(Debug, Clone, Copy, PartialEq, Eq)]
pub enum DeviceState {
    /// Its port shows a connection.
    Observed,
    /// Its port was reset.
    PortReset,
    /// It has a slot.
    SlotEnabled,
    /// It answers at address 0.
    DefaultAddress,
    /// It has an address.
    Addressed,
    /// It has a configuration: endpoints other than 0 may be used.
    Configured,
    /// Its port lost the connection.
    Disconnected,
}

/// What kind of error it is.
#[derive(Debug, Clone, Copy, PartialEq, Eq)]
pub enum ErrorCategory {
    /// The call was wrong.
    Validation,
    /// The call asks for what is not supported.
    Unsupported,
    /// The operating system refused.
    OperatingSystem,
    /// The controller reported an error.
    Controller,
    /// It took too long.
    Timeout,
    /// The device is gone.
    Disconnect,
    /// What the device still owns is not known.
    RecoveryRequired,
}

/// An error of the backend, or a refusal's.
#[derive(Debug, Clone, PartialEq, Eq)]
#[non_exhaustive]
pub struct OperationError {
    /// What kind of error it is.
    pub category: ErrorCategory,
    /// The text. Equal texts have one number inside the library (see
    /// [`UsbSession`](crate::UsbSession)).
    pub message: String,
    /// The operating system's number.
    pub os_code: Option<i32>,
    /// The controller's completion code.
    pub completion_code: Option<u32>,
}

impl OperationError {
    /// An error without codes.
    pub fn new(category: ErrorCategory, message: impl Into<String>) -> Self {
        Self {
            category,
            message: message.into(),
            os_code: None,
            completion_code: None,
        }
    }

    /// An error of the category Validation, without codes.
    pub fn validation(message: impl Into<String>) -> Self {
        Self::new(ErrorCategory::Validation, message)
    }

    /// The same with the operating system's number.
    #[must_use]
    pub fn with_os_code(self, code: i32) -> Self {
        let os_code = Some(code);
        Self { os_code, ..self }
    }

    /// The same with the controller's completion code.
    #[must_use]
    pub fn with_completion_code(self, code: u32) -> Self {
        let completion_code = Some(code);
        Self {
            completion_code,
            ..self
        }
    }
}

impl std::fmt::Display for OperationError {
    fn fmt(&self, f: &mut std::fmt::Formatter<'_>) -> std::fmt::Result {
        write!(f, "{:?}: {}", self.category, self.message)
    }
}

impl std::error::Error for OperationError {}

/// An error of the category Unsupported, without codes.
pub fn unsupported(message: &str) -> OperationError {
    OperationError::new(ErrorCategory::Unsupported, message)
}

/// A failed acquire.
#[derive(Debug, Clone, PartialEq, Eq)]
pub struct AcquisitionFailure {
    /// Why it failed.
    pub error: OperationError,
    /// Whether anything with uncertain ownership remains.
    pub retained: bool,
}

/// What a session begins with.
#[derive(Debug, Clone, Copy, PartialEq, Eq)]
#[non_exhaustive]
pub struct Opening {
    /// The session number of the first ledger, and of every port id.
    pub session: u64,
    /// The first request's sequence number.
    pub first_sequence: u64,
    /// The recovery revision; none for ever where none.
    pub recovery_revision: Option<u64>,
    /// How many ports there are; none where ports are unavailable.
    pub ports: Option<u8>,
}

impl Opening {
    /// The original's beginning: sequence 0 and revision 0.
    pub fn new(session: u64, ports: Option<u8>) -> Self {
        Self {
            session,
            first_sequence: 0,
            recovery_revision: Some(0),
            ports,
        }
    }

    /// The same with another first sequence number.
    #[must_use]
    pub fn with_first_sequence(self, first_sequence: u64) -> Self {
        Self {
            first_sequence,
            ..self
        }
    }

    /// The same with another recovery revision.
    #[must_use]
    pub fn with_recovery_revision(self, recovery_revision: Option<u64>) -> Self {
        Self {
            recovery_revision,
            ..self
        }
    }
}

/// Names a request; ordered as reports are.
#[derive(Debug, Clone, Copy, PartialEq, Eq, PartialOrd, Ord, Hash)]
pub struct RequestId {
    /// The ledger's session number.
    pub session: u64,
    /// The generation within it; 0.
    pub generation: u64,
    /// The place in the order of submission.
    pub sequence: u64,
}

/// Names a device.
#[derive(Debug, Clone, Copy, PartialEq, Eq, Hash)]
pub struct DeviceId {
    /// The session that found it.
    pub session: u64,
    /// Tells it from an earlier device of the slot.
    pub generation: u64,
    /// The controller's slot.
    pub slot: u8,
}

/// Names a port in the epoch between two changes of its connection.
#[derive(Debug, Clone, Copy, PartialEq, Eq, Hash)]
pub struct PortId {
    /// The opening's session number.
    pub session: u64,
    /// Rises with every change of the connection.
    pub generation: u64,
    /// The root port, from 1.
    pub number: u8,
}

/// A device as it is placed. The original's field `configuration` is read by no
/// ported call.
#[derive(Debug, Clone, Copy, PartialEq, Eq)]
pub struct DeviceSnapshot {
    /// Its name.
    pub id: DeviceId,
    /// The port that it is at.
    pub port: PortId,
    /// How far it is prepared.
    pub state: DeviceState,
}

/// An endpoint as it is placed: of the original's `EndpointSnapshot` what
/// ported calls read.
#[derive(Debug, Clone, Copy, PartialEq, Eq)]
pub struct Endpoint {
    /// The endpoint's byte: its number, and 80h for IN.
    pub address: u8,
    /// What it transfers.
    pub transfer_type: TransferType,
}

/// Which way data go.
#[derive(Debug, Clone, Copy, PartialEq, Eq)]
pub enum Direction {
    /// From the device to the host.
    In,
    /// From the host to the device.
    Out,
}

/// USB's four kinds of transfer.
#[derive(Debug, Clone, Copy, PartialEq, Eq)]
pub enum TransferType {
    /// With a SETUP packet.
    Control,
    /// Any amount, when the bus has room.
    Bulk,
    /// Little, within a known time.
    Interrupt,
    /// At a fixed rate, without repetition.
    Isochronous,
}

/// The SETUP packet of a control transfer.
#[derive(Debug, Clone, Copy, PartialEq, Eq)]
pub struct SetupPacket {
    /// bmRequestType: direction, type and recipient.
    pub request_type: u8,
    /// bRequest.
    pub request: u8,
    /// wValue.
    pub value: u16,
    /// wIndex.
    pub index: u16,
    /// wLength.
    pub length: u16,
}

/// What is to be submitted.
#[derive(Debug, Clone, PartialEq, Eq)]
pub struct RequestSpec {
    /// The device.
    pub device: DeviceId,
    /// The endpoint's byte.
    pub endpoint: u8,
    /// What the endpoint transfers.
    pub transfer_type: TransferType,
    /// Which way data go.
    pub direction: Direction,
    /// How many bytes are asked for.
    pub length: usize,
    /// The SETUP packet of a control transfer.
    pub setup: Option<SetupPacket>,
    /// The bytes of an OUT request; empty for IN.
    pub data: Vec<u8>,
}

/// What a report says of a request besides its state.
#[derive(Debug, Clone, Copy, PartialEq, Eq)]
pub struct RequestMetadata {
    /// The device.
    pub device: DeviceId,
    /// The endpoint's byte.
    pub endpoint: u8,
    /// What the endpoint transfers.
    pub transfer_type: TransferType,
    /// Which way data go.
    pub direction: Direction,
    /// How many bytes were asked for.
    pub requested_length: usize,
    /// The SETUP packet of a control transfer.
    pub setup: Option<SetupPacket>,
}

/// A request that passed every check, handed to the backend with its buffer.
#[derive(Debug, Clone, PartialEq, Eq)]
pub struct OwnedRequest {
    /// What is asked for.
    pub metadata: RequestMetadata,
    /// Zeros for IN, the data for OUT.
    pub buffer: Vec<u8>,
}

/// What the backend says of a request that came to its end.
#[derive(Debug, Clone, PartialEq, Eq)]
pub struct BackendCompletion {
    /// How many bytes were moved.
    pub actual_length: Option<usize>,
    /// The controller's completion code.
    pub completion_code: Option<u32>,
    /// The bytes, as many as moved, for OUT too.
    pub data: Option<Vec<u8>>,
    /// Why it failed.
    pub error: Option<OperationError>,
    /// Whether the device can no longer touch the buffer.
    pub quiescent: bool,
}

/// Where a request stands.
#[derive(Debug, Clone, PartialEq, Eq)]
pub enum RequestState {
    /// The device has it.
    Pending {
        /// Whether it was cancelled and that was not taken back.
        logical_cancel: bool,
        /// Whether it timed out.
        timed_out: bool,
    },
    /// It came to its end.
    Completed {
        /// How many bytes were moved.
        actual_length: usize,
        /// The controller's completion code.
        completion_code: u32,
        /// Whether it was cancelled before.
        logical_cancel: bool,
    },
    /// It failed.
    Failed {
        /// Why.
        error: OperationError,
        /// The controller's completion code.
        completion_code: Option<u32>,
        /// Whether the device can no longer touch the buffer.
        quiescent: bool,
    },
    /// It was taken back.
    Aborted,
}

impl RequestState {
    /// Whether the request is held: Pending, or Failed and not quiescent.
    pub fn device_may_access(&self) -> bool {
        matches!(
            self,
            Self::Pending { .. }
                | Self::Failed {
                    quiescent: false,
                    ..
                }
        )
    }
}

/// A report of one request.
#[derive(Debug, Clone, PartialEq, Eq)]
#[non_exhaustive]
pub struct RequestReport {
    /// Its name.
    pub id: RequestId,
    /// What was asked for.
    pub metadata: RequestMetadata,
    /// Where it stands.
    pub state: RequestState,
    /// Whether it was cancelled and that was not taken back.
    pub logical_cancel: bool,
    /// Whether it ever timed out.
    pub timed_out: bool,
    /// The bytes of a Completed request.
    pub data: Option<Vec<u8>>,
}

/// What the backend says of an endpoint that it stopped or reset.
#[derive(Debug, Clone, PartialEq, Eq)]
pub struct BackendAbort {
    /// Tokens of requests that came to their end before, with what came of them.
    pub completed: Vec<(u64, BackendCompletion)>,
    /// Tokens of requests that were taken back.
    pub aborted: Vec<u64>,
    /// Whether the endpoint takes requests again.
    pub restart_ready: bool,
    /// What failed after the stop.
    pub error: Option<OperationError>,
}

/// A report of an abort or reset, which concerns every held request of the
/// target's device and endpoint.
#[derive(Debug, Clone, PartialEq, Eq)]
#[non_exhaustive]
pub struct AbortReport {
    /// The request that the call named.
    pub target: RequestId,
    /// Its device.
    pub device: DeviceId,
    /// Its endpoint's byte.
    pub endpoint: u8,
    /// Always "endpoint_wide".
    pub scope: String,
    /// The requests that are Completed now, in the backend's order.
    pub completed: Vec<RequestId>,
    /// The requests that are Aborted now, in the backend's order.
    pub aborted: Vec<RequestId>,
    /// Whether the endpoint takes requests again.
    pub restart_ready: bool,
    /// The backend's error, where it stopped halfway.
    pub error: Option<OperationError>,
}

/// How strictly a control plan's stages are held to its SETUP packet.
#[derive(Debug, Clone, Copy, PartialEq, Eq)]
pub enum ControlProfile {
    /// The stages are those that the SETUP packet means.
    Compliant,
    /// They may differ from it.
    DeviceCompatibility,
}

/// A control plan's data stage.
#[derive(Debug, Clone, Copy, PartialEq, Eq)]
pub struct DataStage {
    /// Which way its data go.
    pub direction: Direction,
    /// How many bytes it has.
    pub length: usize,
}

/// A control transfer with every stage said.
#[derive(Debug, Clone, PartialEq, Eq)]
pub struct ControlPlan {
    /// The device.
    pub device: DeviceId,
    /// How strictly the stages are held to the SETUP packet.
    pub profile: ControlProfile,
    /// The SETUP packet.
    pub setup: SetupPacket,
    /// The data stage, if there is one.
    pub data_stage: Option<DataStage>,
    /// The status stage's direction; a plan without one is refused (18).
    pub status_direction: Option<Direction>,
    /// The bytes of an OUT stage; empty otherwise.
    pub data: Vec<u8>,
}

/// A plan that passed every check, handed to the backend with its buffer.
#[derive(Debug, Clone, PartialEq, Eq)]
pub struct ValidatedControlPlan {
    /// What is asked for.
    pub metadata: RequestMetadata,
    /// Zeros for IN, the data for OUT.
    pub buffer: Vec<u8>,
    /// The SETUP packet as it goes over the wire.
    pub wire_setup: [u8; 8],
    /// Whether there is a data stage.
    pub has_data: bool,
    /// The data stage's direction.
    pub data_direction: Direction,
    /// The status stage's direction.
    pub status_direction: Direction,
    /// How strictly the stages were held to the SETUP packet.
    pub profile: ControlProfile,
}
