#![doc = include_str!("../README.md")]
//!
//! ## The layers
//!
//! * [`UsbSession`] has the original's methods and types over a [`Backend`]:
//!   what a host program uses.
//! * [`calls`] is the layer beneath: every call and answer by itself, a
//!   submission, a poll and a recovery as two calls, their reply being the second.
//! * [`library`] has the C functions as safe ones; the only module with unsafe
//!   code.
//!
//! What a host program must adapt, and what was compared with the original, is
//! in the repository's docs/DIFFERENCES.md; the words are in docs/CALLS.md.
pub mod calls;
pub mod library;

mod backend;
mod models;
mod refusal;
mod session;

pub use backend::Backend;
pub use models::{
    AbortReport, AcquisitionFailure, BackendAbort, BackendCompletion, ControlPlan, ControlProfile,
    ControllerState, DataStage, DeviceId, DeviceSnapshot, DeviceState, Direction, Endpoint,
    ErrorCategory, Opening, OperationError, OwnedRequest, PortId, RequestId, RequestMetadata,
    RequestReport, RequestSpec, RequestState, SetupPacket, TransferType, ValidatedControlPlan,
    unsupported,
};
pub use refusal::Refusal;
pub use session::{PANICKED_TOKEN, UsbSession};
