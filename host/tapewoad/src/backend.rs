//! What the session asks of the host program.
use crate::models::{
    AcquisitionFailure, BackendAbort, BackendCompletion, OperationError, OwnedRequest,
    ValidatedControlPlan, unsupported,
};

/// The backend calls that the ported calls use, under the original's names: of
/// its `ControllerBackend` acquire, initialize and close, of `DeviceBackend`
/// port_status, of `RequestBackend` and `RecoveryBackend` all, of
/// `ExplicitBackend` submit_control_plan.
///
/// They are asked when and as often as the original asks them.
///
/// # Panics of a backend
/// A panic passes through the session's call and may be caught. The session ends
/// what is in flight, so that later calls are answered, and keeps what the device
/// may have.
///
/// * A submission: whether the device has the request is not known. It is reported
///   as Failed and not quiescent, and the controller is RecoveryRequired. It stays
///   held until a close passes, or an abort names it by its token, which is
///   [`PANICKED_TOKEN`](crate::PANICKED_TOKEN).
/// * A poll: as if nothing came. The request stays Pending.
/// * An abort or reset: as if it failed. Every request stays as it is, and the
///   controller is RecoveryRequired.
/// * Any other: as if the call had not been made.
pub trait Backend {
    /// Takes the controller. Asked only while Closed.
    ///
    /// # Errors
    /// Whether it is still owned in part is said with the error.
    fn acquire(&mut self, target: &str) -> Result<(), AcquisitionFailure>;
    /// Initialises it. Asked only in AcquiredUnknown.
    ///
    /// # Errors
    /// What failed; the controller is RecoveryRequired then.
    fn initialize(&mut self) -> Result<(), OperationError>;
    /// Success means that DMA is quiescent, workers stopped and mappings
    /// released. Never asked while Closed.
    ///
    /// # Errors
    /// What failed; the controller is RecoveryRequired then.
    fn close(&mut self) -> Result<(), OperationError>;
    /// A session number that was never used, or none; the original takes it
    /// from its own `identity::fresh`. Asked before `close`.
    fn fresh_identity(&mut self) -> Option<u64>;
    /// The port's status word, by a plain read.
    ///
    /// # Errors
    /// Why it could not be read: the submission is refused (33).
    fn port_status(&self, number: u8) -> Result<u32, OperationError>;
    /// Submits an isochronous request in packets of these lengths.
    ///
    /// # Errors
    /// As [`submit_request`](Self::submit_request).
    fn submit_iso_packets(
        &mut self,
        _request: OwnedRequest,
        _packets: Vec<usize>,
    ) -> Result<u64, OperationError> {
        Err(unsupported("iso packets unavailable in this backend"))
    }
    /// Submits a request and gives its token.
    ///
    /// # Errors
    /// An error promises that nothing was published.
    fn submit_request(&mut self, request: OwnedRequest) -> Result<u64, OperationError>;
    /// Submits a control plan and gives its token.
    ///
    /// # Errors
    /// As [`submit_request`](Self::submit_request).
    fn submit_control_plan(&mut self, plan: ValidatedControlPlan) -> Result<u64, OperationError>;
    /// The completion of the request with this token, if it came.
    ///
    /// # Errors
    /// Why that is not known; the request stays Pending. That it failed is said by
    /// [`BackendCompletion::error`].
    fn poll_request(&mut self, token: u64) -> Result<Option<BackendCompletion>, OperationError>;
    /// Resets an endpoint and gives what became of its requests. `preserve` keeps
    /// the data toggle or sequence number.
    ///
    /// # Errors
    /// As [`abort_endpoint`](Self::abort_endpoint).
    fn reset_endpoint_recovery(
        &mut self,
        _slot: u8,
        _endpoint: u8,
        _preserve: bool,
    ) -> Result<BackendAbort, OperationError> {
        Err(unsupported("endpoint reset unavailable"))
    }
    /// Stops an endpoint and gives what became of its requests.
    ///
    /// # Errors
    /// An error means that nothing is known to be quiescent; progress made before
    /// an error is given with it in [`BackendAbort::error`].
    fn abort_endpoint(&mut self, slot: u8, endpoint: u8) -> Result<BackendAbort, OperationError>;
}
