//! What ends an operation whose backend panicked.
use crate::calls::{Call, Completion, Store};
use crate::models::{ErrorCategory, OperationError, RequestId};
use crate::refusal::Messages;

/// The token of a request whose backend panicked while it was submitted. A
/// backend gives it to no request of its own; one that knows such a request to be
/// gone may name it among [`BackendAbort::aborted`](crate::BackendAbort::aborted).
pub const PANICKED_TOKEN: u64 = u64::MAX;

/// What the backend is asked about.
pub(super) enum Operation {
    Submission(RequestId),
    Poll,
    Recovery,
}

/// An operation that awaits the backend's reply. It is forgotten when that comes;
/// dropped, since the backend panicked, it ends the operation itself.
pub(super) struct InFlight<'a> {
    pub store: &'a mut Store,
    pub messages: &'a mut Messages,
    pub operation: Operation,
}

impl InFlight<'_> {
    /// Whether the device has the request is not known: it stays held, Failed and
    /// not quiescent, and recovery is marked.
    fn end_submission(&mut self, id: RequestId) {
        let error = panicked("the backend panicked in a submission");
        let failed = Completion {
            actual_length: None,
            completion_code: None,
            data: None,
            error: Some(self.messages.numbered(&error)),
            quiescent: false,
        };
        self.store.apply(&Call::SubmitReply(Ok(PANICKED_TOKEN)));
        self.store.apply(&Call::PollRequest(id));
        self.store.apply(&Call::PollReply(Ok(Some(failed))));
    }

    /// Nothing is known of the endpoint: every request stays as it is, and
    /// recovery is marked.
    fn end_recovery(&mut self) {
        let error = panicked("the backend panicked in a recovery");
        let error = self.messages.numbered(&error);
        self.store.apply(&Call::RecoveryReply(Err(error)));
    }
}

impl Drop for InFlight<'_> {
    fn drop(&mut self) {
        match self.operation {
            Operation::Submission(id) => self.end_submission(id),
            // Nothing came: the request stays Pending.
            Operation::Poll => {
                self.store.apply(&Call::PollReply(Ok(None)));
            }
            Operation::Recovery => self.end_recovery(),
        }
    }
}

fn panicked(message: &str) -> OperationError {
    OperationError::new(ErrorCategory::RecoveryRequired, message)
}
