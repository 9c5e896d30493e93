//! Aborts and resets.
use super::{Operation, UsbSession, completion};
use crate::backend::Backend;
use crate::calls::{Abort, Answer, Call, Recovery, unexpected};
use crate::models::{AbortReport, BackendAbort, OperationError, RequestId};
use crate::refusal::Refusal;

impl<B: Backend> UsbSession<B> {
    /// Takes back every held request of the target's device and endpoint.
    ///
    /// # Errors
    /// 40 for an unknown target, 43 for one that is not held, 44 where the
    /// controller is neither Initialized nor RecoveryRequired; the backend's error
    /// (45); and what its reply is refused by: 46 for its tokens, 47, 48 and 41 for
    /// a completion, whose predecessors stay applied.
    pub fn abort_request(&mut self, target: RequestId) -> Result<AbortReport, Refusal> {
        self.recover_request(&Call::AbortRequest(target))
    }

    /// Takes them back by a reset of the endpoint, which may bring a controller
    /// that stalled there back to Initialized.
    ///
    /// # Errors
    /// As [`abort_request`](Self::abort_request).
    pub fn reset_endpoint_request(
        &mut self,
        target: RequestId,
        preserve: bool,
    ) -> Result<AbortReport, Refusal> {
        self.recover_request(&Call::ResetEndpointRequest { target, preserve })
    }

    fn recover_request(&mut self, call: &Call<'_>) -> Result<AbortReport, Refusal> {
        let recovery = match self.store.apply(call) {
            Answer::Recover(recovery) => recovery,
            Answer::Refused(refusal) => return Err(self.messages.refusal(refusal)),
            answer => unexpected(answer),
        };
        let (slot, endpoint) = (recovery.device.slot, recovery.endpoint);
        let reply = self.ask(Operation::Recovery, |backend| match recovery.kind {
            Recovery::Abort => backend.abort_endpoint(slot, endpoint),
            Recovery::Reset { preserve } => {
                backend.reset_endpoint_recovery(slot, endpoint, preserve)
            }
        });
        match self.recovery_reply(reply) {
            Answer::Recovered(report) => Ok(AbortReport {
                target: report.target,
                device: report.device,
                endpoint: report.endpoint,
                scope: "endpoint_wide".into(),
                completed: report.completed,
                aborted: report.aborted,
                restart_ready: report.restart_ready,
                error: report.error.map(|error| self.messages.error(error)),
            }),
            Answer::Refused(refusal) => Err(self.messages.refusal(refusal)),
            answer => unexpected(answer),
        }
    }

    fn recovery_reply(&mut self, reply: Result<BackendAbort, OperationError>) -> Answer {
        let (messages, store) = (&mut self.messages, &mut self.store);
        let outcome = match reply {
            Ok(outcome) => outcome,
            Err(error) => return store.apply(&Call::RecoveryReply(Err(messages.numbered(&error)))),
        };
        let completed = outcome.completed.iter();
        let completed: Vec<_> = completed
            .map(|(token, done)| (*token, completion(messages, done)))
            .collect();
        let error = outcome.error.as_ref();
        store.apply(&Call::RecoveryReply(Ok(Abort {
            completed: &completed,
            aborted: &outcome.aborted,
            restart_ready: outcome.restart_ready,
            error: error.map(|error| messages.numbered(error)),
        })))
    }
}
