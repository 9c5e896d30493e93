//! Answers' words to reports. They are read in line: a report is written where it
//! will stand, and not copied on the way.
use super::UsbSession;
use crate::backend::Backend;
use crate::calls::{self, Answered, unexpected};
use crate::models::{RequestId, RequestMetadata, RequestReport, RequestState};
use crate::refusal::Refusal;

impl<B: Backend> UsbSession<B> {
    /// Runs a call that answers with a report.
    #[inline(always)]
    pub(super) fn report_of(&mut self, call: &[u64]) -> Result<RequestReport, Refusal> {
        self.store.run(call, &[]);
        self.reported(self.store.answered())
    }

    /// The report or refusal.
    pub(super) fn reported(&self, answer: &Answered) -> Result<RequestReport, Refusal> {
        self.reported_with(answer, |id, length| self.completed_bytes(id, length))
    }

    /// The refusal, where that is the answer.
    #[cold]
    pub(super) fn refused(&self, answer: &Answered) -> Refusal {
        self.messages.refusal(answer.refusal())
    }

    /// The report or refusal; `bytes` are its request's, where it is Completed.
    #[inline(always)]
    pub(super) fn reported_with(
        &self,
        answer: &Answered,
        bytes: impl FnOnce(RequestId, u64) -> Vec<u8>,
    ) -> Result<RequestReport, Refusal> {
        match answer.report() {
            Some(report) => Ok(self.report(report, bytes)),
            None => Err(self.refused(answer)),
        }
    }

    /// The bytes of a Completed request, so many.
    #[inline(never)]
    fn completed_bytes(&self, id: RequestId, length: u64) -> Vec<u8> {
        match self.places.row(id) {
            Some(row) => self.store.row_part(row, length).to_vec(),
            None => self
                .found_bytes(id)
                .unwrap_or_else(|refusal| unexpected(refusal)),
        }
    }

    pub(super) fn found_bytes(&self, id: RequestId) -> Result<Vec<u8>, calls::Refusal> {
        self.store.completed_bytes(id).map(<[u8]>::to_vec)
    }

    /// A report; `bytes` are its request's, where it is Completed.
    #[inline(always)]
    pub(super) fn report(
        &self,
        report: calls::Report,
        bytes: impl FnOnce(RequestId, u64) -> Vec<u8>,
    ) -> RequestReport {
        let id = report.id;
        let state = self.request_state(report.state);
        let data = match report.state {
            calls::State::Completed { actual_length, .. } => Some(bytes(id, actual_length)),
            _ => None,
        };
        RequestReport {
            id,
            metadata: metadata(&report.metadata),
            state,
            logical_cancel: report.logical_cancel,
            timed_out: report.timed_out,
            data,
        }
    }

    #[inline(always)]
    fn request_state(&self, state: calls::State) -> RequestState {
        match state {
            calls::State::Pending {
                logical_cancel,
                timed_out,
            } => RequestState::Pending {
                logical_cancel,
                timed_out,
            },
            calls::State::Completed {
                actual_length,
                completion_code,
                logical_cancel,
            } => RequestState::Completed {
                actual_length: actual_length as usize,
                completion_code,
                logical_cancel,
            },
            calls::State::Failed {
                error,
                completion_code,
                quiescent,
            } => RequestState::Failed {
                error: self.messages.error(error),
                completion_code,
                quiescent,
            },
            calls::State::Aborted => RequestState::Aborted,
        }
    }
}

/// Lengths in the library are those of a buffer in memory.
#[inline(always)]
pub(super) fn metadata(metadata: &calls::Metadata) -> RequestMetadata {
    RequestMetadata {
        device: metadata.device,
        endpoint: metadata.endpoint,
        transfer_type: metadata.transfer_type,
        direction: metadata.direction,
        requested_length: metadata.requested_length as usize,
        setup: metadata.setup,
    }
}
