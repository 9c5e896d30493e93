//! The original's session over a backend, with the library beneath.
mod in_flight;
mod places;
mod recovery;
mod reports;

use std::fmt::{self, Debug, Formatter};

use crate::backend::Backend;
use crate::calls::encode::{
    LOGICAL_CANCEL_REQUEST, NOTHING_CAME, POLL_REQUEST, RECLAIM_REQUEST, REPORT_FROM,
    REQUEST_STATUS, SUBMIT_CONTROL_PLAN, SUBMIT_REQUEST_PACKETS, TIMEOUT_REQUEST,
    WITHDRAW_CANCEL_REQUEST, completed, of, poll_failed, submit_reply,
};
use crate::calls::{
    self, Answer, Answered, Call, Plan, Question, Store, Submit, Words, unexpected,
};
use crate::models::{
    BackendCompletion, ControlPlan, ControllerState, DeviceSnapshot, Direction, Endpoint, Opening,
    OwnedRequest, RequestId, RequestMetadata, RequestReport, RequestSpec, TransferType,
    ValidatedControlPlan,
};
use crate::refusal::{Messages, Refusal, UNREAD};
use in_flight::{InFlight, Operation};
use places::Places;
use reports::metadata;

pub use in_flight::PANICKED_TOKEN;

/// A session that owns its rows, the bus and their bytes, and a backend.
///
/// Its methods are the original's, and are refused as the original's are; a
/// [`Refusal`] has the number of document 01's table beside the error, and turns
/// into the error alone by `?`. Ports, devices, endpoints and marks are placed
/// by the four `set_` calls, since the commands that find them are not ported.
///
/// A backend's message texts come back as they were: each different text is
/// kept under a number of its own, up to some 64,000 of them.
///
/// A backend that panics leaves nothing in flight (see [`Backend`]).
///
/// Like the original it forgets its backend, without dropping it, where it is
/// dropped before a close passed: what the device may still touch must stay.
pub struct UsbSession<B: Backend> {
    backend: Option<B>,
    store: Store,
    places: Places,
    messages: Messages,
}

impl<B: Backend> UsbSession<B> {
    /// A session over 1,024 rows of 65,536 bytes, as the original has them.
    ///
    /// # Panics
    /// If the library is of another version, or so much memory can't be had.
    pub fn new(backend: B, opening: Opening) -> Self {
        Self::with_store(backend, opening, Store::ROWS, Store::ROW_BYTES)
            .unwrap_or_else(|refusal| unexpected(refusal))
    }

    /// A session over a smaller store.
    ///
    /// # Errors
    /// 3 where it has not 1 to 1,024 rows of 1 to 65,536 bytes.
    ///
    /// # Panics
    /// As [`new`](Self::new).
    pub fn with_store(
        backend: B,
        opening: Opening,
        rows: usize,
        row_bytes: usize,
    ) -> Result<Self, Refusal> {
        let messages = Messages::default();
        let mut store = Store::new(rows, row_bytes);
        match store.open(opening) {
            Answer::Passed => {}
            Answer::Refused(refusal) => return Err(messages.refusal(refusal)),
            answer => unexpected(answer),
        }
        Ok(Self {
            backend: Some(backend),
            store,
            places: Places::new(),
            messages,
        })
    }

    /// The session number of the ledger.
    pub fn identity(&self) -> u64 {
        self.store.status().session
    }

    /// Where the controller is in its life.
    pub fn state(&self) -> ControllerState {
        self.store.status().state
    }

    /// The backend.
    pub fn backend(&self) -> &B {
        self.backend.as_ref().expect(TAKEN_BY_DROP)
    }

    /// The backend, for what is not ported.
    pub fn backend_mut(&mut self) -> &mut B {
        self.backend.as_mut().expect(TAKEN_BY_DROP)
    }

    /// The memory beneath: the session's status, ports and bytes.
    pub fn store(&self) -> &Store {
        &self.store
    }

    /// The memory beneath, for calls of the lower layer. What is begun by these
    /// must be ended by these: until then the session's own calls but reports are
    /// refused (1).
    pub fn store_mut(&mut self) -> &mut Store {
        // It may be opened anew, with the same ids in other rows.
        self.places.forget();
        &mut self.store
    }

    /// Places a device, in place of its slot's.
    ///
    /// # Errors
    /// None of its own.
    pub fn set_device(&mut self, device: DeviceSnapshot) -> Result<(), Refusal> {
        self.done(&Call::SetDevice(device))
    }

    /// Places a port's generation and last reading.
    ///
    /// # Errors
    /// 29 without ports, 30 where this is none of them.
    pub fn set_port(
        &mut self,
        number: u8,
        generation: u64,
        reading: Option<u32>,
    ) -> Result<(), Refusal> {
        self.done(&Call::SetPort {
            number,
            generation,
            reading,
        })
    }

    /// Places up to 30 endpoints, in place of the slot's list.
    ///
    /// # Errors
    /// 53 where there are more.
    pub fn set_endpoints(&mut self, slot: u8, endpoints: &[Endpoint]) -> Result<(), Refusal> {
        self.done(&Call::SetEndpoints { slot, endpoints })
    }

    /// Sets or clears the mark "requires raw reconciliation" of a slot.
    ///
    /// # Errors
    /// None of its own.
    pub fn set_reconcile(&mut self, slot: u8, set: bool) -> Result<(), Refusal> {
        self.done(&Call::SetReconcile { slot, set })
    }

    /// The original's `Session::acquire`.
    ///
    /// # Errors
    /// 50 where it is not Closed, and the backend's error (45).
    pub fn acquire(&mut self, target: &str) -> Result<(), Refusal> {
        let mut reply = Ok(());
        if self.state() == ControllerState::Closed {
            reply = self.backend_mut().acquire(target);
        }
        let reply = reply.map_err(|it| (self.messages.numbered(&it.error), it.retained));
        self.done(&Call::Acquire(reply))
    }

    /// The original's `Session::initialize`.
    ///
    /// # Errors
    /// 51 where it is not AcquiredUnknown, and the backend's error (45).
    pub fn initialize(&mut self) -> Result<(), Refusal> {
        let mut reply = Ok(());
        if self.state() == ControllerState::AcquiredUnknown {
            reply = self.backend_mut().initialize();
        }
        let reply = reply.map_err(|error| self.messages.numbered(&error));
        self.done(&Call::Initialize(reply))
    }

    /// The original's `Session::close`; one that passes also empties the rows.
    ///
    /// # Errors
    /// 52 without a fresh session number, and the backend's error (45). A session
    /// that is Closed is not refused.
    pub fn close(&mut self) -> Result<(), Refusal> {
        let (mut fresh, mut reply) = (None, Ok(()));
        if self.state() != ControllerState::Closed {
            fresh = self.backend_mut().fresh_identity();
            if fresh.is_some() {
                reply = self.backend_mut().close();
            }
        }
        let reply = reply.map_err(|error| self.messages.numbered(&error));
        self.done(&Call::Close { fresh, reply })
    }

    /// Submits a request without a list of packets.
    ///
    /// # Errors
    /// As [`submit_request_packets`](Self::submit_request_packets), but for 4.
    pub fn submit_request(&mut self, spec: RequestSpec) -> Result<RequestReport, Refusal> {
        self.submit_request_packets(spec, None)
    }

    /// Submits a request; an isochronous one may have a list of packet lengths.
    ///
    /// # Errors
    /// By the packets (4), the capacity (5), the request itself (6 to 17), its
    /// device and port (26 to 38, 58) and the sequence numbers (39); the
    /// backend's error is 45, and 33 where it is of a port's reading.
    pub fn submit_request_packets(
        &mut self,
        spec: RequestSpec,
        packets: Option<Vec<usize>>,
    ) -> Result<RequestReport, Refusal> {
        let lengths: Option<Vec<u64>> = packets
            .as_ref()
            .map(|list| list.iter().map(|length| *length as u64).collect());
        let control = spec.transfer_type == TransferType::Control;
        let wants = Question::SubmitWants(submit(&spec, lengths.as_deref()));
        let mut words = wants.encode();
        self.give_readings(if control { 1 } else { 2 }, &mut words, &spec.data);
        words.become_call(SUBMIT_REQUEST_PACKETS);
        let Some(begun) = self.store.run(&words, &spec.data).begun() else {
            return Err(self.refused(self.store.answered()));
        };
        self.places.note(begun.id, begun.row);
        let metadata = metadata(&begun.metadata);
        let buffer = buffer(&metadata, spec.data);
        let request = OwnedRequest { metadata, buffer };
        let reply = self.ask(Operation::Submission(begun.id), |backend| match packets {
            Some(packets) => backend.submit_iso_packets(request, packets),
            None => backend.submit_request(request),
        });
        self.submit_reply(reply)
    }

    /// Submits a control transfer with every stage said.
    ///
    /// # Errors
    /// By the capacity (5), the plan itself (6, 7, 18 to 25), its device and port
    /// (26 to 35) and the sequence numbers (39); the backend's error is 45, and 33
    /// where it is of a port's reading.
    pub fn submit_control_plan(&mut self, plan: ControlPlan) -> Result<RequestReport, Refusal> {
        let mut words = Question::PlanWants(submit_plan(&plan)).encode();
        self.give_readings(1, &mut words, &plan.data);
        words.become_call(SUBMIT_CONTROL_PLAN);
        let Some((begun, stages)) = self.store.run(&words, &plan.data).plan_begun() else {
            return Err(self.refused(self.store.answered()));
        };
        self.places.note(begun.id, begun.row);
        let metadata = metadata(&begun.metadata);
        let plan = ValidatedControlPlan {
            metadata,
            buffer: buffer(&metadata, plan.data),
            wire_setup: stages.wire_setup,
            has_data: stages.has_data,
            data_direction: stages.data_direction,
            status_direction: stages.status_direction,
            profile: stages.profile,
        };
        let reply = self.ask(Operation::Submission(begun.id), |backend| {
            backend.submit_control_plan(plan)
        });
        self.submit_reply(reply)
    }

    /// Asks the backend for a Pending request's completion; reports any other.
    ///
    /// # Errors
    /// 40 for an unknown request; 28 for a Pending one where the controller is not
    /// Initialized; the backend's error (45).
    pub fn poll_request(&mut self, id: RequestId) -> Result<RequestReport, Refusal> {
        let answer = self.store.run(&of(POLL_REQUEST, id), &[]);
        let Some(token) = answer.token() else {
            return self.reported(self.store.answered());
        };
        match self.ask(Operation::Poll, |backend| backend.poll_request(token)) {
            Ok(None) => self.report_of(&NOTHING_CAME),
            Ok(Some(done)) => self.completed(done),
            Err(error) => {
                let error = self.messages.numbered(&error);
                self.report_of(&poll_failed(&error))
            }
        }
    }

    /// Ends a poll by a completion. One that is taken has its data with it.
    fn completed(&mut self, done: BackendCompletion) -> Result<RequestReport, Refusal> {
        let completion = completion(&mut self.messages, &done);
        let data = completion.data.unwrap_or_default();
        self.store.run(&completed(&completion), data);
        let answer = self.store.answered();
        self.reported_with(answer, |_, _| done.data.unwrap_or_default())
    }

    /// Flags a Pending request as cancelled; the device goes on.
    ///
    /// # Errors
    /// 40 for an unknown request, 41 for one that is not Pending.
    pub fn logical_cancel_request(&mut self, id: RequestId) -> Result<RequestReport, Refusal> {
        self.report_of(&of(LOGICAL_CANCEL_REQUEST, id))
    }

    /// Takes back a Pending request's cancel. A timeout stays.
    ///
    /// # Errors
    /// 40 for an unknown request, 41 for one that is not Pending, 59 for one
    /// that is not cancelled.
    pub fn withdraw_cancel_request(&mut self, id: RequestId) -> Result<RequestReport, Refusal> {
        self.report_of(&of(WITHDRAW_CANCEL_REQUEST, id))
    }

    /// Flags a Pending request as timed out; the device goes on.
    ///
    /// # Errors
    /// 40 for an unknown request, 41 for one that is not Pending.
    pub fn timeout_request(&mut self, id: RequestId) -> Result<RequestReport, Refusal> {
        self.report_of(&of(TIMEOUT_REQUEST, id))
    }

    /// Frees the row of a request that is no longer held, and reports it.
    ///
    /// # Errors
    /// 40 for an unknown request, 42 for one that is held.
    pub fn reclaim_request(&mut self, id: RequestId) -> Result<RequestReport, Refusal> {
        let row = self.places.row(id);
        // Where its row is not known, its bytes are taken while it is there.
        let taken = match row {
            Some(_) => Vec::new(),
            None => self.found_bytes(id).unwrap_or_default(),
        };
        self.store.run(&of(RECLAIM_REQUEST, id), &[]);
        let store = &self.store;
        self.reported_with(store.answered(), |_, length| match row {
            Some(row) => store.row_part(row, length).to_vec(),
            None => taken,
        })
    }

    /// Reports a request.
    ///
    /// # Errors
    /// 40 for an unknown one.
    pub fn request_status(&self, id: RequestId) -> Result<RequestReport, Refusal> {
        let mut answer = Answered::EMPTY;
        self.store.look(&of(REQUEST_STATUS, id), &[], &mut answer);
        self.reported(&answer)
    }

    /// Reports every request, by ascending id.
    ///
    /// # Errors
    /// None of its own.
    pub fn request_reports(&self) -> Result<Vec<RequestReport>, Refusal> {
        let (mut reports, mut next) = (Vec::with_capacity(FEW), 0);
        let mut answer = Answered::EMPTY;
        loop {
            self.store.look(&[REPORT_FROM, next], &[], &mut answer);
            let Some((place, report)) = answer.report_at() else {
                break;
            };
            next = place + 1;
            let bytes = |_, length| self.store.row_part(place, length).to_vec();
            reports.push(self.report(report, bytes));
        }
        if !answer.is_no_report() {
            return Err(self.refused(&answer));
        }
        reports.sort_unstable_by_key(|report| report.id);
        Ok(reports)
    }

    /// How many requests are held: at most 128.
    pub fn held_count(&self) -> u8 {
        let count = self.number(&Call::HeldCount);
        u8::try_from(count).expect("the held count has eight bits")
    }

    /// The sum of the held requests' lengths.
    pub fn held_bytes(&self) -> u64 {
        self.number(&Call::HeldBytes)
    }

    fn number(&self, call: &Call<'_>) -> u64 {
        match self.store.read(call) {
            Answer::Number(number) => number,
            answer => unexpected(answer),
        }
    }

    fn done(&mut self, call: &Call<'_>) -> Result<(), Refusal> {
        match self.store.apply(call) {
            Answer::Passed => Ok(()),
            Answer::Refused(refusal) => Err(self.messages.refusal(refusal)),
            answer => unexpected(answer),
        }
    }

    /// Reads a submission's port, so often at most, where the library wants it, as
    /// the original does: each time only where every check before passes. The
    /// words are the question's, and get the readings.
    fn give_readings(&mut self, most: usize, words: &mut Words, data: &[u8]) {
        let mut answer = Answered::EMPTY;
        for _ in 0..most {
            self.store.look(words, data, &mut answer);
            let wanted = answer.wanted().unwrap_or_else(|| unexpected(&answer));
            let Some(wanted) = wanted else {
                return;
            };
            let status = self.backend().port_status(wanted.port);
            let reading = status.map_err(|error| self.messages.numbered(&error));
            words.give(wanted.reading, &reading);
            if reading.is_err() {
                return;
            }
        }
    }

    /// Asks the backend about what is in flight, which ends even if it panics.
    fn ask<R>(&mut self, operation: Operation, ask: impl FnOnce(&mut B) -> R) -> R {
        let in_flight = InFlight {
            store: &mut self.store,
            messages: &mut self.messages,
            operation,
        };
        let reply = ask(self.backend.as_mut().expect(TAKEN_BY_DROP));
        std::mem::forget(in_flight);
        reply
    }

    fn submit_reply(
        &mut self,
        reply: Result<u64, crate::OperationError>,
    ) -> Result<RequestReport, Refusal> {
        let reply = reply.map_err(|error| self.messages.numbered(&error));
        self.report_of(&submit_reply(&reply))
    }
}

/// Reports for which there is room at once.
const FEW: usize = 16;
const TAKEN_BY_DROP: &str = "only drop takes the backend";

/// A request as the library takes it, before its port is read.
fn submit<'a>(spec: &'a RequestSpec, packets: Option<&'a [u64]>) -> Submit<'a> {
    Submit {
        device: spec.device,
        endpoint: spec.endpoint,
        transfer_type: spec.transfer_type,
        direction: spec.direction,
        length: spec.length as u64,
        setup: spec.setup,
        data: &spec.data,
        packets,
        readings: [Err(UNREAD); 2],
    }
}

/// A plan as the library takes it, before its port is read.
fn submit_plan(plan: &ControlPlan) -> Plan<'_> {
    Plan {
        device: plan.device,
        profile: plan.profile,
        setup: plan.setup,
        data_stage: plan.data_stage.map(|it| (it.direction, it.length as u64)),
        status_direction: plan.status_direction,
        data: &plan.data,
        reading: Err(UNREAD),
    }
}

/// A completion as the library takes it.
fn completion<'a>(messages: &mut Messages, done: &'a BackendCompletion) -> calls::Completion<'a> {
    let error = done.error.as_ref();
    calls::Completion {
        actual_length: done.actual_length.map(|length| length as u64),
        completion_code: done.completion_code,
        data: done.data.as_deref(),
        error: error.map(|error| messages.numbered(error)),
        quiescent: done.quiescent,
    }
}

/// A submission's buffer, as the library has it in its row.
fn buffer(metadata: &RequestMetadata, data: Vec<u8>) -> Vec<u8> {
    match metadata.direction {
        Direction::In => vec![0; metadata.requested_length],
        Direction::Out => data,
    }
}

/// The backend need not have it, and is not shown.
impl<B: Backend> Debug for UsbSession<B> {
    fn fmt(&self, f: &mut Formatter<'_>) -> fmt::Result {
        let mut shown = f.debug_struct("UsbSession");
        shown.field("store", &self.store);
        shown.finish_non_exhaustive()
    }
}

impl<B: Backend> Drop for UsbSession<B> {
    fn drop(&mut self) {
        let status = self.store.try_status();
        if !status.is_ok_and(|status| status.state == ControllerState::Closed) {
            std::mem::forget(self.backend.take());
        }
    }
}
