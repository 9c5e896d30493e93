//! A backend whose replies are set call by call, and which notes what it was asked.
use std::cell::RefCell;
use std::collections::VecDeque;
use std::rc::Rc;

use script::{AbortReply, Asked, Bytes, Completion, Error, PollReply, Reading};
use tapewoad::{
    AcquisitionFailure, BackendAbort, BackendCompletion, ControlProfile, OperationError,
    OwnedRequest, ValidatedControlPlan,
};

use crate::convert;

/// The replies of one call, and what the call asked for. A reply that is never
/// asked for is dropped with the next call.
pub struct Exchange {
    pub acquire: Option<Result<(), (Error, bool)>>,
    pub done: Option<Result<(), Error>>,
    pub fresh: Option<u64>,
    pub token: Option<Result<u64, Error>>,
    pub completion: Option<PollReply>,
    pub recovery: Option<AbortReply>,
    pub readings: VecDeque<Reading>,
    pub asked: Asked,
    /// The ports that were read.
    pub reads: Vec<u8>,
}

impl Default for Exchange {
    fn default() -> Self {
        Self {
            acquire: None,
            done: None,
            fresh: None,
            token: None,
            completion: None,
            recovery: None,
            readings: VecDeque::new(),
            asked: Asked::Nothing,
            reads: Vec::new(),
        }
    }
}

pub type SharedExchange = Rc<RefCell<Exchange>>;

pub struct Backend(pub SharedExchange);

/// A reply is asked for once a call at most, and only for the call's own.
const UNASKED: &str = "the backend is asked for more than the call brings";

/// The text that stands for a message number.
pub fn text(number: u16) -> String {
    format!("message {number}")
}

/// The message number of a text that the backend gave.
pub fn number(text: &str) -> Option<u16> {
    text.strip_prefix("message ")?.parse().ok()
}

fn error(error: Error) -> OperationError {
    let category = convert::to_category(error.category);
    let mut made = OperationError::new(category, text(error.message));
    made.os_code = error.os_code;
    made.completion_code = error.completion_code;
    made
}

impl Backend {
    fn done(&self) -> Result<(), OperationError> {
        let reply = self.0.borrow_mut().done.take();
        reply.expect(UNASKED).map_err(error)
    }

    fn token(&self, asked: Asked) -> Result<u64, OperationError> {
        let mut exchange = self.0.borrow_mut();
        exchange.asked = asked;
        exchange.token.take().expect(UNASKED).map_err(error)
    }

    fn recovery(&self, asked: Asked) -> Result<BackendAbort, OperationError> {
        let mut exchange = self.0.borrow_mut();
        exchange.asked = asked;
        let result = exchange.recovery.take().expect(UNASKED).map_err(error)?;
        let completed = result.completed.iter();
        Ok(BackendAbort {
            completed: completed
                .map(|(token, done)| (*token, completion(done)))
                .collect(),
            aborted: result.aborted,
            restart_ready: result.ready,
            error: result.error.map(error),
        })
    }
}

fn completion(done: &Completion) -> BackendCompletion {
    BackendCompletion {
        actual_length: done.length.map(|length| length as usize),
        completion_code: done.code,
        data: done.data.as_ref().map(script::Data::to_bytes),
        error: done.error.map(error),
        quiescent: done.quiescent,
    }
}

impl tapewoad::Backend for Backend {
    fn acquire(&mut self, _target: &str) -> Result<(), AcquisitionFailure> {
        let reply = self.0.borrow_mut().acquire.take().expect(UNASKED);
        reply.map_err(|(failure, retained)| AcquisitionFailure {
            error: error(failure),
            retained,
        })
    }

    fn initialize(&mut self) -> Result<(), OperationError> {
        self.done()
    }

    fn close(&mut self) -> Result<(), OperationError> {
        self.done()
    }

    fn fresh_identity(&mut self) -> Option<u64> {
        self.0.borrow_mut().fresh.take()
    }

    fn port_status(&self, number: u8) -> Result<u32, OperationError> {
        let mut exchange = self.0.borrow_mut();
        exchange.reads.push(number);
        let reading = exchange.readings.pop_front().expect(UNASKED);
        reading.map_err(error)
    }

    fn submit_iso_packets(
        &mut self,
        request: OwnedRequest,
        packets: Vec<usize>,
    ) -> Result<u64, OperationError> {
        self.token(Asked::Submit {
            buffer: Bytes(request.buffer),
            packets: Some(packets.into_iter().map(|length| length as u64).collect()),
        })
    }

    fn submit_request(&mut self, request: OwnedRequest) -> Result<u64, OperationError> {
        self.token(Asked::Submit {
            buffer: Bytes(request.buffer),
            packets: None,
        })
    }

    fn submit_control_plan(&mut self, plan: ValidatedControlPlan) -> Result<u64, OperationError> {
        self.token(Asked::Plan {
            buffer: Bytes(plan.buffer),
            wire: plan.wire_setup,
            has_data: plan.has_data,
            direction: convert::direction(plan.data_direction),
            status: convert::direction(plan.status_direction),
            compliant: plan.profile == ControlProfile::Compliant,
        })
    }

    fn poll_request(&mut self, token: u64) -> Result<Option<BackendCompletion>, OperationError> {
        let mut exchange = self.0.borrow_mut();
        exchange.asked = Asked::Poll { token };
        match exchange.completion.take().expect(UNASKED) {
            Ok(done) => Ok(done.as_ref().map(completion)),
            Err(failure) => Err(error(failure)),
        }
    }

    fn reset_endpoint_recovery(
        &mut self,
        slot: u8,
        endpoint: u8,
        preserve: bool,
    ) -> Result<BackendAbort, OperationError> {
        self.recovery(Asked::Reset {
            slot,
            endpoint,
            preserve,
        })
    }

    fn abort_endpoint(&mut self, slot: u8, endpoint: u8) -> Result<BackendAbort, OperationError> {
        self.recovery(Asked::Abort { slot, endpoint })
    }
}
