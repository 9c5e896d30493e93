//! A backend that replies as it is told.
use std::cell::RefCell;
use std::collections::VecDeque;

use super::{DEVICE, ENDPOINTS, WORD, snapshot};
use tapewoad::*;

/// Replies, first to last, and what was asked.
#[derive(Default)]
pub struct Scripted {
    pub tokens: VecDeque<Result<u64, OperationError>>,
    pub completions: VecDeque<Result<Option<BackendCompletion>, OperationError>>,
    pub aborts: VecDeque<Result<BackendAbort, OperationError>>,
    /// What the port says; the word of a quiet port where it is empty.
    pub readings: RefCell<VecDeque<Result<u32, OperationError>>>,
    pub fresh: Option<u64>,
    pub failure: Option<OperationError>,
    pub asked: RefCell<Vec<String>>,
}

impl Scripted {
    fn ask(&self, what: impl Into<String>) {
        self.asked.borrow_mut().push(what.into());
    }

    fn done(&mut self) -> Result<(), OperationError> {
        self.failure.take().map_or(Ok(()), Err)
    }
}

impl Backend for Scripted {
    fn acquire(&mut self, target: &str) -> Result<(), AcquisitionFailure> {
        self.ask(format!("acquire {target}"));
        self.done().map_err(|error| AcquisitionFailure {
            error,
            retained: true,
        })
    }

    fn initialize(&mut self) -> Result<(), OperationError> {
        self.ask("initialize");
        self.done()
    }

    fn close(&mut self) -> Result<(), OperationError> {
        self.ask("close");
        self.done()
    }

    fn fresh_identity(&mut self) -> Option<u64> {
        self.ask("fresh");
        self.fresh
    }

    fn port_status(&self, number: u8) -> Result<u32, OperationError> {
        self.ask(format!("port {number}"));
        let reading = self.readings.borrow_mut().pop_front();
        reading.unwrap_or(Ok(WORD))
    }

    fn submit_iso_packets(
        &mut self,
        request: OwnedRequest,
        packets: Vec<usize>,
    ) -> Result<u64, OperationError> {
        self.ask(format!("iso {} {packets:?}", request.buffer.len()));
        self.tokens.pop_front().expect("a token")
    }

    fn submit_request(&mut self, request: OwnedRequest) -> Result<u64, OperationError> {
        self.ask(format!("submit {:?}", request.buffer));
        self.tokens.pop_front().expect("a token")
    }

    fn submit_control_plan(&mut self, plan: ValidatedControlPlan) -> Result<u64, OperationError> {
        self.ask(format!("plan {:?} {:?}", plan.wire_setup, plan.buffer));
        self.tokens.pop_front().expect("a token")
    }

    fn poll_request(&mut self, token: u64) -> Result<Option<BackendCompletion>, OperationError> {
        self.ask(format!("poll {token}"));
        self.completions.pop_front().expect("a completion")
    }

    fn reset_endpoint_recovery(
        &mut self,
        slot: u8,
        endpoint: u8,
        preserve: bool,
    ) -> Result<BackendAbort, OperationError> {
        self.ask(format!("reset {slot} {endpoint:x} {preserve}"));
        self.aborts.pop_front().expect("an abort")
    }

    fn abort_endpoint(&mut self, slot: u8, endpoint: u8) -> Result<BackendAbort, OperationError> {
        self.ask(format!("abort {slot} {endpoint:x}"));
        self.aborts.pop_front().expect("an abort")
    }
}

/// Initialised, with one configured device on port 1.
pub fn ready(rows: usize, row_bytes: usize) -> UsbSession<Scripted> {
    let opening = Opening::new(1, Some(2));
    let mut usb =
        UsbSession::with_store(Scripted::default(), opening, rows, row_bytes).expect("a store");
    usb.set_device(snapshot()).unwrap();
    usb.set_port(1, 1, Some(WORD)).unwrap();
    usb.set_endpoints(2, &ENDPOINTS).unwrap();
    usb.acquire("controller").unwrap();
    usb.initialize().unwrap();
    asked(&usb);
    usb
}

/// What was asked since it was last looked at.
pub fn asked(usb: &UsbSession<Scripted>) -> Vec<String> {
    usb.backend().asked.take()
}

pub fn bulk(direction: Direction, data: &[u8], length: usize) -> RequestSpec {
    RequestSpec {
        device: DEVICE,
        endpoint: match direction {
            Direction::In => 0x81,
            Direction::Out => 0x01,
        },
        transfer_type: TransferType::Bulk,
        direction,
        length,
        setup: None,
        data: data.into(),
    }
}

pub fn completion(data: &[u8], code: u32) -> BackendCompletion {
    BackendCompletion {
        actual_length: Some(data.len()),
        completion_code: Some(code),
        data: Some(data.into()),
        error: None,
        quiescent: true,
    }
}

pub fn controller_error(text: &str) -> OperationError {
    OperationError::new(ErrorCategory::Controller, text)
        .with_os_code(-5)
        .with_completion_code(4)
}
