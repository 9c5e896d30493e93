//! A backend whose replies are set call by call, and which notes what it was asked.
use std::cell::RefCell;
use std::collections::VecDeque;
use std::rc::Rc;

use script::{AbortReply, Asked, Bytes, Completion, Error, PollReply, Reading};

use crate::convert;
use crate::domain::models::OperationError;
use crate::domain::models::control_plan::{ControlProfile, ValidatedControlPlan};
use crate::domain::models::descriptors::DescriptorRequest;
use crate::domain::models::requests::{BackendAbort, BackendCompletion, OwnedRequest};
use crate::domain::services::explicit::ExplicitBackend;
use crate::domain::services::recovery::RecoveryBackend;
use crate::domain::services::requests::RequestBackend;
use crate::domain::services::session::{AcquisitionFailure, ControllerBackend, ControllerSnapshot};
use crate::domain::services::usb::{ConfigurationBackend, DeviceBackend, EndpointSnapshot};
use crate::refusals::{backend_error, reading_error};

/// The replies of one call, and what the call asked for. A reply that is never
/// asked for is dropped with the next call.
pub struct Exchange {
    pub acquire: Option<Result<(), (Error, bool)>>,
    pub done: Option<Result<(), Error>>,
    pub token: Option<Result<u64, Error>>,
    pub completion: Option<PollReply>,
    pub recovery: Option<AbortReply>,
    pub readings: VecDeque<Reading>,
    pub asked: Asked,
    /// The ports that were read.
    pub reads: Vec<u8>,
}

impl Default for Exchange {
    fn default() -> Self {
        Self {
            acquire: None,
            done: None,
            token: None,
            completion: None,
            recovery: None,
            readings: VecDeque::new(),
            asked: Asked::Nothing,
            reads: Vec::new(),
        }
    }
}

/// The Rust asks for a reply once a call at most, and only for the call's own.
const UNASKED: &str = "the Rust asked the backend for more than the call brings";

pub type SharedExchange = Rc<RefCell<Exchange>>;

pub struct Backend(pub SharedExchange);

impl Backend {
    fn token(&self, asked: Asked) -> Result<u64, OperationError> {
        let mut exchange = self.0.borrow_mut();
        exchange.asked = asked;
        exchange.token.take().expect(UNASKED).map_err(backend_error)
    }

    fn done(&self) -> Result<(), OperationError> {
        let reply = self.0.borrow_mut().done.take();
        reply.expect(UNASKED).map_err(backend_error)
    }

    fn recovery(&self, asked: Asked) -> Result<BackendAbort, OperationError> {
        let mut exchange = self.0.borrow_mut();
        exchange.asked = asked;
        let result = exchange.recovery.take().expect(UNASKED);
        let result = result.map_err(backend_error)?;
        Ok(BackendAbort {
            completed: result
                .completed
                .iter()
                .map(|(token, done)| (*token, completion(done)))
                .collect(),
            aborted: result.aborted,
            restart_ready: result.ready,
            error: result.error.map(backend_error),
        })
    }
}

fn completion(done: &Completion) -> BackendCompletion {
    BackendCompletion {
        actual_length: done.length.map(convert::to_usize),
        completion_code: done.code,
        data: done.data.as_ref().map(script::Data::to_bytes),
        error: done.error.map(backend_error),
        quiescent: done.quiescent,
    }
}

impl ControllerBackend for Backend {
    fn acquire(&mut self, _target: &str) -> Result<(), AcquisitionFailure> {
        let reply = self.0.borrow_mut().acquire.take().expect(UNASKED);
        reply.map_err(|(error, retained)| AcquisitionFailure {
            error: backend_error(error),
            retained,
        })
    }

    fn initialize(&mut self) -> Result<(), OperationError> {
        self.done()
    }

    fn inspect(&self) -> ControllerSnapshot {
        unreachable!("no call inspects the controller")
    }

    fn close(&mut self) -> Result<(), OperationError> {
        self.done()
    }
}

impl DeviceBackend for Backend {
    fn port_count(&self) -> Result<u8, OperationError> {
        unreachable!("the ports are the opening's")
    }

    fn port_status(&self, number: u8) -> Result<u32, OperationError> {
        let mut exchange = self.0.borrow_mut();
        exchange.reads.push(number);
        let reading = exchange.readings.pop_front().expect(UNASKED);
        reading.map_err(reading_error)
    }

    fn acknowledge_port(&mut self, _number: u8, _changes: u32) -> Result<(), OperationError> {
        unreachable!("{LEFT_OUT}")
    }

    fn reset_port(&mut self, _number: u8, _warm: bool) -> Result<(), OperationError> {
        unreachable!("{LEFT_OUT}")
    }

    fn enable_slot(&mut self) -> Result<u8, OperationError> {
        unreachable!("{LEFT_OUT}")
    }

    fn address_device(&mut self, _slot: u8, _port: u8, _bsr: bool) -> Result<(), OperationError> {
        unreachable!("{LEFT_OUT}")
    }
}

const LEFT_OUT: &str = "document 01 leaves this command out";

impl ConfigurationBackend for Backend {
    fn descriptor(
        &mut self,
        _slot: u8,
        _request: DescriptorRequest,
    ) -> Result<Vec<u8>, OperationError> {
        unreachable!("{LEFT_OUT}")
    }

    fn ep0_packet_size(&mut self, _slot: u8, _size: u16) -> Result<(), OperationError> {
        unreachable!("{LEFT_OUT}")
    }

    fn set_configuration(&mut self, _slot: u8, _value: u8) -> Result<(), OperationError> {
        unreachable!("{LEFT_OUT}")
    }

    fn set_interface(
        &mut self,
        _slot: u8,
        _interface: u8,
        _alternate: u8,
    ) -> Result<(), OperationError> {
        unreachable!("{LEFT_OUT}")
    }

    fn setup_endpoints(
        &mut self,
        _slot: u8,
        _interface: u8,
        _alternate: u8,
        _configuration: &[u8],
    ) -> Result<Vec<EndpointSnapshot>, OperationError> {
        unreachable!("{LEFT_OUT}")
    }
}

impl RequestBackend for Backend {
    fn submit_iso_packets(
        &mut self,
        request: OwnedRequest,
        packets: Vec<usize>,
    ) -> Result<u64, OperationError> {
        self.token(Asked::Submit {
            buffer: Bytes(request.buffer),
            packets: Some(packets.into_iter().map(|length| length as u64).collect()),
        })
    }

    fn submit_request(&mut self, request: OwnedRequest) -> Result<u64, OperationError> {
        self.token(Asked::Submit {
            buffer: Bytes(request.buffer),
            packets: None,
        })
    }

    fn poll_request(&mut self, token: u64) -> Result<Option<BackendCompletion>, OperationError> {
        let mut exchange = self.0.borrow_mut();
        exchange.asked = Asked::Poll { token };
        match exchange.completion.take().expect(UNASKED) {
            Ok(done) => Ok(done.as_ref().map(completion)),
            Err(error) => Err(backend_error(error)),
        }
    }
}

impl RecoveryBackend for Backend {
    fn reset_endpoint_recovery(
        &mut self,
        slot: u8,
        endpoint: u8,
        preserve: bool,
    ) -> Result<BackendAbort, OperationError> {
        self.recovery(Asked::Reset {
            slot,
            endpoint,
            preserve,
        })
    }

    fn abort_endpoint(&mut self, slot: u8, endpoint: u8) -> Result<BackendAbort, OperationError> {
        self.recovery(Asked::Abort { slot, endpoint })
    }
}

impl ExplicitBackend for Backend {
    fn submit_control_plan(&mut self, plan: ValidatedControlPlan) -> Result<u64, OperationError> {
        self.token(Asked::Plan {
            buffer: Bytes(plan.buffer),
            wire: plan.wire_setup,
            has_data: plan.has_data,
            direction: convert::direction(plan.data_direction),
            status: convert::direction(plan.status_direction),
            compliant: plan.profile == ControlProfile::Compliant,
        })
    }

    fn noop(&mut self) -> Result<[u32; 4], OperationError> {
        unreachable!("{LEFT_OUT}")
    }
}
