//! The unchanged Rust's side.
use oracle::core::identity;
use oracle::direct::{self, close};
use oracle::domain::models::control_plan::{
    ControlPlan, ControlProfile, DataStage, ValidatedControlPlan,
};
use oracle::domain::models::descriptors::DescriptorRequest;
use oracle::domain::models::ports::PortId;
use oracle::domain::models::requests::{
    AbortReport, BackendAbort, BackendCompletion, Direction, OwnedRequest, RequestReport,
    RequestSpec, SetupPacket, TransferType,
};
use oracle::domain::models::{DeviceState, OperationError, RequestId, RequestState};
use oracle::domain::services::explicit::ExplicitBackend;
use oracle::domain::services::recovery::RecoveryBackend;
use oracle::domain::services::requests::RequestBackend;
use oracle::domain::services::session::{
    AcquisitionFailure, ControllerBackend, ControllerSnapshot,
};
use oracle::domain::services::usb::{
    ConfigurationBackend, DeviceBackend, DeviceId, DeviceSnapshot, EndpointSnapshot, UsbSession,
};
use tapewoad::calls::Store;

use crate::answer::{Answer, Report, State, Told};
use crate::calls::*;
use crate::side::{Run, Side};
use crate::typed::typed_side;

type Usb = UsbSession<Replies>;
type Failure = OperationError;

typed_side!(Rust);

/// The Rust has no store.
fn open(_rows: usize) -> Usb {
    direct::open(Replies::default(), SESSION, PORTS)
}

fn placed(mut usb: Usb) -> Usb {
    identity::set_fresh(Some(FRESH));
    usb.session.acquire("controller").expect("it is Closed");
    usb.session.initialize().expect("it is acquired");
    let device = DeviceSnapshot {
        id: DEVICE,
        port: PortId {
            session: SESSION,
            generation: GENERATION,
            number: PORT,
        },
        state: DeviceState::Configured,
        configuration: None,
    };
    let endpoints = ENDPOINTS.map(|address| EndpointSnapshot {
        address,
        transfer_type: "bulk".into(),
        direction: String::new(),
        max_packet_size: 0,
        interval: 0,
    });
    direct::place(&mut usb, device, READING, endpoints.into()).expect("the port is there");
    usb
}

fn set_replies(usb: &mut Usb, replies: Replies) {
    *usb.session.initialized_backend().expect("it stays so") = replies;
}

const UNASKED: &str = "no call of a workload asks for it";

impl ControllerBackend for Replies {
    fn acquire(&mut self, _target: &str) -> Result<(), AcquisitionFailure> {
        Ok(())
    }

    fn initialize(&mut self) -> Result<(), OperationError> {
        Ok(())
    }

    fn inspect(&self) -> ControllerSnapshot {
        unreachable!("{UNASKED}")
    }

    fn close(&mut self) -> Result<(), OperationError> {
        Ok(())
    }
}

impl DeviceBackend for Replies {
    fn port_count(&self) -> Result<u8, OperationError> {
        unreachable!("{UNASKED}")
    }

    fn port_status(&self, _number: u8) -> Result<u32, OperationError> {
        Ok(READING)
    }

    fn acknowledge_port(&mut self, _number: u8, _changes: u32) -> Result<(), OperationError> {
        unreachable!("{UNASKED}")
    }

    fn reset_port(&mut self, _number: u8, _warm: bool) -> Result<(), OperationError> {
        unreachable!("{UNASKED}")
    }

    fn enable_slot(&mut self) -> Result<u8, OperationError> {
        unreachable!("{UNASKED}")
    }

    fn address_device(&mut self, _slot: u8, _port: u8, _bsr: bool) -> Result<(), OperationError> {
        unreachable!("{UNASKED}")
    }
}

impl ConfigurationBackend for Replies {
    fn descriptor(
        &mut self,
        _slot: u8,
        _request: DescriptorRequest,
    ) -> Result<Vec<u8>, OperationError> {
        unreachable!("{UNASKED}")
    }

    fn ep0_packet_size(&mut self, _slot: u8, _size: u16) -> Result<(), OperationError> {
        unreachable!("{UNASKED}")
    }

    fn set_configuration(&mut self, _slot: u8, _value: u8) -> Result<(), OperationError> {
        unreachable!("{UNASKED}")
    }

    fn set_interface(
        &mut self,
        _slot: u8,
        _interface: u8,
        _alternate: u8,
    ) -> Result<(), OperationError> {
        unreachable!("{UNASKED}")
    }

    fn setup_endpoints(
        &mut self,
        _slot: u8,
        _interface: u8,
        _alternate: u8,
        _configuration: &[u8],
    ) -> Result<Vec<EndpointSnapshot>, OperationError> {
        unreachable!("{UNASKED}")
    }
}

impl RequestBackend for Replies {
    fn submit_request(&mut self, _request: OwnedRequest) -> Result<u64, OperationError> {
        self.token()
    }

    fn poll_request(&mut self, _token: u64) -> Result<Option<BackendCompletion>, OperationError> {
        self.completion()
    }
}

impl RecoveryBackend for Replies {
    fn reset_endpoint_recovery(
        &mut self,
        _slot: u8,
        _endpoint: u8,
        _preserve: bool,
    ) -> Result<BackendAbort, OperationError> {
        self.abort()
    }

    fn abort_endpoint(&mut self, _slot: u8, _endpoint: u8) -> Result<BackendAbort, OperationError> {
        self.abort()
    }
}

impl ExplicitBackend for Replies {
    fn submit_control_plan(&mut self, _plan: ValidatedControlPlan) -> Result<u64, OperationError> {
        self.token()
    }

    fn noop(&mut self) -> Result<[u32; 4], OperationError> {
        unreachable!("{UNASKED}")
    }
}
