//! The crate's side: `UsbSession` over the library.
use tapewoad::calls::Store;
use tapewoad::{
    AbortReport, AcquisitionFailure, Backend, BackendAbort, BackendCompletion, ControlPlan,
    ControlProfile, DataStage, DeviceId, DeviceSnapshot, DeviceState, Direction, Endpoint, Opening,
    OperationError, OwnedRequest, PortId, Refusal, RequestId, RequestReport, RequestSpec,
    RequestState, SetupPacket, TransferType, UsbSession, ValidatedControlPlan,
};

use crate::answer::{Answer, Report, State, Told};
use crate::calls::*;
use crate::side::{Run, Side};
use crate::typed::typed_side;

type Usb = UsbSession<Replies>;
type Failure = Refusal;

typed_side!(Session);

fn open(rows: usize) -> Usb {
    let opening = Opening::new(SESSION, Some(PORTS));
    UsbSession::with_store(Replies::default(), opening, rows, Store::ROW_BYTES)
        .expect("a store of a right size")
}

fn close(usb: &mut Usb) -> Result<(), Refusal> {
    usb.close()
}

fn placed(mut usb: Usb) -> Usb {
    usb.acquire("controller").expect("it is Closed");
    usb.initialize().expect("it is acquired");
    let device = DeviceSnapshot {
        id: DEVICE,
        port: PortId {
            session: SESSION,
            generation: GENERATION,
            number: PORT,
        },
        state: DeviceState::Configured,
    };
    let endpoints = ENDPOINTS.map(|address| Endpoint {
        address,
        transfer_type: TransferType::Bulk,
    });
    let placed = usb.set_port(PORT, GENERATION, Some(READING));
    placed.expect("the port is there");
    usb.set_device(device).expect("never refused");
    usb.set_endpoints(SLOT, &endpoints).expect("few endpoints");
    usb
}

fn set_replies(usb: &mut Usb, replies: Replies) {
    *usb.backend_mut() = replies;
}

impl Backend for Replies {
    fn acquire(&mut self, _target: &str) -> Result<(), AcquisitionFailure> {
        Ok(())
    }

    fn initialize(&mut self) -> Result<(), OperationError> {
        Ok(())
    }

    fn close(&mut self) -> Result<(), OperationError> {
        Ok(())
    }

    fn fresh_identity(&mut self) -> Option<u64> {
        Some(FRESH)
    }

    fn port_status(&self, _number: u8) -> Result<u32, OperationError> {
        Ok(READING)
    }

    fn submit_request(&mut self, _request: OwnedRequest) -> Result<u64, OperationError> {
        self.token()
    }

    fn submit_control_plan(&mut self, _plan: ValidatedControlPlan) -> Result<u64, OperationError> {
        self.token()
    }

    fn poll_request(&mut self, _token: u64) -> Result<Option<BackendCompletion>, OperationError> {
        self.completion()
    }

    fn reset_endpoint_recovery(
        &mut self,
        _slot: u8,
        _endpoint: u8,
        _preserve: bool,
    ) -> Result<BackendAbort, OperationError> {
        self.abort()
    }

    fn abort_endpoint(&mut self, _slot: u8, _endpoint: u8) -> Result<BackendAbort, OperationError> {
        self.abort()
    }
}
