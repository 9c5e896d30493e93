//! A backend that panics: what is in flight ends, and what the device may have
//! stays held.
mod common;

use std::cell::Cell;
use std::panic::{AssertUnwindSafe, catch_unwind};

use common::id;
use common::scripted::{Scripted, bulk, completion, ready};
use tapewoad::*;

/// Makes a call whose backend has no reply, and so panics.
fn panics<R>(usb: &mut UsbSession<Scripted>, call: impl FnOnce(&mut UsbSession<Scripted>) -> R) {
    let caught = catch_unwind(AssertUnwindSafe(|| {
        call(usb);
    }));
    assert!(caught.is_err(), "the backend replied");
}

fn read() -> RequestSpec {
    bulk(Direction::In, &[], 8)
}

/// Two reads of 8 bytes are Pending, with the tokens 7 and 8.
fn reading() -> UsbSession<Scripted> {
    let mut usb = ready(4, 64);
    usb.backend_mut().tokens = [Ok(7), Ok(8)].into();
    for _ in 0..2 {
        usb.submit_request(read()).unwrap();
    }
    usb
}

fn plan() -> ControlPlan {
    ControlPlan {
        device: common::DEVICE,
        profile: ControlProfile::Compliant,
        setup: SetupPacket {
            request_type: 0,
            request: 3,
            value: 1,
            index: 0,
            length: 0,
        },
        data_stage: None,
        status_direction: Some(Direction::In),
        data: Vec::new(),
    }
}

/// The request of a submission that panicked, which stays held.
fn assert_kept(usb: &UsbSession<Scripted>, id: RequestId) {
    let message = "the backend panicked in a submission";
    let state = RequestState::Failed {
        error: OperationError::new(ErrorCategory::RecoveryRequired, message),
        completion_code: None,
        quiescent: false,
    };
    assert_eq!(usb.request_status(id).unwrap().state, state);
    assert_eq!(usb.state(), ControllerState::RecoveryRequired);
}

#[test]
fn a_submission_stays_held_until_a_close() {
    let mut usb = reading();
    panics(&mut usb, |usb| usb.submit_request(read()));
    assert_kept(&usb, id(2));
    assert_eq!((usb.held_count(), usb.held_bytes()), (3, 24));
    assert_eq!(usb.reclaim_request(id(2)).unwrap_err().number, 42);
    // Recovery is marked: nothing new goes out.
    assert_eq!(usb.submit_request(read()).unwrap_err().number, 28);
    usb.backend_mut().fresh = Some(2);
    usb.close().unwrap();
    assert_eq!((usb.held_count(), usb.identity()), (0, 2));
    usb.acquire("controller").unwrap();
    usb.initialize().unwrap();
    usb.backend_mut().tokens = [Ok(9)].into();
    assert!(usb.submit_request(read()).is_ok());
}

#[test]
fn packets_and_plans_stay_held_too() {
    let mut usb = ready(4, 64);
    let iso = RequestSpec {
        endpoint: 0x83,
        transfer_type: TransferType::Isochronous,
        ..read()
    };
    panics(&mut usb, |usb| {
        usb.submit_request_packets(iso, Some(vec![8]))
    });
    assert_kept(&usb, id(0));
    let mut usb = ready(4, 64);
    panics(&mut usb, |usb| usb.submit_control_plan(plan()));
    assert_kept(&usb, id(0));
}

/// The backend does not know the request, unless it says so by its token.
#[test]
fn an_abort_takes_a_panicked_submission_back_by_its_own_token_alone() {
    for (tokens, expected) in [
        (vec![7, 8], Err(46)),
        (vec![7, 8, PANICKED_TOKEN], Ok(vec![id(0), id(1), id(2)])),
    ] {
        let mut usb = reading();
        panics(&mut usb, |usb| usb.submit_request(read()));
        usb.backend_mut().aborts = [Ok(BackendAbort {
            completed: Vec::new(),
            aborted: tokens,
            restart_ready: true,
            error: None,
        })]
        .into();
        let report = usb.abort_request(id(2));
        let held = if report.is_ok() { 0 } else { 3 };
        let found = report.map(|it| it.aborted).map_err(|it| it.number);
        assert_eq!(found, expected);
        assert_eq!(usb.held_count(), held);
    }
}

#[test]
fn a_poll_ends_as_if_nothing_came() {
    let mut usb = reading();
    let before = usb.request_status(id(0)).unwrap();
    panics(&mut usb, |usb| usb.poll_request(id(0)));
    assert_eq!(usb.request_status(id(0)).unwrap(), before);
    assert_eq!(usb.state(), ControllerState::Initialized);
    usb.backend_mut().completions = [Ok(Some(completion(&[1, 2], 13)))].into();
    let report = usb.poll_request(id(0)).unwrap();
    assert_eq!(report.data, Some(vec![1, 2]));
}

#[test]
fn a_recovery_ends_as_failed_and_may_be_tried_again() {
    type Recover = fn(&mut UsbSession<Scripted>) -> Result<AbortReport, Refusal>;
    let calls: [Recover; 2] = [
        |usb| usb.abort_request(id(0)),
        |usb| usb.reset_endpoint_request(id(0), true),
    ];
    for call in calls {
        let mut usb = reading();
        let before = usb.request_reports().unwrap();
        panics(&mut usb, call);
        assert_eq!(usb.request_reports().unwrap(), before);
        assert_eq!(usb.state(), ControllerState::RecoveryRequired);
        usb.backend_mut().aborts = [Ok(BackendAbort {
            completed: Vec::new(),
            aborted: vec![7, 8],
            restart_ready: true,
            error: None,
        })]
        .into();
        assert_eq!(call(&mut usb).unwrap().aborted, [id(0), id(1)]);
        assert_eq!(usb.held_count(), 0);
    }
}

/// Panics where nothing is in flight yet: at a target without a name, and at a
/// port after so many readings, which show it disabled.
struct Blind {
    readings: Cell<u32>,
}

impl Backend for Blind {
    fn acquire(&mut self, target: &str) -> Result<(), AcquisitionFailure> {
        assert!(!target.is_empty(), "no target");
        Ok(())
    }
    fn initialize(&mut self) -> Result<(), OperationError> {
        Ok(())
    }
    fn close(&mut self) -> Result<(), OperationError> {
        Ok(())
    }
    fn fresh_identity(&mut self) -> Option<u64> {
        Some(2)
    }
    fn port_status(&self, _number: u8) -> Result<u32, OperationError> {
        let left = self.readings.get().checked_sub(1).expect("blind");
        self.readings.set(left);
        Ok(common::WORD & !2)
    }
    fn submit_request(&mut self, _request: OwnedRequest) -> Result<u64, OperationError> {
        Ok(1)
    }
    fn submit_control_plan(&mut self, _plan: ValidatedControlPlan) -> Result<u64, OperationError> {
        Ok(1)
    }
    fn poll_request(&mut self, _token: u64) -> Result<Option<BackendCompletion>, OperationError> {
        Ok(None)
    }
    fn abort_endpoint(&mut self, _slot: u8, _endpoint: u8) -> Result<BackendAbort, OperationError> {
        Err(unsupported("endpoint abort unavailable"))
    }
}

#[test]
fn another_panic_leaves_the_session_as_it_was() {
    let blind = Blind {
        readings: Cell::new(1),
    };
    let mut usb = UsbSession::with_store(blind, Opening::new(1, Some(2)), 2, 64).unwrap();
    let caught = catch_unwind(AssertUnwindSafe(|| usb.acquire("").is_ok()));
    assert!(caught.is_err());
    assert_eq!(usb.state(), ControllerState::Closed);
    usb.set_device(common::snapshot()).unwrap();
    usb.set_port(1, 1, Some(common::WORD)).unwrap();
    usb.set_endpoints(2, &common::ENDPOINTS).unwrap();
    usb.acquire("controller").unwrap();
    usb.initialize().unwrap();
    let before = common::store::words(usb.store());
    // At the second reading, then at the first.
    for _ in 0..2 {
        let caught = catch_unwind(AssertUnwindSafe(|| usb.submit_request(read()).is_ok()));
        assert!(caught.is_err());
        assert_eq!(usb.backend().readings.get(), 0);
        assert_eq!(common::store::words(usb.store()), before);
    }
    assert_eq!(usb.held_count(), 0);
    usb.close().unwrap();
}
