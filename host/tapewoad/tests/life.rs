//! A session's life with a backend that replies as it is told.
mod common;

use std::cell::RefCell;

use common::scripted::{Scripted, asked, bulk, completion, controller_error, ready};
use common::{DEVICE, ENDPOINTS, WORD, id};
use tapewoad::*;

#[test]
fn a_life_from_opening_to_close() {
    let mut usb = ready(4, 64);
    usb.backend_mut().tokens = [Ok(70), Ok(71)].into();
    let written = usb
        .submit_request(bulk(Direction::Out, &[1, 2, 3], 3))
        .unwrap();
    assert_eq!(written.id, id(0));
    assert_eq!(written.data, None);
    let read = usb.submit_request(bulk(Direction::In, &[], 8)).unwrap();
    assert_eq!(read.id, id(1));
    assert_eq!((usb.held_count(), usb.held_bytes()), (2, 11));
    assert_eq!(
        asked(&usb),
        [
            "port 1",
            "port 1",
            "submit [1, 2, 3]",
            "port 1",
            "port 1",
            "submit [0, 0, 0, 0, 0, 0, 0, 0]"
        ]
    );

    usb.backend_mut().completions = [Ok(None), Ok(Some(completion(&[9, 8], 13)))].into();
    let pending = usb.poll_request(id(1)).unwrap();
    assert!(pending.state.device_may_access());
    usb.logical_cancel_request(id(1)).unwrap();
    let report = usb.timeout_request(id(1)).unwrap();
    assert!(report.logical_cancel && report.timed_out);
    let completed = usb.poll_request(id(1)).unwrap();
    let state = RequestState::Completed {
        actual_length: 2,
        completion_code: 13,
        logical_cancel: true,
    };
    assert_eq!(completed.state, state);
    assert_eq!(completed.data.as_deref(), Some(&[9, 8][..]));
    assert_eq!(asked(&usb), ["poll 71", "poll 71"]);
    // It is no longer Pending: the backend is not asked.
    assert_eq!(usb.poll_request(id(1)).unwrap(), completed);
    assert_eq!(usb.request_status(id(1)).unwrap(), completed);
    let ids: Vec<_> = usb.request_reports().unwrap();
    let ids: Vec<_> = ids.into_iter().map(|report| report.id).collect();
    assert_eq!(ids, [id(0), id(1)]);
    assert_eq!(usb.reclaim_request(id(1)).unwrap(), completed);
    assert_eq!(usb.request_status(id(1)).unwrap_err().number, 40);
    assert_eq!(usb.reclaim_request(id(0)).unwrap_err().number, 42);
    assert_eq!(asked(&usb), Vec::<String>::new());

    usb.backend_mut().fresh = Some(9);
    usb.close().unwrap();
    assert_eq!(asked(&usb), ["fresh", "close"]);
    assert_eq!((usb.state(), usb.identity()), (ControllerState::Closed, 9));
    assert_eq!(usb.request_reports().unwrap(), []);
    usb.close().unwrap();
    assert_eq!(asked(&usb), Vec::<String>::new());
}

#[test]
fn a_cancel_is_taken_back() {
    let mut usb = ready(4, 64);
    usb.backend_mut().tokens = [Ok(70)].into();
    usb.submit_request(bulk(Direction::In, &[], 8)).unwrap();
    let refused = usb.withdraw_cancel_request(id(0)).unwrap_err();
    assert_eq!(refused.number, 59);
    assert_eq!(refused.error.message, "request is not cancelled");
    let late = usb.timeout_request(id(0)).unwrap();
    let cancelled = usb.logical_cancel_request(id(0)).unwrap();
    assert!(cancelled.logical_cancel && cancelled != late);
    assert_eq!(usb.withdraw_cancel_request(id(0)).unwrap(), late);
    assert_eq!(usb.logical_cancel_request(id(0)).unwrap(), cancelled);
    assert_eq!(usb.withdraw_cancel_request(id(0)).unwrap(), late);
    assert_eq!((usb.held_count(), usb.held_bytes()), (1, 8));

    usb.backend_mut().completions = [Ok(Some(completion(&[9, 8], 13)))].into();
    let completed = usb.poll_request(id(0)).unwrap();
    let state = RequestState::Completed {
        actual_length: 2,
        completion_code: 13,
        logical_cancel: false,
    };
    assert_eq!(completed.state, state);
    assert!(!completed.logical_cancel && completed.timed_out);
    for (of, number) in [(id(0), 41), (id(1), 40)] {
        let refused = usb.withdraw_cancel_request(of).unwrap_err();
        assert_eq!(refused.number, number);
    }
    // The backend was asked for nothing but its own.
    assert_eq!(asked(&usb).last().unwrap(), "poll 70");
}

#[test]
fn plans_and_packets_reach_the_backend() {
    let mut usb = ready(2, 64);
    usb.backend_mut().tokens = [Ok(1), Ok(2)].into();
    let plan = ControlPlan {
        device: DEVICE,
        profile: ControlProfile::Compliant,
        setup: SetupPacket {
            request_type: 0x80,
            request: 6,
            value: 0x100,
            index: 0,
            length: 2,
        },
        data_stage: Some(DataStage {
            direction: Direction::In,
            length: 2,
        }),
        status_direction: Some(Direction::Out),
        data: Vec::new(),
    };
    usb.submit_control_plan(plan).unwrap();
    usb.submit_request_packets(isochronous(30), Some(vec![10, 20]))
        .unwrap();
    assert_eq!(
        asked(&usb),
        [
            "port 1",
            "plan [128, 6, 0, 1, 0, 0, 2, 0] [0, 0]",
            "port 1",
            "port 1",
            "iso 30 [10, 20]"
        ]
    );
}

fn isochronous(length: usize) -> RequestSpec {
    RequestSpec {
        endpoint: 0x83,
        transfer_type: TransferType::Isochronous,
        ..bulk(Direction::In, &[], length)
    }
}

/// 58 goes by the second reading. The backend is not asked, what was read stays,
/// and no number is spent.
#[test]
fn low_speed_has_no_isochronous_pipes() {
    const LOW: u32 = 0x803;
    let mut usb = ready(2, 64);
    usb.backend_mut().readings = RefCell::new([Ok(WORD), Ok(LOW)].into());
    let refusal = usb.submit_request(isochronous(8)).unwrap_err();
    assert_eq!(refusal.number, 58);
    let text = "Low Speed has no isochronous transfers";
    let error = OperationError::new(ErrorCategory::Unsupported, text);
    assert_eq!(refusal.error, error);
    assert_eq!(asked(&usb), ["port 1", "port 1"]);
    assert_eq!(usb.state(), ControllerState::Initialized);
    assert_eq!(usb.held_count(), 0);
    assert_eq!(usb.store().port(1), Some((1, Some(LOW))));
    usb.backend_mut().readings = RefCell::new([Ok(LOW), Ok(WORD)].into());
    usb.backend_mut().tokens = [Ok(1)].into();
    let report = usb.submit_request(isochronous(8)).unwrap();
    assert_eq!(report.id, id(0));
    assert_eq!(asked(&usb)[..2], ["port 1", "port 1"]);
}

#[test]
fn ports_are_read_when_the_original_reads_them() {
    let mut usb = ready(4, 64);
    // Refused before any reading.
    let wrong = usb
        .submit_request(bulk(Direction::Out, &[1], 2))
        .unwrap_err();
    assert_eq!(wrong.number, 17);
    assert_eq!(asked(&usb), Vec::<String>::new());
    // A control transfer reads once, any other twice.
    usb.backend_mut().tokens = [Ok(1), Ok(2)].into();
    usb.submit_request(get_status()).unwrap();
    assert_eq!(asked(&usb), ["port 1", "submit [0, 0]"]);
    usb.submit_request(bulk(Direction::In, &[], 1)).unwrap();
    assert_eq!(asked(&usb), ["port 1", "port 1", "submit [0]"]);
    // The second reading fails.
    let error = controller_error("port gone");
    usb.backend_mut().readings = RefCell::new([Ok(WORD), Err(error.clone())].into());
    let refusal = usb.submit_request(bulk(Direction::In, &[], 8)).unwrap_err();
    assert_eq!((refusal.number, refusal.error), (33, error));
    assert_eq!(asked(&usb), ["port 1", "port 1"]);
    // The first one shows the cable pulled: the device is stale from now on.
    usb.backend_mut().readings = RefCell::new([Ok(WORD & !1)].into());
    for expected in [vec!["port 1"], vec![]] {
        let refusal = usb.submit_request(bulk(Direction::In, &[], 8)).unwrap_err();
        assert_eq!(refusal.number, 31);
        assert_eq!(asked(&usb), expected);
    }
    assert_eq!(usb.store().port(1), Some((2, Some(WORD & !1))));
}

fn get_status() -> RequestSpec {
    RequestSpec {
        endpoint: 0,
        transfer_type: TransferType::Control,
        setup: Some(SetupPacket {
            request_type: 0x80,
            request: 0,
            value: 0,
            index: 0,
            length: 2,
        }),
        ..bulk(Direction::In, &[], 2)
    }
}

/// The port is that of the device as it was placed last.
#[test]
fn each_device_has_its_own_port_read() {
    let mut usb = ready(2, 64);
    let mut device = common::snapshot();
    device.port.number = 2;
    usb.set_device(device).unwrap();
    usb.set_port(2, 1, Some(WORD)).unwrap();
    usb.backend_mut().tokens = [Ok(1)].into();
    usb.submit_request(bulk(Direction::In, &[], 1)).unwrap();
    assert_eq!(asked(&usb), ["port 2", "port 2", "submit [0]"]);
}

#[test]
fn a_backends_error_comes_back_with_its_text() {
    let mut usb = ready(2, 64);
    let error = controller_error("ring full");
    usb.backend_mut().tokens = [Err(error.clone()), Ok(5)].into();
    let refusal = usb.submit_request(bulk(Direction::In, &[], 8)).unwrap_err();
    assert_eq!((refusal.number, &refusal.error), (45, &error));
    assert_eq!(OperationError::from(refusal), error);
    assert_eq!(usb.state(), ControllerState::RecoveryRequired);
    assert_eq!(usb.held_count(), 0);
    let refusal = usb.submit_request(bulk(Direction::In, &[], 8)).unwrap_err();
    assert_eq!(refusal.number, 28);
    assert_eq!(refusal.error.message, "controller not initialized");
}

#[test]
fn failed_and_invalid_completions_are_kept_in_the_row() {
    let mut usb = ready(2, 64);
    usb.backend_mut().tokens = [Ok(1), Ok(2)].into();
    for _ in 0..2 {
        usb.submit_request(bulk(Direction::In, &[], 8)).unwrap();
    }
    let error = controller_error("babble");
    let failed = BackendCompletion {
        error: Some(error.clone()),
        ..completion(&[], 3)
    };
    usb.backend_mut().completions = [Ok(Some(failed)), Ok(Some(completion(&[0; 9], 1)))].into();
    let report = usb.poll_request(id(0)).unwrap();
    let state = RequestState::Failed {
        error,
        completion_code: Some(3),
        quiescent: true,
    };
    assert_eq!(report.state, state);
    // Nine bytes of eight.
    let report = usb.poll_request(id(1)).unwrap();
    let RequestState::Failed {
        error, quiescent, ..
    } = report.state
    else {
        panic!("{report:?}");
    };
    assert!(!quiescent);
    assert_eq!(error.category, ErrorCategory::RecoveryRequired);
    assert_eq!(
        error.message,
        "backend returned an unconfirmed or invalid completion"
    );
    assert_eq!(usb.state(), ControllerState::RecoveryRequired);
}

#[test]
fn the_backend_is_asked_only_in_the_right_state() {
    let mut usb = UsbSession::new(Scripted::default(), Opening::new(1, None));
    assert_eq!(usb.initialize().unwrap_err().number, 51);
    assert_eq!(asked(&usb), Vec::<String>::new());
    usb.backend_mut().failure = Some(controller_error("busy"));
    let refusal = usb.acquire("here").unwrap_err();
    assert_eq!((refusal.number, refusal.error.message), (45, "busy".into()));
    assert_eq!(usb.state(), ControllerState::RecoveryRequired);
    assert_eq!(usb.acquire("here").unwrap_err().number, 50);
    assert_eq!(asked(&usb), ["acquire here"]);
    assert_eq!(usb.close().unwrap_err().number, 52);
    assert_eq!(asked(&usb), ["fresh"]);
}

#[test]
fn a_small_store_has_its_own_limits() {
    for (rows, row_bytes) in [(0, 8), (1025, 8), (1, 0), (1, 65_537)] {
        let opening = Opening::new(1, None);
        let refused = UsbSession::with_store(Scripted::default(), opening, rows, row_bytes);
        assert_eq!(refused.map(|_| ()).unwrap_err().number, 3);
    }
    let mut usb = ready(1, 8);
    let refusal = usb.submit_request(bulk(Direction::In, &[], 9)).unwrap_err();
    assert_eq!(refusal.number, 7);
    usb.backend_mut().tokens = [Ok(1)].into();
    usb.submit_request(bulk(Direction::In, &[], 8)).unwrap();
    let refusal = usb.submit_request(bulk(Direction::In, &[], 8)).unwrap_err();
    assert_eq!(refusal.number, 5);
}

#[test]
fn too_many_endpoints_are_refused() {
    let mut usb = ready(1, 8);
    assert_eq!(usb.set_endpoints(2, &[ENDPOINTS[0]; 30]), Ok(()));
    let refusal = usb.set_endpoints(2, &[ENDPOINTS[0]; 31]).unwrap_err();
    assert_eq!(refusal.number, 53);
}

/// Counts how often it is dropped.
struct Dropped<'a>(&'a std::cell::Cell<u32>);

impl Drop for Dropped<'_> {
    fn drop(&mut self) {
        self.0.set(self.0.get() + 1);
    }
}

impl Backend for Dropped<'_> {
    fn acquire(&mut self, _target: &str) -> Result<(), AcquisitionFailure> {
        Ok(())
    }
    fn initialize(&mut self) -> Result<(), OperationError> {
        Ok(())
    }
    fn close(&mut self) -> Result<(), OperationError> {
        Ok(())
    }
    fn fresh_identity(&mut self) -> Option<u64> {
        None
    }
    fn port_status(&self, _number: u8) -> Result<u32, OperationError> {
        Ok(0)
    }
    fn submit_request(&mut self, _request: OwnedRequest) -> Result<u64, OperationError> {
        Ok(0)
    }
    fn submit_control_plan(&mut self, _plan: ValidatedControlPlan) -> Result<u64, OperationError> {
        Ok(0)
    }
    fn poll_request(&mut self, _token: u64) -> Result<Option<BackendCompletion>, OperationError> {
        Ok(None)
    }
    fn abort_endpoint(&mut self, _slot: u8, _endpoint: u8) -> Result<BackendAbort, OperationError> {
        Err(unsupported("endpoint abort unavailable"))
    }
}

#[test]
fn a_session_that_is_not_closed_keeps_its_backend_from_being_dropped() {
    let drops = std::cell::Cell::new(0);
    drop(UsbSession::new(Dropped(&drops), Opening::new(1, None)));
    assert_eq!(drops.get(), 1);
    let mut usb = UsbSession::new(Dropped(&drops), Opening::new(1, None));
    usb.acquire("controller").unwrap();
    drop(usb);
    assert_eq!(drops.get(), 1);
}

#[test]
fn a_reset_is_unsupported_where_the_backend_has_none() {
    let drops = std::cell::Cell::new(0);
    let reply = Dropped(&drops).reset_endpoint_recovery(2, 0x81, true);
    assert_eq!(reply, Err(unsupported("endpoint reset unavailable")));
}
