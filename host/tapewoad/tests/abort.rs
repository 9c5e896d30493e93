//! Aborts and resets of a session with a backend that replies as it is told.
mod common;

use common::scripted::{Scripted, asked, bulk, completion, controller_error, ready};
use common::{DEVICE, id};
use tapewoad::*;

/// Requests of endpoint 81h with these tokens.
fn reading(tokens: &[u64]) -> UsbSession<Scripted> {
    let mut usb = ready(tokens.len() + 1, 64);
    usb.backend_mut().tokens = tokens.iter().map(|token| Ok(*token)).collect();
    for _ in tokens {
        usb.submit_request(bulk(Direction::In, &[], 8)).unwrap();
    }
    asked(&usb);
    usb
}

/// Makes it the backend's next reply.
fn reply(usb: &mut UsbSession<Scripted>, abort: BackendAbort) {
    usb.backend_mut().aborts.push_back(Ok(abort));
}

fn whole(completed: Vec<(u64, BackendCompletion)>, aborted: &[u64]) -> BackendAbort {
    BackendAbort {
        completed,
        aborted: aborted.into(),
        restart_ready: true,
        error: None,
    }
}

fn stalled() -> BackendCompletion {
    let error =
        OperationError::new(ErrorCategory::RecoveryRequired, "stall").with_completion_code(6);
    BackendCompletion {
        actual_length: None,
        completion_code: Some(6),
        data: None,
        error: Some(error),
        quiescent: false,
    }
}

#[test]
fn an_abort_reports_what_became_of_its_requests() {
    let mut usb = reading(&[7, 8, 9]);
    let completed = vec![
        (9, completion(&[1, 2, 3], 13)),
        (7, completion(&[4, 5, 6, 7, 8, 9, 10, 11], 1)),
    ];
    reply(&mut usb, whole(completed, &[8]));
    let report = usb.abort_request(id(1)).unwrap();
    assert_eq!(report.target, id(1));
    assert_eq!((report.device, report.endpoint), (DEVICE, 0x81));
    assert_eq!(report.scope, "endpoint_wide");
    assert_eq!(report.completed, [id(2), id(0)]);
    assert_eq!(report.aborted, [id(1)]);
    assert_eq!((report.restart_ready, report.error), (true, None));
    assert_eq!(asked(&usb), ["abort 2 81"]);
    let data = |usb: &UsbSession<Scripted>, it| usb.request_status(id(it)).unwrap().data;
    assert_eq!(data(&usb, 2), Some(vec![1, 2, 3]));
    assert_eq!(data(&usb, 0), Some(vec![4, 5, 6, 7, 8, 9, 10, 11]));
    assert_eq!(
        usb.request_status(id(1)).unwrap().state,
        RequestState::Aborted
    );
    assert_eq!(usb.held_count(), 0);
    assert_eq!(usb.state(), ControllerState::Initialized);
}

#[test]
fn a_reset_after_a_stall_brings_the_controller_back() {
    for preserve in [false, true] {
        let mut usb = reading(&[7]);
        usb.backend_mut().completions = [Ok(Some(stalled()))].into();
        usb.poll_request(id(0)).unwrap();
        assert_eq!(usb.state(), ControllerState::RecoveryRequired);
        asked(&usb);
        reply(&mut usb, whole(Vec::new(), &[7]));
        usb.reset_endpoint_request(id(0), preserve).unwrap();
        assert_eq!(asked(&usb), [format!("reset 2 81 {preserve}")]);
        assert_eq!(usb.state(), ControllerState::Initialized);
    }
}

#[test]
fn progress_comes_with_the_backends_error_and_its_text() {
    let mut usb = reading(&[7, 8]);
    let error = controller_error("restart failed");
    let partial = BackendAbort {
        restart_ready: false,
        error: Some(error.clone()),
        ..whole(Vec::new(), &[8])
    };
    reply(&mut usb, partial);
    let report = usb.abort_request(id(0)).unwrap();
    assert_eq!(
        (report.aborted, report.error),
        (vec![id(1)], Some(error.clone()))
    );
    assert!(!report.restart_ready);
    assert_eq!(usb.held_count(), 1);
    assert_eq!(usb.state(), ControllerState::RecoveryRequired);
    usb.backend_mut().aborts = [Err(error.clone())].into();
    let refusal = usb.abort_request(id(0)).unwrap_err();
    assert_eq!((refusal.number, refusal.error), (45, error));
}

#[test]
fn the_backend_is_not_asked_for_what_is_not_held() {
    let mut usb = reading(&[7]);
    let refusal = usb.abort_request(id(9)).unwrap_err();
    assert_eq!(refusal.number, 40);
    reply(&mut usb, whole(Vec::new(), &[7]));
    usb.abort_request(id(0)).unwrap();
    asked(&usb);
    let refusal = usb.reset_endpoint_request(id(0), false).unwrap_err();
    assert_eq!(refusal.number, 43);
    assert_eq!(refusal.error.message, "request already terminal");
    assert_eq!(asked(&usb), Vec::<String>::new());
}

/// Lists of any length and content are passed on as they are.
#[test]
fn wrong_lists_are_refused_with_the_originals_texts() {
    let scope = "inconsistent abort scope/result tokens";
    let length = "abort completion missing length";
    let invalid = "invalid completion in abort result";
    let many: Vec<u64> = (7..507).collect();
    let lost = |it: BackendCompletion| BackendCompletion { data: None, ..it };
    let unknown = BackendCompletion {
        actual_length: None,
        ..completion(&[1], 1)
    };
    for (abort, number, text) in [
        (whole(Vec::new(), &[7]), 46, scope),
        (whole(Vec::new(), &[7, 8, 8]), 46, scope),
        (whole(Vec::new(), &[7, 8, u64::MAX]), 46, scope),
        (whole(Vec::new(), &many), 46, scope),
        (whole(vec![(7, stalled())], &[8, 7]), 46, scope),
        (whole(vec![(7, unknown)], &[8]), 47, length),
        (
            whole(vec![(7, lost(completion(&[], 1)))], &[8]),
            48,
            invalid,
        ),
        (whole(vec![(7, completion(&[0; 9], 1))], &[8]), 48, invalid),
        (whole(vec![(7, completion(&[1], 6))], &[8]), 48, invalid),
    ] {
        let mut usb = reading(&[7, 8]);
        reply(&mut usb, abort.clone());
        let refusal = usb.abort_request(id(0)).unwrap_err();
        assert_eq!(
            (refusal.number, refusal.error.message.as_str()),
            (number, text)
        );
        assert_eq!(usb.held_count(), 2, "{abort:?}");
        // 47 leaves no mark.
        let marked = usb.state() == ControllerState::RecoveryRequired;
        assert_eq!(marked, number != 47);
    }
}
