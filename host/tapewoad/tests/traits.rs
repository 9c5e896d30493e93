//! What the crate's types are besides their calls: errors with their sources,
//! shown for debugging, sent between threads.
mod common;

use std::error::Error;

use common::id;
use common::scripted::{Scripted, bulk, completion, controller_error, ready};
use common::store::ERROR;
use tapewoad::*;

#[test]
fn a_refusal_has_its_error_as_source() {
    let mut usb = ready(2, 64);
    let error = controller_error("ring full");
    usb.backend_mut().tokens = [Err(error.clone())].into();
    let refusal = usb.submit_request(bulk(Direction::In, &[], 8)).unwrap_err();
    assert_eq!(refusal.to_string(), "refused (45)");
    let source = refusal.source().expect("a source");
    assert_eq!(source.to_string(), "Controller: ring full");
    assert_eq!(source.downcast_ref(), Some(&error));
    assert!(source.source().is_none());
}

#[test]
fn so_has_one_of_the_lower_layer() {
    let refusal = calls::Refusal::new(45, ERROR.with_os_code(-5));
    assert_eq!(refusal.to_string(), "refused (45)");
    let source = refusal.source().expect("a source");
    assert_eq!(source.to_string(), "Timeout: message 77");
    assert_eq!(source.downcast_ref(), Some(&refusal.error));
    assert!(source.source().is_none());
}

#[test]
fn constructors_fill_every_field() {
    let error = OperationError::new(ErrorCategory::Timeout, "late")
        .with_os_code(-110)
        .with_completion_code(4);
    assert_eq!(
        (error.category, error.message.as_str()),
        (ErrorCategory::Timeout, "late")
    );
    assert_eq!(
        (error.os_code, error.completion_code),
        (Some(-110), Some(4))
    );
    let error = ERROR.with_os_code(-110).with_completion_code(4);
    assert_eq!(
        (error.category, error.message),
        (ErrorCategory::Timeout, 77)
    );
    assert_eq!(
        (error.os_code, error.completion_code),
        (Some(-110), Some(4))
    );
    let opening = Opening::new(3, Some(2))
        .with_first_sequence(5)
        .with_recovery_revision(None);
    assert_eq!((opening.session, opening.ports), (3, Some(2)));
    assert_eq!(
        (opening.first_sequence, opening.recovery_revision),
        (5, None)
    );
}

#[test]
fn a_session_is_shown_without_its_backend_and_bytes() {
    let usb = ready(2, 64);
    assert_eq!(
        format!("{usb:?}"),
        "UsbSession { store: Store { status: Ok(SessionStatus { session: 1, generation: 0, \
         next_sequence: 0, ports: Some((1, 2)), state: Initialized, recovery_revision: Some(0), \
         recoverable_stall: None, in_flight: None, rows: 2, row_bytes: 64 }), .. }, .. }"
    );
}

/// Words that no call wrote are shown too.
#[test]
fn a_session_of_any_words_is_shown() {
    let mut usb = ready(2, 64);
    usb.store_mut().session_words_mut()[6] = 99;
    let shown = "UsbSession { store: Store { status: Err(NoSession), .. }, .. }";
    assert_eq!(format!("{usb:?}"), shown);
}

#[test]
fn a_session_goes_on_in_another_thread() {
    fn assert_send<T: Send>() {}
    assert_send::<UsbSession<Scripted>>();
    assert_send::<calls::Store>();
    assert_send::<Refusal>();
    let mut usb = ready(2, 64);
    usb.backend_mut().tokens = [Ok(7)].into();
    usb.submit_request(bulk(Direction::In, &[], 8)).unwrap();
    let polled = std::thread::spawn(move || {
        usb.backend_mut().completions = [Ok(Some(completion(&[1], 13)))].into();
        usb.poll_request(id(0)).unwrap().data
    });
    assert_eq!(polled.join().unwrap(), Some(vec![1]));
}
