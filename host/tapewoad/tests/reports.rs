//! Reports of a session, which need no more than a shared borrow of it.
mod common;

use common::scripted::{Scripted, bulk, completion, ready};
use common::{id, store};
use tapewoad::calls::Call;
use tapewoad::*;

/// Four reads, of which the first is Completed.
fn reading() -> UsbSession<Scripted> {
    let mut usb = ready(5, 64);
    usb.backend_mut().tokens = (0..4).map(Ok).collect();
    for _ in 0..4 {
        usb.submit_request(bulk(Direction::In, &[], 8)).unwrap();
    }
    usb.backend_mut().completions = [Ok(Some(completion(&[5, 6], 13)))].into();
    usb.poll_request(id(0)).unwrap();
    usb
}

fn ids(usb: &UsbSession<Scripted>) -> Vec<RequestId> {
    let reports = usb.request_reports().unwrap();
    reports.into_iter().map(|report| report.id).collect()
}

#[test]
fn reports_are_taken_while_the_store_is_borrowed() {
    let usb = reading();
    let store = usb.store();
    let before = *store.session_words();
    assert_eq!((usb.held_count(), usb.held_bytes()), (3, 24));
    let first = usb.request_status(id(0)).unwrap();
    assert_eq!(first.data, Some(vec![5, 6]));
    assert_eq!(usb.request_reports().unwrap()[0], first);
    assert_eq!(
        (usb.identity(), usb.state()),
        (1, ControllerState::Initialized)
    );
    assert_eq!(store.session_words(), &before);
    assert_eq!(store.completed_bytes(id(0)).unwrap(), [5, 6]);
}

/// The same status as each report by itself, whatever rows they stand in.
#[test]
fn reports_come_by_ascending_id() {
    let mut usb = reading();
    usb.reclaim_request(id(0)).unwrap();
    usb.backend_mut().tokens = [Ok(4), Ok(5)].into();
    usb.submit_request(bulk(Direction::In, &[], 8)).unwrap();
    assert_eq!(ids(&usb), [1, 2, 3, 4].map(id));
    for report in usb.request_reports().unwrap() {
        assert_eq!(usb.request_status(report.id).unwrap(), report);
    }
    // A request of an earlier session number, as no calls lead to beside these.
    usb.store_mut().session_words_mut()[0] = 0;
    let early = usb.submit_request(bulk(Direction::In, &[], 8)).unwrap().id;
    assert_eq!((early.session, early.sequence), (0, 5));
    assert_eq!(ids(&usb), [early, id(1), id(2), id(3), id(4)]);
}

/// Calls of the lower layer may give an id another row than the session saw.
#[test]
fn bytes_are_those_of_the_row_that_the_request_has() {
    let mut usb = reading();
    let lower = usb.store_mut();
    *lower = store::ready();
    // The next sequence number.
    lower.session_words_mut()[2] = 1;
    for call in [
        store::submit(),
        Call::SubmitReply(Ok(7)),
        Call::PollRequest(id(1)),
        store::completion(&[7, 8]),
    ] {
        lower.apply(&call);
    }
    let report = usb.request_status(id(1)).unwrap();
    assert_eq!(report.data, Some(vec![7, 8]));
    assert_eq!(usb.reclaim_request(id(1)).unwrap(), report);
}

/// What it had before it goes, and nothing where it was not Completed.
#[test]
fn a_reclaim_reports_the_request_as_it_was() {
    let mut usb = reading();
    let before = usb.request_status(id(0)).unwrap();
    assert_eq!(usb.reclaim_request(id(0)).unwrap(), before);
    assert_eq!(usb.reclaim_request(id(0)).unwrap_err().number, 40);
    let failed = BackendCompletion {
        error: Some(unsupported("stopped")),
        ..completion(&[], 26)
    };
    usb.backend_mut().completions = [Ok(Some(failed))].into();
    let before = usb.poll_request(id(1)).unwrap();
    assert_eq!(
        (usb.reclaim_request(id(1)).unwrap(), before.data.clone()),
        (before, None)
    );
}

#[test]
fn a_store_is_read_from_several_threads() {
    let usb = reading();
    let store = usb.store();
    std::thread::scope(|scope| {
        for _ in 0..2 {
            scope.spawn(|| {
                for _ in 0..100 {
                    assert_eq!(store.completed_bytes(id(0)).unwrap(), [5, 6]);
                    assert_eq!(store.status().next_sequence, 4);
                }
            });
        }
    });
}
