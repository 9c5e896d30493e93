//! Questions, and reports by the function that only reads.
mod common;

use common::store::{
    DESCRIPTOR, ERROR, completion, others, plan, ready, ready_with, refusal, submit, words,
};
use common::{DEVICE, WORD, id};
use tapewoad::calls::*;
use tapewoad::library::{self, View};
use tapewoad::{ControllerState, DeviceId, Direction, RequestId, TransferType};

fn reports() -> [Call<'static>; 8] {
    [
        Call::RequestStatus(id(0)),
        Call::RequestStatus(id(7)),
        Call::RequestReports { after: None },
        Call::RequestReports { after: Some(id(0)) },
        Call::CountReports,
        Call::CompletedBytes(id(0)),
        Call::HeldCount,
        Call::HeldBytes,
    ]
}

/// A store after 0, 1, .. of a request's calls.
fn stores() -> Vec<Store> {
    let calls = [
        submit(),
        Call::SubmitReply(Ok(7)),
        Call::PollRequest(id(0)),
        completion(&[7, 8]),
        Call::ReclaimRequest(id(0)),
    ];
    let after = |count: usize| {
        let mut store = ready();
        for call in &calls[..count] {
            assert!(!matches!(store.apply(call), Answer::Refused(_)));
        }
        store
    };
    (0..=calls.len()).map(after).collect()
}

#[test]
fn a_report_is_read_as_it_is_called() {
    for mut store in stores() {
        for call in reports() {
            let read = store.read(&call);
            assert_eq!(store.apply(&call), read, "{call:?}");
        }
    }
}

#[test]
fn what_changes_something_is_not_read() {
    let store = ready();
    for call in others() {
        assert_eq!(store.try_read(&call), Err(Status::NoCall), "{call:?}");
    }
    let replies = [Call::SubmitReply(Ok(7)), completion(&[])];
    for call in replies {
        assert_eq!(store.try_read(&call), Err(Status::NoCall), "{call:?}");
    }
}

#[test]
fn a_question_is_no_call() {
    let Call::SubmitRequestPackets(submit) = submit() else {
        unreachable!("a submission")
    };
    let mut store = ready();
    for question in [
        Question::SessionStatus,
        Question::ReportFrom { place: 0 },
        Question::SubmitWants(submit),
    ] {
        let (words, bytes) = (question.words(), question.bytes());
        assert!(store.read_words(&words, bytes).is_ok(), "{question:?}");
        assert_eq!(store.apply_words(&words, bytes), Err(Status::NoCall));
        let fewer = &words[..words.len() - 1];
        assert_eq!(store.read_words(fewer, bytes), Err(Status::NoCall));
    }
}

#[test]
fn a_status_says_what_calls_led_to() {
    let unopened = Store::new(2, 16).status();
    assert_eq!((unopened.session, unopened.rows), (0, 0));
    assert_eq!(unopened.state, ControllerState::Closed);
    let status = ready().status();
    assert_eq!((status.session, status.generation), (1, 0));
    assert_eq!((status.next_sequence, status.ports), (0, Some((1, 1))));
    assert_eq!(status.state, ControllerState::Initialized);
    assert_eq!(status.recovery_revision, Some(0));
    assert_eq!(status.recoverable_stall, None);
    assert_eq!((status.rows, status.row_bytes), (2, 16));
    let in_flight: Vec<_> = stores().iter().map(|it| it.status().in_flight).collect();
    let (submission, poll) = (Some(Operation::Submission), Some(Operation::Poll));
    assert_eq!(in_flight, [None, submission, None, poll, None, None]);
    let mut store = stores().remove(2);
    store.apply(&Call::AbortRequest(id(0)));
    assert_eq!(store.status().in_flight, Some(Operation::Recovery));
}

/// Submits a request and gives it the token.
fn held(store: &mut Store, token: u64) {
    store.apply(&submit());
    let answer = store.apply(&Call::SubmitReply(Ok(token)));
    assert!(matches!(answer, Answer::Report(_)), "{answer:?}");
}

fn from(store: &Store, place: u64) -> Option<(u64, RequestId)> {
    match store.ask(&Question::ReportFrom { place }) {
        Answer::ReportAt { place, report } => Some((place, report.id)),
        Answer::NoReport => None,
        answer => panic!("{answer:?}"),
    }
}

#[test]
fn reports_are_found_row_by_row() {
    let mut store = ready_with(4);
    assert_eq!(from(&store, 0), None);
    (0..4).for_each(|token| held(&mut store, token));
    for sequence in [0, 2] {
        store.apply(&Call::PollRequest(id(sequence)));
        store.apply(&completion(&[]));
        store.apply(&Call::ReclaimRequest(id(sequence)));
    }
    // The first free row is row 0.
    held(&mut store, 4);
    assert_eq!(from(&store, 0), Some((0, id(4))));
    assert_eq!(from(&store, 1), Some((1, id(1))));
    assert_eq!(from(&store, 2), Some((3, id(3))));
    assert_eq!(from(&store, 3), Some((3, id(3))));
    for place in [4, 5, u64::MAX] {
        assert_eq!(from(&store, place), None);
    }
    // A submission has no report before its reply.
    store.apply(&submit());
    assert_eq!(from(&store, 2), Some((3, id(3))));
}

const SPEC: Submit<'static> = Submit {
    device: DEVICE,
    endpoint: 0x81,
    transfer_type: TransferType::Bulk,
    direction: Direction::In,
    length: 3,
    setup: None,
    data: &[],
    packets: None,
    readings: [Ok(WORD), Ok(WORD)],
};

/// The place of the reading that is wanted, of port 1.
fn wants(store: &Store, submit: Submit<'_>) -> Option<usize> {
    let before = words(store);
    let answer = store.ask(&Question::SubmitWants(submit));
    assert_eq!(words(store), before);
    let Answer::Wants(wanted) = answer else {
        panic!("{answer:?}")
    };
    assert!(wanted.is_none_or(|wanted| wanted.port == 1));
    wanted.map(|wanted| wanted.reading)
}

/// A reading that is wanted is one by whose error the submission is refused.
#[test]
fn a_submission_wants_each_reading_after_the_checks_before_it() {
    for (readings, wanted) in [
        ([Err(ERROR), Err(ERROR)], Some(0)),
        ([Err(ERROR), Ok(WORD)], Some(0)),
        ([Ok(WORD), Err(ERROR)], Some(1)),
        ([Ok(WORD), Ok(WORD)], None),
        // The cable is pulled: 31 before the second.
        ([Ok(WORD & !1), Err(ERROR)], None),
    ] {
        let mut store = ready();
        let submit = Submit { readings, ..SPEC };
        assert_eq!(wants(&store, submit), wanted, "{readings:?}");
        let answer = store.apply(&Call::SubmitRequestPackets(submit));
        let refused = Answer::Refused(Refusal::new(33, ERROR));
        assert_eq!(answer == refused, wanted.is_some(), "{answer:?}");
    }
}

#[test]
fn a_control_transfer_and_a_plan_want_one_reading() {
    let control = |readings| Submit {
        endpoint: 0,
        transfer_type: TransferType::Control,
        setup: Some(DESCRIPTOR),
        readings,
        ..SPEC
    };
    let store = ready();
    assert_eq!(wants(&store, control([Err(ERROR); 2])), Some(0));
    assert_eq!(wants(&store, control([Ok(WORD), Err(ERROR)])), None);
    let plan_wants = |reading| store.ask(&Question::PlanWants(plan(reading)));
    let Answer::Wants(Some(wanted)) = plan_wants(Err(ERROR)) else {
        panic!("no reading is wanted")
    };
    assert_eq!((wanted.reading, wanted.port), (0, 1));
    assert_eq!(plan_wants(Ok(WORD)), Answer::Wants(None));
}

/// What is refused before a reading wants none.
#[test]
fn what_is_refused_first_wants_nothing() {
    let unread = Submit {
        readings: [Err(ERROR); 2],
        ..SPEC
    };
    let store = ready();
    let long = Submit {
        length: 17,
        ..unread
    };
    let stranger = Submit {
        device: DeviceId { slot: 3, ..DEVICE },
        ..unread
    };
    assert_eq!(wants(&store, long), None);
    assert_eq!(wants(&store, stranger), None);
    let mut store = ready();
    store.apply(&submit());
    // In flight.
    assert_eq!(wants(&store, unread), None);
    store.apply(&Call::SubmitReply(Ok(7)));
    assert_eq!(wants(&store, unread), Some(0));
    held(&mut store, 8);
    // Both rows are used.
    assert_eq!(wants(&store, unread), None);
}

/// Slices of other lengths: the first status that applies, and refusal 3.
#[test]
fn wrong_memory_is_told() {
    let session = *ready().session_words();
    let read = |session: &[u64], row_words: usize, call: &[u64], out: &mut [u64]| {
        let (bus, rows) = (vec![0; BUS_WORDS], vec![0; row_words]);
        let view = View {
            session,
            bus: &bus,
            rows: &rows,
            area: &[0; 32],
        };
        library::read(view, call, &[], out)
    };
    let mut out = [9; 40];
    assert_eq!(read(&[], 0, &[29], &mut []), 1);
    assert_eq!(read(&session[1..], 0, &[25], &mut []), 2);
    assert_eq!(read(&session, 52, &[25], &mut out[..31]), 3);
    assert_eq!(out, [9; 40]);
    assert_eq!(read(&session, 51, &[26, 0], &mut out), 0);
    assert_eq!(out[..3], [0, 3, 0]);
    assert_eq!(out[ANSWER_WORDS..], [9; 8]);
    assert_eq!(read(&session, 52, &[26, 0], &mut out), 0);
    assert_eq!(out[..2], [5, 0]);
    assert_eq!(
        refusal(Store::new(2, 16).ask(&Question::ReportFrom { place: 0 })),
        3
    );
}
