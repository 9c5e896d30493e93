//! The lower layer: two calls for a submission or a poll, malformed calls, and
//! what only the port can refuse.
mod common;

use common::raw::Raw;
use common::store::{ERROR, completion, others, ready, refusal, submit, words};
use common::{DEVICE, ENDPOINTS, WORD, id};
use tapewoad::calls::*;
use tapewoad::library::{self, Memory};
use tapewoad::{ControllerState, Endpoint, Opening, RequestId};

#[test]
fn a_submission_and_a_poll_are_two_calls_each() {
    let mut store = ready();
    let Answer::Begun { begun, packets } = store.apply(&submit()) else {
        panic!("no submission");
    };
    assert_eq!((begun.id, begun.row, packets), (id(0), 0, false));
    assert_eq!(store.buffer(&begun), [1, 2, 3]);
    let answer = store.apply(&Call::SubmitReply(Ok(70)));
    let pending = State::Pending {
        logical_cancel: false,
        timed_out: false,
    };
    assert!(matches!(answer, Answer::Report(report) if report.state == pending));
    let answer = store.apply(&Call::PollRequest(id(0)));
    assert_eq!(answer, Answer::Ask { token: 70 });
    let Answer::Report(report) = store.apply(&completion(&[7, 8])) else {
        panic!("no report");
    };
    assert!(matches!(
        report.state,
        State::Completed {
            actual_length: 2,
            ..
        }
    ));
    assert_eq!(store.completed_bytes(id(0)).unwrap(), [7, 8]);
    assert_eq!(store.bytes(0, 3), [7, 8, 3]);
}

#[test]
fn reports_are_answered_during_a_submission_and_other_calls_are_not() {
    let mut store = ready();
    assert!(matches!(store.apply(&submit()), Answer::Begun { .. }));
    // Held already, though its id has no report before the reply.
    assert_eq!(store.apply(&Call::HeldCount), Answer::Number(1));
    assert_eq!(store.apply(&Call::HeldBytes), Answer::Number(3));
    assert_eq!(refusal(store.apply(&Call::RequestStatus(id(0)))), 40);
    let reports = Call::RequestReports { after: None };
    assert_eq!(store.apply(&reports), Answer::NoReport);
    assert_eq!(store.apply(&Call::CountReports), Answer::Number(0));
    for call in others() {
        assert_eq!(refusal(store.apply(&call)), 1, "{call:?}");
    }
    assert_eq!(refusal(store.apply(&Call::PollReply(Ok(None)))), 2);
    // The refused calls changed nothing: the reply still fits.
    assert!(matches!(
        store.apply(&Call::SubmitReply(Ok(1))),
        Answer::Report(_)
    ));
}

#[test]
fn reports_are_answered_during_a_poll_and_other_calls_are_not() {
    let mut store = ready();
    store.apply(&submit());
    store.apply(&Call::SubmitReply(Ok(1)));
    store.apply(&Call::PollRequest(id(0)));
    let report = store.apply(&Call::RequestStatus(id(0)));
    assert!(matches!(report, Answer::Report(_)));
    let reports = Call::RequestReports { after: None };
    assert_eq!(store.apply(&reports), report);
    let after = Some(id(0));
    assert_eq!(
        store.apply(&Call::RequestReports { after }),
        Answer::NoReport
    );
    assert_eq!(store.completed_bytes(id(0)).unwrap(), []);
    for call in others() {
        assert_eq!(refusal(store.apply(&call)), 1, "{call:?}");
    }
    assert_eq!(refusal(store.apply(&Call::SubmitReply(Ok(2)))), 2);
    assert!(matches!(store.apply(&completion(&[1])), Answer::Report(_)));
}

/// Ids are ordered by session, then by generation, then by sequence.
#[test]
fn reports_are_asked_for_after_any_id() {
    let mut store = ready();
    store.apply(&submit());
    let report = store.apply(&Call::SubmitReply(Ok(1)));
    let mut after = |session, generation, sequence| {
        let id = RequestId {
            session,
            generation,
            sequence,
        };
        store.apply(&Call::RequestReports { after: Some(id) })
    };
    assert_eq!(after(0, 9, 9), report);
    assert_eq!(after(1, 0, 0), Answer::NoReport);
    assert_eq!(after(1, 1, 0), Answer::NoReport);
    assert_eq!(after(2, 0, 0), Answer::NoReport);
}

#[test]
fn replies_that_fit_nothing_are_refused() {
    let mut store = ready();
    for call in [
        Call::SubmitReply(Ok(1)),
        Call::SubmitReply(Err(ERROR)),
        Call::PollReply(Ok(None)),
        completion(&[]),
        Call::RecoveryReply(Err(ERROR)),
    ] {
        assert_eq!(refusal(store.apply(&call)), 2, "{call:?}");
    }
}

#[test]
fn a_failed_submission_frees_its_row_and_spends_its_number() {
    let mut store = ready();
    store.apply(&submit());
    let answer = store.apply(&Call::SubmitReply(Err(ERROR)));
    let refused = Refusal::new(45, ERROR);
    assert_eq!(answer, Answer::Refused(refused));
    let status = store.status();
    assert_eq!(status.state, ControllerState::RecoveryRequired);
    assert_eq!(
        (status.recovery_revision, status.next_sequence),
        (Some(1), 1)
    );
    assert_eq!(store.apply(&Call::HeldCount), Answer::Number(0));
}

#[test]
fn an_opening_ends_what_is_in_flight() {
    let mut store = ready();
    store.apply(&submit());
    assert_eq!(store.open(Opening::new(5, None)), Answer::Passed);
    assert_eq!(store.apply(&Call::HeldCount), Answer::Number(0));
    let status = store.status();
    assert_eq!((status.session, status.ports), (5, None));
    assert_eq!(status.in_flight, None);
    assert_eq!(refusal(store.apply(&Call::SubmitReply(Ok(1)))), 2);
}

#[test]
fn wrong_sizes_are_refused() {
    let mut store = ready();
    let open = |rows, row_bytes| Call::Open {
        opening: Opening::new(1, None),
        rows,
        row_bytes,
    };
    for (rows, row_bytes) in [
        (1, 16),
        (2, 15),
        (3, 16),
        (0, 0),
        (u64::MAX, 1),
        (1, u64::MAX),
    ] {
        let answer = store.apply(&open(rows, row_bytes));
        assert_eq!(refusal(answer), 3, "{rows} {row_bytes}");
    }
    // The session that was open goes on.
    assert!(matches!(store.apply(&submit()), Answer::Begun { .. }));
}

/// 1 comes before 3.
#[test]
fn a_wrong_size_is_not_told_while_something_is_in_flight() {
    let mut raw = Raw::ready(2);
    assert_eq!(raw.apply(&submit())[0], 2);
    raw.rows.pop();
    for call in others() {
        assert_eq!(raw.apply(&call)[..2], [0, 1], "{call:?}");
    }
    assert_eq!(raw.apply(&Call::SubmitReply(Ok(7)))[..2], [0, 3]);
}

#[test]
fn too_many_endpoints_are_refused() {
    let mut store = ready();
    let mut endpoints = [ENDPOINTS[0]; 31];
    endpoints[29] = ENDPOINTS[1];
    let endpoints: &[Endpoint] = &endpoints;
    let call = Call::SetEndpoints { slot: 2, endpoints };
    assert_eq!(refusal(store.apply(&call)), 53);
    let endpoints = &endpoints[..30];
    let call = Call::SetEndpoints { slot: 2, endpoints };
    assert_eq!(store.apply(&call), Answer::Passed);
    // The thirtieth takes requests.
    assert!(matches!(store.apply(&submit()), Answer::Begun { .. }));
}

#[test]
fn words_that_are_no_call_change_nothing() {
    let mut store = ready();
    let before = words(&store);
    let good = submit().words();
    let mut bad = vec![
        vec![],
        vec![25],
        vec![u64::MAX],
        vec![20, 0],
        vec![16, 1, 0],
    ];
    bad.push(good[..26].to_vec());
    // Words outside their field's range: slot, endpoint, type, direction, flag of
    // the SETUP packet, kind of a reading, its word, flag of the packets.
    for (place, word) in [
        (3, 256),
        (4, 256),
        (5, 4),
        (6, 2),
        (8, 2),
        (9, 256),
        (14, 2),
        (15, 1 << 32),
        (16, 7),
        (17, 65_536),
        (18, (1 << 32) + 1),
        (26, 2),
    ] {
        let mut call = good.clone();
        call[place] = word;
        bad.push(call);
    }
    for call in bad {
        assert_eq!(
            store.apply_words(&call, &[1, 2, 3]),
            Err(Status::NoCall),
            "{call:?}"
        );
        assert_eq!(words(&store), before);
    }
    assert!(store.apply_words(&good, &[1, 2, 3]).is_ok());
}

#[test]
fn a_word_too_few_or_too_many_is_no_call() {
    let mut store = ready();
    let plan = Plan {
        device: DEVICE,
        profile: tapewoad::ControlProfile::Compliant,
        setup: tapewoad::SetupPacket {
            request_type: 0,
            request: 1,
            value: 0,
            index: 0,
            length: 0,
        },
        data_stage: None,
        status_direction: None,
        data: &[],
        reading: Ok(WORD),
    };
    for call in others().into_iter().chain([
        Call::SubmitControlPlan(plan),
        Call::SubmitReply(Ok(1)),
        Call::PollReply(Ok(None)),
        Call::RequestStatus(id(0)),
        Call::RequestReports { after: None },
        Call::CountReports,
        Call::CompletedBytes(id(0)),
        Call::HeldCount,
        Call::HeldBytes,
    ]) {
        let words = call.words();
        let fewer = &words[..words.len() - 1];
        assert_eq!(
            store.apply_words(fewer, &[]),
            Err(Status::NoCall),
            "{call:?}"
        );
        // A submission's list of packets may be of any length.
        if !matches!(call, Call::SubmitRequestPackets(_)) {
            let more = [&words[..], &[0]].concat();
            assert_eq!(
                store.apply_words(&more, &[]),
                Err(Status::NoCall),
                "{call:?}"
            );
        }
    }
}

/// Statuses 2 to 4, which no [`Store`] can meet; the first that applies is given.
#[test]
fn wrong_memory_is_told_by_the_status() {
    let apply = |session_words: usize, call: &[u64], out_words: usize, list_words: usize| {
        let (mut session, mut out) = (vec![0; session_words], vec![9; out_words]);
        let (mut bus, mut rows, mut area) = (vec![9; BUS_WORDS], vec![9; ROW_WORDS], vec![9; 4]);
        let mut lists = vec![9; list_words];
        let memory = Memory {
            session: &mut session,
            bus: &mut bus,
            rows: &mut rows,
            area: &mut area,
        };
        let status = library::apply(memory, call, &[], &mut out, &mut lists);
        let kept = [bus, rows, out].concat().iter().all(|it| *it == 9);
        let kept = kept && area == [9; 4] && session.iter().all(|it| *it == 0);
        assert!(status == 0 || kept, "status {status}");
        assert!(lists.iter().all(|it| *it == 9), "status {status}");
        status
    };
    let open = Call::Open {
        opening: Opening::new(1, None),
        rows: 1,
        row_bytes: 4,
    }
    .words();
    let count = Call::HeldCount.words();
    assert_eq!(apply(25, &open, 32, LIST_WORDS), 2);
    assert_eq!(apply(27, &open, 32, LIST_WORDS), 2);
    assert_eq!(apply(0, &open, 0, 0), 2);
    assert_eq!(apply(26, &open, 31, LIST_WORDS), 3);
    assert_eq!(apply(26, &open, 0, 0), 3);
    assert_eq!(apply(26, &open, 32, LIST_WORDS - 1), 4);
    assert_eq!(apply(26, &count, 32, LIST_WORDS - 1), 4);
    assert_eq!(apply(26, &open, 32, 0), 4);
    assert_eq!(apply(0, &[25], 0, 0), 1);
    assert_eq!(apply(26, &open, 32, LIST_WORDS), 0);
    assert_eq!(apply(26, &count, 32, LIST_WORDS), 0);
    assert_eq!(apply(26, &open, 40, 1000), 0);
}

/// An answer is 32 words, zeros where it has fewer of its own; what `out` has
/// past them stays.
#[test]
fn an_answer_takes_32_words() {
    let (mut session, mut out) = ([0; SESSION_WORDS], [9; 40]);
    let (mut bus, mut rows, mut area) = ([9; BUS_WORDS], [9; ROW_WORDS], [9; 4]);
    let memory = Memory {
        session: &mut session,
        bus: &mut bus,
        rows: &mut rows,
        area: &mut area,
    };
    let open = Call::Open {
        opening: Opening::new(1, None),
        rows: 1,
        row_bytes: 4,
    };
    let mut lists = [9; LIST_WORDS];
    let status = library::apply(memory, &open.words(), &[], &mut out, &mut lists);
    assert_eq!((status, out[0]), (0, 1));
    assert_eq!(out[1..ANSWER_WORDS], [0; 31]);
    assert_eq!(out[ANSWER_WORDS..], [9; 8]);
}
